/* night FILE WORDS: plays a night of words on one trace, by one call of the library.

   FILE is a table file. WORDS is a text of numbers: its first line is the trace, as transition numbers from 0;
   every further line is a word, its start stamp and a stamp for each step, in 1/256 tick. Blank lines are left out.

   Of each word it prints the steps in the order of their responses with their due times, in ticks since its start;
   or the first step outside its guard, and by a replay of that word alone whether it is early or late. It is built as
   host.c is.
   Status: 0 the words were played, 1 they were refused, 2 anything else. */

#include <errno.h>
#include <stdio.h>
#include <stdlib.h>
#include <string.h>

#include "sandgusset.h"

/* A step and a word more than there may be, so that too many are refused by the library. */
enum { NIGHT_STEPS = SANDGUSSET_MAX_STEPS + 1, NIGHT_WORDS = SANDGUSSET_MAX_WORDS + 1, NIGHT_NUMBERS = NIGHT_STEPS + 1,
       NIGHT_PLACES = NIGHT_STEPS * NIGHT_WORDS };

static uint8_t file[8192], trace[2 * NIGHT_NUMBERS], starts[4 * NIGHT_WORDS], stamps[4 * NIGHT_PLACES];
static uint8_t order[2 * NIGHT_PLACES], due[4 * NIGHT_PLACES], marks[2 * NIGHT_WORDS];
static char where[32]; /* the line of the text that was read last */

static void night_fail(const char *what, const char *why)
{
    fprintf(stderr, "night: %s: %s\n", what, why);
    exit(2);
}

static FILE *night_open(const char *name)
{
    FILE *opened = fopen(name, "rb");

    if (opened == NULL || (ungetc(getc(opened), opened) == EOF && ferror(opened)))
        night_fail(name, strerror(errno));
    return opened;
}

/* Reads the next line that is not blank. How many numbers it has; 0 at the end of the text. */
static size_t night_line(FILE *text, uint32_t numbers[NIGHT_NUMBERS])
{
    static const char blank[] = " \t\r\n";
    static char chars[1 << 14];
    static unsigned line;
    size_t count = 0;

    while (count == 0 && fgets(chars, sizeof chars, text) != NULL) {
        char *at = chars + strspn(chars, blank), *end;

        snprintf(where, sizeof where, "line %u", ++line);
        for (; *at != '\0'; at = end + strspn(end, blank)) {
            unsigned long long number = strtoull(at, &end, 10);

            if (*at < '0' || *at > '9' || strchr(blank, *end) == NULL || number > UINT32_MAX)
                night_fail(where, "not a row of numbers up to 4,294,967,295");
            if (count == NIGHT_NUMBERS || (*end == '\0' && !feof(text)))
                night_fail(where, "too long");
            numbers[count++] = (uint32_t)number;
        }
    }
    return count;
}

/* Whether the step that word w was refused by came early or late: a mark names the step alone, the replay of the word by
   itself is refused with 9 or 12. */
static const char *night_side(size_t length, size_t steps, size_t w)
{
    uint64_t answer = sandgusset_replay(file, length, trace, 2 * steps, sandgusset_get32(starts, w),
                                        stamps + 4 * w * steps, 4 * steps,
                                        order + 2 * w * steps, 2 * steps, due + 4 * w * steps, 4 * steps);

    return sandgusset_status(answer) == SANDGUSSET_EARLY ? "early" : "late";
}

int main(int argc, char **argv)
{
    uint32_t numbers[NIGHT_NUMBERS];
    size_t words, w, j;

    if (argc != 3)
        night_fail("wrong call", "night FILE WORDS");
    size_t length = fread(file, 1, sizeof file, night_open(argv[1]));
    FILE *text = night_open(argv[2]);
    size_t steps = night_line(text, numbers);
    for (j = 0; j < steps; j++)     /* no transition has a number as great as that */
        sandgusset_put16(trace, j, (uint16_t)(numbers[j] > 65535 ? 65535 : numbers[j]));
    for (words = 0; words < NIGHT_WORDS && (j = night_line(text, numbers)) > 0; words++) {
        if (j != steps + 1)
            night_fail(where, "not a start and a stamp for each step");
        sandgusset_put32(starts, words, numbers[0]);
        for (j = 0; j < steps; j++)
            sandgusset_put32(stamps, words * steps + j, numbers[j + 1]);
    }
    uint64_t answer = sandgusset_replay_words(file, length, trace, 2 * steps, starts, 4 * words, stamps, 4 * words * steps,
                                              order, sizeof order, due, sizeof due, marks, sizeof marks);
    unsigned number = sandgusset_status(answer);
    if (number != SANDGUSSET_REPLAYED)
        printf("refused %u at %u: %s\n", number, sandgusset_first(answer), sandgusset_text(number));
    for (w = 0; w < sandgusset_first(answer) && number == SANDGUSSET_REPLAYED; w++) {
        unsigned mark = sandgusset_get16(marks, w);
        printf("word %u:", (unsigned)w + 1);
        if (mark != 0)
            printf(" step %u is %s", mark, night_side(length, steps, w));
        for (j = w * steps; mark == 0 && j < (w + 1) * steps; j++)
            printf("%s %u at %.3f", j > w * steps ? "," : "", sandgusset_get16(order, j), sandgusset_get32(due, j) / 256.0);
        printf("\n");
    }
    return number != SANDGUSSET_REPLAYED;
}

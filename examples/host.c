/* host FILE: a small bench host that links the library.

   It reads a table file, asks for the verdict on it and shows what the verdict
   rests on. For a turning table it plays the two words it was shown and prints
   the two orders of the responses side by side. Steps K and M, which change
   places, have different output letters; steps with like letters may do so too.

   Build it with the installed kit,

       cc -std=c99 examples/host.c $(pkg-config --cflags --libs sandgusset) -o host

   or with the header's directory and the library's archive, for instance

       cc -std=c99 -I include examples/host.c ARCHIVE -o host

   Status: 0 the table was judged, 1 it was refused, 2 anything else. */

#include <errno.h>
#include <stddef.h>
#include <stdint.h>
#include <stdio.h>
#include <string.h>

#include "sandgusset.h"

/* A shown trace has at most as many steps as a verdict on a table needs trace
   places, so that many places are enough for each buffer of a replay too.
   The longest table file has 4,620 bytes. We read some more, so that a file with
   a tail is refused by the library, with a number and a place. */
enum { HOST_STEPS = SANDGUSSET_TRACE_PLACES, HOST_FILE_BYTES = 8192 };

enum { HOST_JUDGED = 0, HOST_REFUSED = 1, HOST_FAILED = 2 };

/* Times are counts of 1/256 tick. Three decimals keep any two of them apart. */
static double host_ticks(uint32_t parts)
{
    return parts / 256.0;
}

/* The output letter of a transition, from the table file itself. */
static unsigned host_output(const uint8_t *file, size_t file_bytes, unsigned number)
{
    struct sandgusset_transition transition = { 0, 0, 0, 0, 0, 0, 0 };

    sandgusset_get_transition(file, file_bytes, number, &transition);
    return transition.output;
}

/* ---- Refusals ---- */

/* The place is a byte of the file for 1 to 5, a step for 9 and 12, and else 0. */
static void host_print_refusal(FILE *to, uint64_t answer)
{
    unsigned number = sandgusset_status(answer);

    fprintf(to, "refused %u at %u: %s\n", number, sandgusset_first(answer), sandgusset_text(number));
}

/* ---- Split ---- */

/* Two traces, alike but for their last step, that one word activates: the first
   stands in the trace places, the last step of the second is the answer's J. */
static void host_print_split(uint64_t answer, const uint8_t *trace, const uint8_t *stamps)
{
    unsigned steps = sandgusset_steps(answer);
    unsigned j;

    printf("split: transitions %u and %u are open to one input at one time\n\n",
           sandgusset_first(answer), sandgusset_second(answer));
    printf("Two traces and the word of both, stamps in ticks\n");
    printf("    step  first trace  second trace       stamp\n");
    for (j = 0; j < steps; j++) {
        unsigned first = sandgusset_get16(trace, j);
        unsigned second = j + 1 == steps ? sandgusset_second(answer) : first;

        printf("  %c %4u %12u %13u %11.3f\n", first == second ? ' ' : '*', j + 1, first, second,
               host_ticks(sandgusset_get32(stamps, j)));
    }
}

/* ---- Turning ---- */

/* One word, played: its steps in the order of their responses, counted from 1,
   and beside each the time at which its response is due. */
struct host_played {
    uint8_t order[2 * HOST_STEPS];
    uint8_t due[4 * HOST_STEPS];
};

/* Plays the word of STAMPS on the trace, from stamp 0. Both lists are handed
   over with exactly the bytes they have; the buffers may be longer. */
static int host_play(struct host_played *played, const uint8_t *file, size_t file_bytes,
                     const uint8_t *trace, const uint8_t *stamps, unsigned steps)
{
    uint64_t answer = sandgusset_replay(file, file_bytes, trace, 2 * (size_t)steps, 0, stamps, 4 * (size_t)steps,
                                        played->order, sizeof played->order, played->due, sizeof played->due);

    if (sandgusset_status(answer) == SANDGUSSET_REPLAYED)
        return 1;
    fprintf(stderr, "host: the replay of a shown word was refused\n");
    host_print_refusal(stderr, answer);
    return 0;
}

/* Does step A respond before step B? */
static int host_before(const struct host_played *played, unsigned steps, unsigned a, unsigned b)
{
    unsigned i;

    for (i = 0; i < steps; i++) {
        unsigned step = sandgusset_get16(played->order, i);

        if (step == a || step == b)
            return step == a;
    }
    return 0;
}

static char host_mark(uint64_t answer, unsigned step)
{
    return step == sandgusset_first(answer) ? 'K' : step == sandgusset_second(answer) ? 'M' : ' ';
}

static void host_print_response(const struct host_played *played, unsigned i, uint64_t answer,
                                const uint8_t *file, size_t file_bytes, const uint8_t *trace)
{
    unsigned step = sandgusset_get16(played->order, i);
    unsigned output = host_output(file, file_bytes, sandgusset_get16(trace, step - 1));

    printf("  %c %4u %7u %11.3f", host_mark(answer, step), step, output,
           host_ticks(sandgusset_get32(played->due, i)));
}

/* The late word comes first in the stamp places, the early word right after it:
   it begins at place STEPS, wherever that is. */
static int host_print_turning(uint64_t answer, const uint8_t *file, size_t file_bytes,
                              const uint8_t *trace, const uint8_t *stamps)
{
    static struct host_played late, early;
    const uint8_t *late_stamps = stamps;
    unsigned k = sandgusset_first(answer), m = sandgusset_second(answer), steps = sandgusset_steps(answer);
    const uint8_t *early_stamps = stamps + 4 * (size_t)steps;
    unsigned j;

    if (!host_play(&late, file, file_bytes, trace, late_stamps, steps) ||
        !host_play(&early, file, file_bytes, trace, early_stamps, steps))
        return HOST_FAILED;

    printf("turning: steps K = %u and M = %u respond in either order\n\n", k, m);

    printf("The trace and its two words, stamps in ticks\n");
    printf("    step  transition        late       early\n");
    for (j = 0; j < steps; j++)
        printf("  %c %4u %11u %11.3f %11.3f\n", host_mark(answer, j + 1), j + 1, sandgusset_get16(trace, j),
               host_ticks(sandgusset_get32(late_stamps, j)), host_ticks(sandgusset_get32(early_stamps, j)));

    printf("\nThe two orders of responses, due times in ticks\n");
    printf("    late word                   |    early word\n");
    printf("    step  output         due    |    step  output         due\n");
    for (j = 0; j < steps; j++) {
        host_print_response(&late, j, answer, file, file_bytes, trace);
        printf("    |");
        host_print_response(&early, j, answer, file, file_bytes, trace);
        printf("\n");
    }

    if (!host_before(&late, steps, k, m) || !host_before(&early, steps, m, k)) {
        fprintf(stderr, "host: K and M have not changed places; is this the right library?\n");
        return HOST_FAILED;
    }
    return HOST_JUDGED;
}

/* ---- The file and the verdict ---- */

/* Reads the file into BYTES, which has one place more than a file may have. */
static int host_read(const char *name, uint8_t bytes[HOST_FILE_BYTES + 1], size_t *count)
{
    FILE *file = fopen(name, "rb");
    int broken;

    if (file == NULL) {
        fprintf(stderr, "host: can't open %s: %s\n", name, strerror(errno));
        return 0;
    }
    errno = 0;
    *count = fread(bytes, 1, HOST_FILE_BYTES + 1, file);
    broken = ferror(file);
    if (broken)
        fprintf(stderr, "host: can't read %s: %s\n", name, strerror(errno));
    else if (*count > HOST_FILE_BYTES)
        fprintf(stderr, "host: %s has more than %d bytes, too long for a table file\n",
                name, (int)HOST_FILE_BYTES);
    fclose(file);
    return !broken && *count <= HOST_FILE_BYTES;
}

int main(int argc, char **argv)
{
    static uint8_t file[HOST_FILE_BYTES + 1];
    static uint8_t trace[SANDGUSSET_TRACE_BYTES];
    static uint8_t stamps[SANDGUSSET_STAMP_BYTES];
    size_t file_bytes;
    uint64_t answer;

    if (argc != 2) {
        fprintf(stderr, "usage: host FILE\n");
        return HOST_FAILED;
    }
    if (!host_read(argv[1], file, &file_bytes))
        return HOST_FAILED;

    /* The library reads the file and writes into the two lent buffers; they must
       not overlap. It keeps none of them. */
    answer = sandgusset_judge(file, file_bytes, trace, sizeof trace, stamps, sizeof stamps);

    if (sandgusset_status(answer) == SANDGUSSET_STRICT) {
        printf("strict: no word activates two traces, and responses that can be told apart come in one order\n");
        return HOST_JUDGED;
    }
    if (sandgusset_refused(answer)) {
        host_print_refusal(stdout, answer);
        return HOST_REFUSED;
    }
    if (sandgusset_status(answer) == SANDGUSSET_SPLIT && sandgusset_steps(answer) <= HOST_STEPS) {
        host_print_split(answer, trace, stamps);
        return HOST_JUDGED;
    }
    if (sandgusset_status(answer) == SANDGUSSET_TURNING && sandgusset_steps(answer) <= HOST_STEPS)
        return host_print_turning(answer, file, file_bytes, trace, stamps);

    fprintf(stderr, "host: an answer that this host does not know: %u %u %u %u\n",
            sandgusset_status(answer), sandgusset_first(answer), sandgusset_second(answer), sandgusset_steps(answer));
    return HOST_FAILED;
}

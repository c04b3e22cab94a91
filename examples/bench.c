/* bench FILE: plays the witness of a turning table move by move, and prints the responses as they are issued.

   FILE is a table file. If the judge calls it turning, its late and its early word are played with the library's player:
   time passes until the next input or the next due response, whichever comes first, and all that is due is issued before
   an input. Two responses that can be told apart, K and M, come in one order under the late word, in the other under the
   early one. It is built as host.c is.
   Status: 0 the table was judged, 1 it was refused, 2 anything else. */

#include <errno.h>
#include <stdio.h>
#include <stdlib.h>
#include <string.h>

#include "sandgusset.h"

enum { BENCH_FILE_BYTES = 8192 };

/* The table, the player's two buffers, and what this host keeps beside them. */
struct bench {
    const uint8_t *file;
    size_t file_bytes;
    uint8_t config[SANDGUSSET_PLAYER_CONFIG_BYTES], waiting[SANDGUSSET_PLAYER_WAITING_BYTES];
    uint64_t now;               /* since the start, in 1/256 tick */
    unsigned k, m, first;       /* the pair, and which of the two was issued first */
};

static void bench_fail(const char *what, const char *why)
{
    fprintf(stderr, "bench: %s: %s\n", what, why);
    exit(2);
}

/* A shown word is played to its end: no move of it is refused. */
static uint64_t bench_moved(const char *what, uint64_t answer)
{
    if (sandgusset_refused(answer))
        bench_fail(what, sandgusset_text(sandgusset_status(answer)));
    return answer;
}

/* ---- The moves ---- */

static void bench_output(struct bench *b)
{
    uint64_t issued = bench_moved("output", sandgusset_player_output(b->file, b->file_bytes, b->config, sizeof b->config,
                                                                     b->waiting, sizeof b->waiting));
    unsigned step = sandgusset_first(issued);
    const char *mark = step == b->k ? "  K" : step == b->m ? "  M" : "";

    printf("%11.3f  output %3u  step %3u%s\n", (double)b->now / 256, sandgusset_second(issued), step, mark);
    if (b->first == 0 && *mark != '\0')
        b->first = step;
}

/* Lets so much time pass and issues all that falls due on the way, also what is due at its end. */
static void bench_wait(struct bench *b, uint32_t parts)
{
    for (;;) {
        uint32_t next = sandgusset_time_to_next(b->config, b->waiting);

        if (next == 0) {
            bench_output(b);
        } else if (parts == 0) {
            return;
        } else {
            uint32_t step = parts < next ? parts : next;

            bench_moved("time", sandgusset_player_time(b->file, b->file_bytes, b->config, sizeof b->config, b->waiting,
                                                       sizeof b->waiting, step));
            b->now += step;
            parts -= step;
        }
    }
}

static void bench_input(struct bench *b, uint16_t letter)
{
    uint64_t taken = bench_moved("input", sandgusset_player_input(b->file, b->file_bytes, b->config, sizeof b->config,
                                                                  b->waiting, sizeof b->waiting, letter));

    printf("%11.3f  input  %3u  step %3u  transition %u\n", (double)b->now / 256, letter,
           sandgusset_get_config(b->config).inputs, sandgusset_first(taken));
}

/* ---- A word ---- */

/* Plays a word of STEPS stamps from stamp 0, then waits until nothing waits. Which of K and M was issued first. */
static unsigned bench_play(struct bench *b, const char *name, const uint8_t *trace, const uint8_t *stamps, unsigned steps)
{
    uint32_t before = 0;
    unsigned j;

    bench_moved("start", sandgusset_player_start(b->file, b->file_bytes, b->config, sizeof b->config, b->waiting,
                                                 sizeof b->waiting));
    b->now = 0;
    b->first = 0;
    printf("\nThe %s word, times in ticks\n", name);
    for (j = 0; j < steps; j++) {
        struct sandgusset_transition t = { 0, 0, 0, 0, 0, 0, 0 };

        bench_wait(b, sandgusset_get32(stamps, j) - before);
        before = sandgusset_get32(stamps, j);
        sandgusset_get_transition(b->file, b->file_bytes, sandgusset_get16(trace, j), &t);
        bench_input(b, t.input);
    }
    while (sandgusset_get_config(b->config).waiting > 0)
        bench_wait(b, sandgusset_time_to_next(b->config, b->waiting));
    return b->first;
}

int main(int argc, char **argv)
{
    static uint8_t file[BENCH_FILE_BYTES], trace[SANDGUSSET_TRACE_BYTES], stamps[SANDGUSSET_STAMP_BYTES];
    static struct bench b;
    FILE *opened;
    uint64_t answer;
    unsigned number, steps;

    if (argc != 2)
        bench_fail("wrong call", "bench FILE");
    opened = fopen(argv[1], "rb");
    if (opened == NULL || (ungetc(getc(opened), opened) == EOF && ferror(opened)))
        bench_fail(argv[1], strerror(errno));
    b.file = file;
    b.file_bytes = fread(file, 1, sizeof file, opened);
    answer = sandgusset_judge(b.file, b.file_bytes, trace, sizeof trace, stamps, sizeof stamps);
    number = sandgusset_status(answer);
    steps = sandgusset_steps(answer);
    if (sandgusset_refused(answer)) {
        printf("refused %u at %u: %s\n", number, sandgusset_first(answer), sandgusset_text(number));
        return 1;
    }
    if (number != SANDGUSSET_TURNING) {     /* the player starts on no split table */
        printf("%s: there are no two words to play\n", number == SANDGUSSET_STRICT ? "strict" : "split");
        return 0;
    }
    b.k = sandgusset_first(answer);
    b.m = sandgusset_second(answer);
    printf("turning: steps K = %u and M = %u respond in either order\n", b.k, b.m);
    if (bench_play(&b, "late", trace, stamps, steps) != b.k ||
        bench_play(&b, "early", trace, stamps + 4 * (size_t)steps, steps) != b.m)
        bench_fail(argv[1], "K and M have not changed places; is this the right library?");
    return 0;
}

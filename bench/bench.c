/* Time per call of the library and of what it is held against, from one alternating run, and the library's stack.
 *
 * Links the library's calls (sandgusset_...) with those of bench/sandgusset.c (base_...) and of bench/best.c, which comes
 * with its own search (best_...) and with a plain one (plain_...) and has no player. bench/run builds it, runs it and prints a table of what it
 * says. It says, in lines whose words are parted by tabs:
 *   time   group  name  goal (greatest ratio, or 0)  side that it is held against  seconds per call of each side (0: not run)
 *   stack  call   bytes that it used  bytes that the header names
 *   wrong  what
 * `bench --stack` says the stack and what is wrong alone; `bench --files DIRECTORY` writes the table files that it uses
 * instead.
 */
#define _GNU_SOURCE
#include <stdio.h>
#include <stdlib.h>
#include <string.h>
#include <sys/mman.h>
#include <time.h>
#include <ucontext.h>

#include "works.h"

/* ---- calls ---- */

typedef uint64_t on_table(const uint8_t *, size_t, uint8_t *, size_t, uint8_t *, size_t);
typedef uint64_t on_trace(const uint8_t *, size_t, const uint8_t *, size_t, uint8_t *, size_t);
typedef uint64_t on_word(const uint8_t *, size_t, const uint8_t *, size_t, uint32_t, const uint8_t *, size_t, uint8_t *, size_t,
                         uint8_t *, size_t);
typedef uint64_t on_words(const uint8_t *, size_t, const uint8_t *, size_t, const uint8_t *, size_t, const uint8_t *, size_t,
                          uint8_t *, size_t, uint8_t *, size_t, uint8_t *, size_t);
typedef uint64_t on_file(const uint8_t *, size_t, uint8_t *, size_t);

on_table base_judge, best_judge, plain_judge, base_order, best_order, plain_order;
on_trace base_judge_trace, best_judge_trace, plain_judge_trace;
on_word base_replay, best_replay, plain_replay;
on_words base_replay_words, best_replay_words, plain_replay_words;
on_file base_rewrite, best_rewrite, plain_rewrite;

typedef uint64_t on_config(const uint8_t *, size_t, uint8_t *, size_t, uint8_t *, size_t);
typedef uint64_t on_time(const uint8_t *, size_t, uint8_t *, size_t, uint8_t *, size_t, uint32_t);
typedef uint64_t on_input(const uint8_t *, size_t, uint8_t *, size_t, uint8_t *, size_t, uint16_t);

on_config base_player_start, base_player_output;
on_time base_player_time;
on_input base_player_input;

#define CALLS_OF(side) side##_judge, side##_order, side##_judge_trace, side##_replay, side##_replay_words, side##_rewrite

static const struct {
    const char *name;
    on_table *judge, *order;
    on_trace *judge_trace;
    on_word *replay;
    on_words *replay_words;
    on_file *rewrite;
} sides[SIDES] = { { "library", CALLS_OF(sandgusset) },
                   { "plain C", CALLS_OF(base) },
                   { "best C", CALLS_OF(best) },
                   { "best C with a plain search", CALLS_OF(plain) } };

static const char *const call_names[CALLS] = { "judge",   "order",        "judge_trace", "replay",       "replay_words",
                                               "rewrite", "player_start", "player_time", "player_input", "player_output" };
static const char *const group_names[GROUPS] = { "calls", "words", "moves", "transitions", "delay", "trace", "replay", "stack" };

static uint8_t room16[2 * SANDGUSSET_MAX_STEPS], room32[8 * SANDGUSSET_MAX_STEPS], room_file[SANDGUSSET_MAX_FILE];

/* The rooms for what a night of words is answered. */
enum { NIGHT_STEPS = SANDGUSSET_MAX_WORDS * SANDGUSSET_MAX_STEPS };
static uint8_t night_order[2 * NIGHT_STEPS], night_due[4 * NIGHT_STEPS], night_marks[2 * SANDGUSSET_MAX_WORDS];

static uint64_t in_one_call(enum side side, const struct work *w)
{
    return sides[side].replay_words(w->file, w->file_len, w->trace, w->trace_len, night_starts, 4 * (size_t)w->words,
                                    night_stamps, 4 * (size_t)w->words * SANDGUSSET_MAX_STEPS, night_order, sizeof night_order,
                                    night_due, sizeof night_due, night_marks, sizeof night_marks);
}

/* Answers as the last word is answered, or the first that is refused. */
static uint64_t one_by_one(enum side side, const struct work *w)
{
    uint64_t answer = 0;
    for (unsigned i = 0; i < w->words && !sandgusset_refused(answer); i++) {
        size_t at = (size_t)i * SANDGUSSET_MAX_STEPS;
        answer = sides[side].replay(w->file, w->file_len, w->trace, w->trace_len, sandgusset_get32(night_starts, i),
                                    night_stamps + 4 * at, 4 * SANDGUSSET_MAX_STEPS, night_order + 2 * at,
                                    2 * SANDGUSSET_MAX_STEPS, night_due + 4 * at, 4 * SANDGUSSET_MAX_STEPS);
    }
    return answer;
}

/* A move from the work's own configuration and records: the records that wait and one place more are laid out anew. */
static uint64_t move(enum side side, const struct work *w)
{
    static uint8_t config[SANDGUSSET_PLAYER_CONFIG_BYTES], waiting[SANDGUSSET_PLAYER_WAITING_BYTES];
    size_t held = SANDGUSSET_PLAYER_RECORD_BYTES * (size_t)sandgusset_get16(w->config, 2);
    memcpy(config, w->config, sizeof config);
    memcpy(waiting, w->waiting, held);
    switch (w->call) {
    case START:
        return (side == LIBRARY ? sandgusset_player_start : base_player_start)(w->file, w->file_len, config, sizeof config,
                                                                               waiting, sizeof waiting);
    case TIME:
        return (side == LIBRARY ? sandgusset_player_time : base_player_time)(w->file, w->file_len, config, sizeof config,
                                                                             waiting, sizeof waiting, w->move);
    case INPUT:
        return (side == LIBRARY ? sandgusset_player_input : base_player_input)(w->file, w->file_len, config, sizeof config,
                                                                               waiting, sizeof waiting, (uint16_t)w->move);
    default:
        return (side == LIBRARY ? sandgusset_player_output : base_player_output)(w->file, w->file_len, config, sizeof config,
                                                                                 waiting, sizeof waiting);
    }
}

static uint64_t perform(enum side side, const struct work *w)
{
    if (w->call >= START)
        return move(side, w);
    switch (w->call) {
    case JUDGE:
        return sides[side].judge(w->file, w->file_len, room16, SANDGUSSET_TRACE_BYTES, room32, SANDGUSSET_STAMP_BYTES);
    case ORDER:
        return sides[side].order(w->file, w->file_len, room16, SANDGUSSET_TRACE_BYTES, room32, SANDGUSSET_ORDER_BYTES);
    case JUDGE_TRACE:
        return sides[side].judge_trace(w->file, w->file_len, w->trace, w->trace_len, room32, sizeof room32);
    case REPLAY_WORDS:
        return in_one_call(side, w);
    case REPLAY:
        if (w->words > 0)
            return one_by_one(side, w);
        return sides[side].replay(w->file, w->file_len, w->trace, w->trace_len, 0, w->stamps, w->stamps_len, room16,
                                  sizeof room16, room32, sizeof room32);
    default:
        return sides[side].rewrite(w->file, w->file_len, room_file, sizeof room_file);
    }
}

/* The best C has no player. */
static int has(enum side side, const struct work *w)
{
    return w->call < START || side == LIBRARY || side == PLAIN_C;
}

/* Its two builds differ in their search alone. */
static int is_run(enum side side, const struct work *w)
{
    return has(side, w) && (side != PLAIN_SEARCH || w->call == JUDGE || w->call == ORDER);
}

/* ---- time ---- */

enum { LEAST_ROUNDS = 31, MOST_ROUNDS = 1001 };
#define A_RUN 0.0002           /* seconds that one side's calls take in a round, at the least */
#define ALL_ROUNDS 0.4         /* seconds of rounds, where that is more than the least number */

static double now(void)
{
    struct timespec t;
    clock_gettime(CLOCK_MONOTONIC, &t);
    return (double)t.tv_sec + 1e-9 * (double)t.tv_nsec;
}

static volatile uint64_t sink;

static double seconds(enum side side, const struct work *w, unsigned times)
{
    uint64_t sum = 0;
    double began = now();
    for (unsigned i = 0; i < times; i++)
        sum += perform(side, w);
    sink = sum;
    return (now() - began) / times;
}

static int compare(const void *a, const void *b)
{
    double x = *(const double *)a, y = *(const double *)b;
    return (x > y) - (x < y);
}

/* The tenth part of the runs was quicker than this: what the machine does beside us only makes runs slower. */
static double tenth(double *numbers, unsigned count)
{
    qsort(numbers, count, sizeof *numbers, compare);
    return numbers[count / 10];
}

/* So many calls make a run that is long enough to be timed. */
static unsigned times_for(enum side side, const struct work *w)
{
    unsigned times = 1;
    while (seconds(side, w, times) * times < A_RUN)
        times *= 2;
    return times;
}

/* All sides by turns, each first as often as the others, in many short runs. */
static void measure(struct work *w)
{
    static double of[SIDES][MOST_ROUNDS];
    unsigned times[SIDES], rounds = 0;
    for (int side = LIBRARY; side < SIDES; side++)
        times[side] = is_run((enum side)side, w) ? times_for((enum side)side, w) : 0;
    double began = now();
    while (rounds < LEAST_ROUNDS || (rounds < MOST_ROUNDS && now() - began < ALL_ROUNDS)) {
        for (unsigned turn = 0; turn < SIDES; turn++) {
            enum side side = (enum side)((rounds + turn) % SIDES);
            of[side][rounds] = times[side] > 0 ? seconds(side, w, times[side]) : 0;
        }
        rounds++;
    }
    for (int side = LIBRARY; side < SIDES; side++)
        w->time[side] = tenth(of[side], rounds);
}

/* ---- stack ---- */

enum { STACK = 4 << 20, FORBIDDEN = 1 << 16 };

static const struct work *on_stack;     /* NULL: an empty call */
static ucontext_t outside, inside;

static void call_on_stack(void)
{
    if (on_stack != NULL)
        sink = perform(LIBRARY, on_stack);
}

/* Bytes of stack that the call touches. The stack is painted first, and what lost its paint was used. */
static size_t stack_used(const struct work *w)
{
    static uint8_t *stack;
    const uint64_t paint = 0x5AC35AC35AC35AC3u;
    if (stack == NULL) {
        stack = mmap(NULL, STACK + FORBIDDEN, PROT_READ | PROT_WRITE, MAP_PRIVATE | MAP_ANONYMOUS, -1, 0);
        if (stack == MAP_FAILED || mprotect(stack, FORBIDDEN, PROT_NONE) != 0) {
            fprintf(stderr, "bench: no memory for a stack\n");
            exit(2);
        }
        stack += FORBIDDEN;
    }
    uint64_t *words = (uint64_t *)(void *)stack;
    for (size_t i = 0; i < STACK / 8; i++)
        words[i] = paint;
    on_stack = w;
    getcontext(&inside);
    inside.uc_stack.ss_sp = stack;
    inside.uc_stack.ss_size = STACK;
    inside.uc_link = &outside;
    makecontext(&inside, call_on_stack, 0);
    swapcontext(&outside, &inside);
    size_t i = 0;
    while (i < STACK / 8 && words[i] == paint)
        i++;
    return STACK - 8 * i;
}

/* The most that each call takes on any of the works, over what an empty call takes. */
static void tell_stacks(void)
{
    static const size_t limits[CALLS] = { SANDGUSSET_STACK_JUDGE, SANDGUSSET_STACK_ORDER, SANDGUSSET_STACK_JUDGE_TRACE,
                                          SANDGUSSET_STACK_REPLAY, SANDGUSSET_STACK_REPLAY_WORDS,
                                          SANDGUSSET_STACK_REWRITE, SANDGUSSET_STACK_PLAYER_START,
                                          SANDGUSSET_STACK_PLAYER_TIME, SANDGUSSET_STACK_PLAYER_INPUT,
                                          SANDGUSSET_STACK_PLAYER_OUTPUT };
    size_t empty = stack_used(NULL), most[CALLS] = { 0 };
    for (unsigned i = 0; i < work_count; i++) {
        size_t used = stack_used(&works[i]);
        used = used > empty ? used - empty : 0;
        if (used > most[works[i].call])
            most[works[i].call] = used;
    }
    for (int call = 0; call < CALLS; call++)
        printf("stack\t%s\t%lu\t%lu\n", call_names[call], (unsigned long)most[call], (unsigned long)limits[call]);
}

/* ---- what is told ---- */

static void tell_time(const char *group, const char *name, double goal, enum side against, const double *time)
{
    printf("time\t%s\t%s\t%.2f\t%d", group, name, goal, (int)against);
    for (int side = LIBRARY; side < SIDES; side++)
        printf("\t%.12f", time[side]);
    printf("\n");
    fflush(stdout);
}

/* What a word costs after the first one. */
static void tell_further_word(void)
{
    double further[SIDES];
    for (int side = LIBRARY; side < SIDES; side++)
        further[side] = (many_words->time[side] - one_word->time[side]) / (many_words->words - one_word->words);
    tell_time(group_names[BY_WORDS], "replay_words: each further word", many_words->goal, many_words->against, further);
}

static void tell_times(void)
{
    for (unsigned i = 0; i < work_count; i++)
        if (works[i].group != FOR_STACK) {
            struct work *w = &works[i];
            measure(w);
            tell_time(group_names[w->group], w->name, w->goal, w->against, w->time);
        }
    tell_further_word();
}

/* Is a word of the last night marked as refused? */
static int any_marked(const struct work *w)
{
    for (unsigned i = 0; w->call == REPLAY_WORDS && i < w->words; i++)
        if (sandgusset_get16(night_marks, i) != 0)
            return 1;
    return 0;
}

static void tell_wrongs(void)
{
    for (unsigned i = 0; i < work_count; i++)
        for (int side = LIBRARY; side < SIDES; side++) {
            if (!has((enum side)side, &works[i]))
                continue;
            uint64_t answer = perform((enum side)side, &works[i]);
            if (sandgusset_status(answer) != works[i].wanted)
                printf("wrong\tthe %s answers status %u to '%s', wanted %u\n", sides[side].name, sandgusset_status(answer),
                       works[i].name, (unsigned)works[i].wanted);
            else if (any_marked(&works[i]))
                printf("wrong\tthe %s marks a word of '%s'\n", sides[side].name, works[i].name);
        }
}

static int write_files(const char *directory)
{
    for (unsigned i = 0; i < work_count; i++) {
        char path[4096];
        snprintf(path, sizeof path, "%s/%02u.bin", directory, i);
        FILE *f = fopen(path, "wb");
        if (f == NULL || fwrite(works[i].file, 1, works[i].file_len, f) != works[i].file_len || fclose(f) != 0)
            return 1;
        printf("%s %u %s\n", path, (unsigned)works[i].wanted, works[i].name);
    }
    return 0;
}

int main(int argc, char **argv)
{
    make_works();
    if (argc > 2 && strcmp(argv[1], "--files") == 0)
        return write_files(argv[2]);
    tell_wrongs();
    tell_stacks();
    if (argc == 1)
        tell_times();
    return 0;
}

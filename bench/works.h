/* What bench.c measures: a call on a table file, with what it is lent. works.c makes them. */
#ifndef SANDGUSSET_WORKS_H
#define SANDGUSSET_WORKS_H

#include "sandgusset.h"

enum call { JUDGE, ORDER, JUDGE_TRACE, REPLAY, REPLAY_WORDS, REWRITE, START, TIME, INPUT, OUTPUT, CALLS };

/* Whose times stand side by side. The two last ones are bench/best.c; they differ on whole tables alone. */
enum side { LIBRARY, PLAIN_C, BEST, PLAIN_SEARCH, SIDES };

/* Groups of rows; what is in the last one is not timed. */
enum group { BY_CALL, BY_WORDS, BY_MOVE, BY_TRANSITIONS, BY_DELAY, BY_TRACE, BY_REPLAY, FOR_STACK, GROUPS };

struct work {
    char name[80];
    enum group group;
    enum call call;
    enum side against;          /* the goal is a ratio to this side */
    double goal;                /* greatest ratio, or 0 */
    uint64_t wanted;            /* status that the answer must have */
    uint8_t file[SANDGUSSET_MAX_FILE];
    size_t file_len;
    uint8_t trace[2 * SANDGUSSET_MAX_STEPS];
    size_t trace_len;
    uint8_t stamps[4 * SANDGUSSET_MAX_STEPS];
    size_t stamps_len;
    unsigned words;             /* so many of the night; in a replay one by one, instead of its own stamps */
    uint8_t config[SANDGUSSET_PLAYER_CONFIG_BYTES], waiting[SANDGUSSET_PLAYER_WAITING_BYTES];
    uint32_t move;              /* parts of time, or a letter */
    double time[SIDES];
};

extern struct work works[];
extern unsigned work_count;
extern const struct work *many_words, *one_word;

/* Words of 512 steps. */
extern uint8_t night_starts[4 * SANDGUSSET_MAX_WORDS], night_stamps[4 * SANDGUSSET_MAX_WORDS * SANDGUSSET_MAX_STEPS];

void make_works(void);

#endif

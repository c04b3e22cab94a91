/* The tables, traces and words that bench.c measures the calls on. */
#include <stdio.h>
#include <stdlib.h>

#include "works.h"

enum { MAX_WORKS = 80, STEPS = SANDGUSSET_MAX_STEPS };

struct work works[MAX_WORKS];
unsigned work_count;
const struct work *many_words, *one_word;
uint8_t night_starts[4 * SANDGUSSET_MAX_WORDS], night_stamps[4 * SANDGUSSET_MAX_WORDS * SANDGUSSET_MAX_STEPS];

/* ---- works ---- */

static struct work *new_work(enum group group, enum call call, const char *name, unsigned wanted)
{
    if (work_count == MAX_WORKS)
        exit(2);
    struct work *w = &works[work_count++];
    snprintf(w->name, sizeof w->name, "%s", name);
    w->group = group;
    w->call = call;
    w->wanted = wanted;
    w->against = BEST;
    w->goal = group == BY_CALL || group == BY_WORDS ? 2.0 : 0;
    return w;
}

/* The judge on a table that must be searched: the goal is a plain search. */
static struct work *new_search(const char *name, unsigned wanted)
{
    struct work *w = new_work(BY_CALL, JUDGE, name, wanted);
    w->against = PLAIN_SEARCH;
    w->goal = 1.0;
    return w;
}

/* No goal was set for this one. */
static struct work *without_goal(struct work *w)
{
    w->goal = 0;
    return w;
}

/* ---- tables ---- */

struct maker {
    struct work *w;
    unsigned count;
    uint8_t letters[32];
};

static void put(struct work *w, unsigned number)
{
    w->file[w->file_len++] = (uint8_t)(number & 0xFF);
    w->file[w->file_len++] = (uint8_t)(number >> 8);
}

static struct maker begin(struct work *w, unsigned states)
{
    struct maker m = { w, 0, { 0 } };
    w->file_len = 0;
    put(w, 6);
    put(w, 1);
    put(w, states);
    put(w, 0);
    return m;
}

/* Inputs are different in each state, so that nothing splits; outputs are all different, so that all pairs count. */
static void add(struct maker *m, unsigned from, unsigned to, unsigned u, unsigned v, unsigned d)
{
    put(m->w, 16);
    put(m->w, 2);
    put(m->w, from);
    put(m->w, m->letters[from]++);
    put(m->w, m->count++ % 256);
    put(m->w, to);
    put(m->w, u);
    put(m->w, v);
    put(m->w, d);
}

static void end(struct maker *m)
{
    put(m->w, 2);
    put(m->w, 3);
}

static uint32_t seed;

static unsigned any(unsigned least, unsigned most)
{
    seed = seed * 1664525u + 1013904223u;
    return least + (seed >> 8) % (most - least + 1);
}

/* Where the two first transitions lie, of which the second always overtakes the first. */
enum aside { PAST_CORE, OUT_OF_REACH };

/* 32 states. States 1 to core are joined in a ring and by many other steps. Three steps of four are quick and have the
 * greatest delay or one less; the others have smaller delays, down to 1, and are just slow enough for D = U. The two
 * first transitions lie aside. So nothing turns, or nothing is overtaken where those two are out of reach, but that
 * takes all sums of all walks to see. A turning table has a slow bridge out of the core, last but two, to a quick loop
 * with the greatest delay and a way out with delay 1: only the bridge and what follows it can be overtaken. */
static void full_table(struct work *w, unsigned transitions, unsigned most, int turning, enum aside aside)
{
    struct maker m = begin(w, 32);
    unsigned core = turning ? 28 : 29, last = turning ? transitions - 3 : transitions;
    seed = 12345;
    add(&m, aside == PAST_CORE ? 0 : 30, 30, 1, 2, most);
    add(&m, 30, 31, 1, 2, 1);
    add(&m, 0, 1, 1, 2, most);
    for (unsigned s = 1; s <= core; s++)
        add(&m, s, s % core + 1, 1, 3, most);
    while (m.count < last) {
        unsigned from = any(1, core), to = any(1, core), more = any(1, 3);
        if (m.count % 4 != 0) {
            unsigned u = any(1, 4);
            add(&m, from, to, u, u + more, most - any(0, 1));
        } else {
            unsigned d = any(1, most - 1);
            add(&m, from, to, most - d, most - d + more, d);
        }
    }
    if (turning) {
        add(&m, core / 2, 29, most - 1, most, most);
        add(&m, 29, 29, 1, 2, most);
        add(&m, 29, 31, 1, 2, 1);
    }
    end(&m);
}

/* One output letter for the whole table: what turned is strict. No two transitions become equal, since their inputs
 * differ in each state. */
static void one_letter(struct work *w)
{
    for (size_t at = 8; at + 18 <= w->file_len; at += 18)
        sandgusset_put16(w->file + at, 4, 7);
}

/* A dozen transitions as one finds them on a bench; the first four go round. */
static void everyday_table(struct work *w, int turning)
{
    struct maker m = begin(w, 5);
    add(&m, 0, 1, 5, 20, 40);
    add(&m, 1, 2, 15, 20, 30);
    add(&m, 2, 3, 12, 15, turning ? 10 : 24);
    add(&m, 3, 0, 20, 30, 20);
    add(&m, 0, 2, 12, 40, 35);
    add(&m, 1, 0, 10, 60, 38);
    add(&m, 2, 1, 4, 25, 36);
    add(&m, 3, 2, 6, 9, 30);
    add(&m, 2, 4, 30, 50, 8);
    add(&m, 4, 0, 6, 10, 20);
    add(&m, 4, 3, 4, 12, 22);
    add(&m, 1, 3, 18, 90, 24);
    end(&m);
}

/* A way of 31 steps, then a walk of 238: the longest witness. */
static void longest_table(struct work *w)
{
    struct maker m = begin(w, 32);
    for (unsigned s = 0; s < 31; s++)
        add(&m, s, s + 1, 1, 2, 1);
    add(&m, 31, 30, 1, 2, 240);
    add(&m, 30, 30, 1, 2, 240);
    add(&m, 30, 0, 1, 2, 1);
    end(&m);
}

/* A ring of 32 states whose first step is overtaken by the last alone: the longest walk of least u. */
static void ring_table(struct work *w)
{
    struct maker m = begin(w, 32);
    for (unsigned s = 0; s < 31; s++)
        add(&m, s, s + 1, 1, 2, 40 - s);
    add(&m, 31, 0, 1, 2, 8);
    end(&m);
}

/* So many loops in one state, all (1,2], with delays that fall from one to the next. */
static void loops_table(struct work *w, unsigned loops, unsigned most, unsigned fall)
{
    struct maker m = begin(w, 1);
    for (unsigned i = 0; i < loops; i++)
        add(&m, 0, 0, 1, 2, most - fall * i);
    end(&m);
}

/* A run begins with loop 0, before which so much time passes that no response of another run is waiting: what follows
 * are loops with delays that fall by 3 and are overtaken always. */
static void falling_table(struct work *w, unsigned run)
{
    struct maker m = begin(w, 1);
    add(&m, 0, 0, 239, 240, 240);
    for (unsigned i = 1; i < run; i++)
        add(&m, 0, 0, 1, 2, 240 - 3 * i);
    end(&m);
}

/* The same with two loops to go on: one keeps the greatest delay, one has the least. */
static void late_fall_table(struct work *w)
{
    struct maker m = begin(w, 1);
    add(&m, 0, 0, 239, 240, 240);
    add(&m, 0, 0, 1, 2, 240);
    add(&m, 0, 0, 1, 2, 1);
    end(&m);
}

/* ---- traces and stamps ---- */

/* So many steps round and round through the first loops or transitions; gaps of u and 1/256 tick, or of v. */
static void round_trace(struct work *w, unsigned steps, unsigned round, int late)
{
    uint32_t now = 0;
    w->trace_len = 2 * (size_t)steps;
    w->stamps_len = 4 * (size_t)steps;
    for (unsigned j = 0; j < steps; j++) {
        const uint8_t *row = w->file + 8 + 18 * (j % round);
        sandgusset_put16(w->trace, j, (uint16_t)(j % round));
        now += late ? 256u * sandgusset_get16(row, 7) : 256u * sandgusset_get16(row, 6) + 1;
        sandgusset_put32(w->stamps, j, now);
    }
}

/* 118 steps with the greatest delay, then one with the least, and so on. */
static void late_fall_trace(struct work *w)
{
    w->trace_len = 2 * STEPS;
    for (unsigned j = 0; j < STEPS; j++)
        sandgusset_put16(w->trace, j, j % 119 == 0 ? 0 : j % 119 == 118 ? 2 : 1);
}

/* Every second word has gaps of 25 ticks, under which no step overtakes another; the others many. */
static void make_night(void)
{
    for (unsigned i = 0; i < SANDGUSSET_MAX_WORDS; i++) {
        uint32_t now = 1000 * i, gap = i % 2 == 0 ? 257 : 25 * 256;
        sandgusset_put32(night_starts, i, now);
        for (unsigned j = 0; j < STEPS; j++)
            sandgusset_put32(night_stamps, i * STEPS + j, now += gap);
    }
}

/* So many words on a table of 256 loops, 512 steps through the first dozen. */
static struct work *new_night(enum group group, enum call call, const char *name, unsigned wanted, unsigned words)
{
    struct work *w = new_work(group, call, name, wanted);
    struct maker m = begin(w, 1);
    for (unsigned i = 0; i < 256; i++)
        add(&m, 0, 0, 1, 30, 240 - 20 * (i % 12));
    end(&m);
    round_trace(w, STEPS, 12, 0);
    w->words = words;
    return w;
}

/* ---- what is measured ---- */

static void make_tables(void)
{
    struct work *w;
    full_table(new_search("judge: strict, 32 states, 256 transitions", SANDGUSSET_STRICT), 256, 240, 0, PAST_CORE);
    full_table(new_search("judge: turning, 32 states, 256 transitions", SANDGUSSET_TURNING), 256, 240, 1, PAST_CORE);
    full_table(w = without_goal(new_work(BY_CALL, JUDGE, "judge: strict, one letter, 256 transitions", SANDGUSSET_STRICT)), 256,
               240, 1, PAST_CORE);
    one_letter(w);
    everyday_table(new_work(BY_CALL, JUDGE, "judge: strict, everyday, 12 transitions", SANDGUSSET_STRICT), 0);
    everyday_table(new_work(BY_CALL, JUDGE, "judge: turning, everyday, 12 transitions", SANDGUSSET_TURNING), 1);
    full_table(without_goal(new_work(BY_CALL, ORDER, "order: in order, 32 states, 256 transitions", SANDGUSSET_IN_ORDER)), 256, 240,
               0, OUT_OF_REACH);
    full_table(without_goal(new_work(BY_CALL, ORDER, "order: overtaken, 32 states, 256 transitions", SANDGUSSET_OVERTAKEN)), 256,
               240, 1, OUT_OF_REACH);
    everyday_table(without_goal(new_work(BY_CALL, ORDER, "order: in order, everyday, 12 transitions", SANDGUSSET_IN_ORDER)), 0);
    everyday_table(without_goal(new_work(BY_CALL, ORDER, "order: overtaken, everyday, 12 transitions", SANDGUSSET_OVERTAKEN)), 1);
    full_table(new_work(BY_CALL, REWRITE, "rewrite: 256 transitions, 4,620 bytes", SANDGUSSET_WRITTEN), 256, 240, 0, PAST_CORE);
    everyday_table(new_work(BY_CALL, REWRITE, "rewrite: everyday, 12 transitions", SANDGUSSET_WRITTEN), 0);
}

static void make_replays(void)
{
    struct work *w;
    loops_table(w = new_work(BY_CALL, REPLAY, "replay: 512 steps, many overtakings", SANDGUSSET_REPLAYED), 12, 240, 20);
    round_trace(w, STEPS, 12, 0);
    loops_table(w = new_work(BY_CALL, REPLAY, "replay: 512 steps, no overtakings", SANDGUSSET_REPLAYED), 12, 240, 20);
    round_trace(w, STEPS, 1, 0);
    everyday_table(w = new_work(BY_CALL, REPLAY, "replay: 8 steps, everyday", SANDGUSSET_REPLAYED), 0);
    round_trace(w, 8, 4, 1);
    make_night();
    many_words = new_night(BY_WORDS, REPLAY_WORDS, "replay_words: 256 words of 512 steps", SANDGUSSET_REPLAYED, 256);
    one_word = new_night(BY_WORDS, REPLAY_WORDS, "replay_words: 1 word of 512 steps", SANDGUSSET_REPLAYED, 1);
    new_night(BY_WORDS, REPLAY, "replay: 256 words of 512 steps, one by one", SANDGUSSET_REPLAYED, 256);
}

/* State 0 after so many inputs, so many responses waiting. The last one has `left`, the others a tick more. */
static void lay_out(struct work *w, unsigned inputs, unsigned waiting, uint32_t timer, uint32_t left)
{
    sandgusset_put16(w->config, 1, (uint16_t)inputs);
    sandgusset_put16(w->config, 2, (uint16_t)waiting);
    sandgusset_put16(w->config, 3, (uint16_t)(timer & 0xFFFF));
    sandgusset_put16(w->config, 4, (uint16_t)(timer >> 16));
    for (unsigned i = 0; i < waiting; i++) {
        sandgusset_put16(w->waiting, 4 * i, (uint16_t)(inputs - waiting + i + 1));
        sandgusset_put16(w->waiting, 4 * i + 1, (uint16_t)(i % 256));
        sandgusset_put32(w->waiting, 2 * i + 1, i + 1 < waiting ? left + 256 : left);
    }
}

/* The four moves, on an everyday table with three waiting and on a full one with 239. */
static void make_moves(void)
{
    static const struct { enum call call; const char *name; uint32_t left, move; } moves[] = {
        { START, "start", 0, 0 }, { TIME, "time", 512, 256 }, { INPUT, "input", 512, 0 }, { OUTPUT, "output", 0, 0 }
    };
    for (unsigned i = 0; i < sizeof moves / sizeof moves[0]; i++) {
        char name[80];
        snprintf(name, sizeof name, "player: %s, everyday, 12 transitions, 3 wait", moves[i].name);
        struct work *w = without_goal(new_work(BY_MOVE, moves[i].call, name, SANDGUSSET_PLAYED));
        everyday_table(w, 0);
        lay_out(w, 3, 3, 6 * 256, moves[i].left);
        w->move = moves[i].move;
        w->against = PLAIN_C;
        snprintf(name, sizeof name, "player: %s, 256 transitions, 239 wait", moves[i].name);
        w = without_goal(new_work(BY_MOVE, moves[i].call, name, SANDGUSSET_PLAYED));
        full_table(w, 256, 240, 0, PAST_CORE);
        lay_out(w, 239, 239, 2 * 256, moves[i].left);
        w->move = moves[i].move;
        w->against = PLAIN_C;
    }
}

static void make_verdicts_on_traces(void)
{
    struct work *w;
    loops_table(w = new_work(BY_CALL, JUDGE_TRACE, "judge_trace: 512 steady steps", SANDGUSSET_STEADY), 12, 240, 1);
    round_trace(w, STEPS, 2, 0);
    loops_table(w = new_work(BY_CALL, JUDGE_TRACE, "judge_trace: steady, wide windows (u 1, d 240)", SANDGUSSET_STEADY), 12, 240,
                0);
    round_trace(w, STEPS, 12, 0);
    late_fall_table(w = new_work(BY_CALL, JUDGE_TRACE, "judge_trace: steady, 118 high delays, a low one", SANDGUSSET_STEADY));
    late_fall_trace(w);
    falling_table(w = new_work(BY_CALL, JUDGE_TRACE, "judge_trace: steady, runs of 80 falling delays", SANDGUSSET_STEADY), 80);
    round_trace(w, STEPS, 80, 0);
    everyday_table(w = new_work(BY_CALL, JUDGE_TRACE, "judge_trace: steady, everyday", SANDGUSSET_STEADY), 0);
    round_trace(w, STEPS, 4, 0);
    everyday_table(w = new_work(BY_CALL, JUDGE_TRACE, "judge_trace: turning at step 3, everyday", SANDGUSSET_TURNING), 1);
    round_trace(w, STEPS, 4, 0);
    everyday_table(w = new_work(BY_CALL, JUDGE_TRACE, "judge_trace: steady, everyday, 8 steps", SANDGUSSET_STEADY), 0);
    round_trace(w, 8, 4, 0);
}

static void make_growth(void)
{
    static const unsigned transitions[] = { 32, 64, 128, 192, 256 }, most[] = { 15, 30, 60, 120, 180, 240 };
    char name[80];
    for (unsigned i = 0; i < sizeof transitions / sizeof transitions[0]; i++) {
        snprintf(name, sizeof name, "judge: strict, %u transitions, delays to 240", transitions[i]);
        full_table(new_work(BY_TRANSITIONS, JUDGE, name, SANDGUSSET_STRICT), transitions[i], 240, 0, PAST_CORE);
    }
    for (unsigned i = 0; i < sizeof most / sizeof most[0]; i++) {
        snprintf(name, sizeof name, "judge: strict, 256 transitions, delays to %u", most[i]);
        full_table(new_work(BY_DELAY, JUDGE, name, SANDGUSSET_STRICT), 256, most[i], 0, PAST_CORE);
    }
    for (unsigned steps = 8; steps <= STEPS; steps *= 2) {
        snprintf(name, sizeof name, "judge_trace: steady, everyday, %u steps", steps);
        struct work *w = new_work(BY_TRACE, JUDGE_TRACE, name, SANDGUSSET_STEADY);
        everyday_table(w, 0);
        round_trace(w, steps, 4, 0);
    }
    for (unsigned steps = 8; steps <= STEPS; steps *= 2) {
        snprintf(name, sizeof name, "replay: many overtakings, %u steps", steps);
        struct work *w = new_work(BY_REPLAY, REPLAY, name, SANDGUSSET_REPLAYED);
        loops_table(w, 12, 240, 20);
        round_trace(w, steps, 12, 0);
    }
}

static void make_for_stack(void)
{
    struct work *w;
    struct maker m = begin(new_work(FOR_STACK, JUDGE, "judge: split", SANDGUSSET_SPLIT), 1);
    add(&m, 0, 0, 1, 4, 9);
    m.letters[0] = 0;
    add(&m, 0, 0, 3, 5, 9);
    end(&m);
    longest_table(new_work(FOR_STACK, JUDGE, "judge: longest witness", SANDGUSSET_TURNING));
    longest_table(new_work(FOR_STACK, ORDER, "order: longest witness", SANDGUSSET_OVERTAKEN));
    ring_table(new_work(FOR_STACK, ORDER, "order: longest walk", SANDGUSSET_OVERTAKEN));
    loops_table(w = new_work(FOR_STACK, JUDGE_TRACE, "judge_trace: turning", SANDGUSSET_TURNING), 12, 240, 21);
    round_trace(w, STEPS, 12, 0);
    full_table(w = new_work(FOR_STACK, REPLAY, "replay: 256 transitions, refused", SANDGUSSET_BAD_TRACE), 256, 240, 0, PAST_CORE);
    round_trace(w, STEPS, 12, 0);
    new_night(FOR_STACK, REPLAY_WORDS, "replay_words: refused", SANDGUSSET_BAD_STAMPS, 256)->trace_len -= 2;
    full_table(w = new_work(FOR_STACK, JUDGE, "judge: refused", SANDGUSSET_BAD_RECORD), 256, 240, 0, PAST_CORE);
    w->file_len -= 1;
    full_table(w = new_work(FOR_STACK, ORDER, "order: refused", SANDGUSSET_BAD_RECORD), 256, 240, 0, PAST_CORE);
    w->file_len -= 1;
}

void make_works(void)
{
    make_tables();
    make_replays();
    make_moves();
    make_verdicts_on_traces();
    make_growth();
    make_for_stack();
}

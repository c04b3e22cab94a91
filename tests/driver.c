/* Calls the library for the independent program.
 *
 * Link it with an archive or object that provides the calls. It reads requests from standard input and answers on
 * standard output until the input ends. Every lent buffer lies in its own pages, with forbidden pages right after it
 * or right before it, and guard bytes on the open side; pages of const buffers are read-only during the call. A call
 * that touches what it must not, aborts or runs too long is caught and reported as a signal.
 *
 * Request (little-endian):
 *   4 bytes  "SGRQ"
 *   1        call: 1 judge, 2 judge_trace, 3 replay, 4 rewrite, 5 order, 6 replay_words, 7 player_start, 8 player_time,
 *            9 player_input, 10 player_output
 *   1        layout: 0 forbidden pages right after each buffer, 1 right before, 2 guard bytes on both sides and an odd
 *            address (forbidden pages further off)
 *   1        1: empty buffers are NULL
 *   1        number of buffers: 3, 3, 5, 2, 3, 7, and 3 for the player, in the order of the call's arguments
 *   4        start stamp (replay), time in 1/256 tick (player_time) or letter (player_input); 0 for the others
 *   and for each buffer
 *   8        length in bytes
 *   4        bytes of content that follow: the length, or less for a huge buffer (zeros beyond)
 *   64       guard bytes
 *   ...      content
 * Answer:
 *   4 bytes  "SGRS"
 *   1        0: the call returned; else the signal that ended it; 255: no memory for a huge buffer
 *   8        the 64-bit answer
 *   8        the same taken apart by the header's helpers: status, first, second, steps
 *   and for each buffer
 *   64       guard bytes after the call
 *   ...      content after the call (as many bytes as were given)
 *
 * Compiled with -DSANDGUSSET_VARIANTS and linked with the baseline, `driver --variants` lists the wrong versions, and
 * the environment variable SANDGUSSET_VARIANT picks one by number.
 */
#define _GNU_SOURCE
#include <errno.h>
#include <setjmp.h>
#include <signal.h>
#include <stdio.h>
#include <stdlib.h>
#include <string.h>
#include <sys/mman.h>
#include <unistd.h>

#include "sandgusset.h"
#ifdef SANDGUSSET_VARIANTS
#include "variants.h"
#endif

#ifndef MAP_NORESERVE
#define MAP_NORESERVE 0
#endif

enum {
    BLOCK = 1 << 16,        /* a multiple of every page size we meet */
    ARENA = 16 * BLOCK,     /* the greatest buffer that is not huge, with its guard bytes */
    GUARD = 64,
    BUFFERS = 7,
    SECONDS = 60,
    NO_MEMORY = 255
};

enum { AFTER, BEFORE, LOOSE };

struct buffer {
    uint8_t *arena;         /* ARENA bytes between two forbidden blocks */
    uint8_t *start;         /* where the buffer begins */
    uint8_t *huge;          /* mapping of a huge buffer, or NULL */
    size_t huge_size;
    uint64_t length;
    uint32_t given;
    int fixed;              /* const in the call */
    uint8_t guard[GUARD];
};

static struct buffer buffers[BUFFERS];
static sigjmp_buf back;
static volatile sig_atomic_t in_call;

static void die(const char *why)
{
    fprintf(stderr, "driver: %s\n", why);
    exit(2);
}

static void caught(int number)
{
    if (!in_call) {
        signal(number, SIG_DFL);
        raise(number);
        return;
    }
    siglongjmp(back, number);
}

static void catch_signals(void)
{
    static const int numbers[] = { SIGSEGV, SIGBUS, SIGILL, SIGFPE, SIGABRT, SIGTRAP, SIGALRM };
    static uint8_t stack[1 << 16];
    stack_t other;
    struct sigaction action;
    memset(&other, 0, sizeof other);
    other.ss_sp = stack;
    other.ss_size = sizeof stack;
    if (sigaltstack(&other, NULL) != 0)
        die("no stack for signals");
    memset(&action, 0, sizeof action);
    action.sa_handler = caught;
    action.sa_flags = SA_ONSTACK;
    for (size_t i = 0; i < sizeof numbers / sizeof numbers[0]; i++)
        sigaction(numbers[i], &action, NULL);
}

static uint8_t *map(size_t size, int allowed)
{
    void *at = mmap(NULL, size, allowed, MAP_PRIVATE | MAP_ANONYMOUS | MAP_NORESERVE, -1, 0);
    return at == MAP_FAILED ? NULL : at;
}

static uint8_t *aligned(uint8_t *at)
{
    return at + (BLOCK - (uintptr_t)at % BLOCK) % BLOCK;
}

static void make_arenas(void)
{
    for (int i = 0; i < BUFFERS; i++) {
        uint8_t *at = map(ARENA + 3 * (size_t)BLOCK, PROT_NONE);
        if (at == NULL)
            die("no memory");
        buffers[i].arena = aligned(at) + BLOCK;
    }
}

static int protect(struct buffer *b, int allowed)
{
    if (b->huge != NULL)
        return mprotect(b->start, b->huge_size, allowed);
    return mprotect(b->arena, ARENA, allowed);
}

/* Lays the buffer out. 0 if a huge one can't be had. */
static int place(struct buffer *b, int layout)
{
    b->huge = NULL;
    if (b->length > ARENA - 2 * GUARD) {
        size_t size = ((size_t)b->length + BLOCK - 1) / BLOCK * BLOCK;
        b->huge_size = size;
        b->huge = map(size + 3 * (size_t)BLOCK, PROT_NONE);
        if (b->huge == NULL)
            return 0;
        b->start = aligned(b->huge) + BLOCK;
        return protect(b, PROT_READ | PROT_WRITE) == 0;
    }
    if (protect(b, PROT_READ | PROT_WRITE) != 0)
        die("pages can't be opened");
    if (layout == AFTER)
        b->start = b->arena + ARENA - b->length;
    else if (layout == BEFORE)
        b->start = b->arena;
    else
        b->start = b->arena + BLOCK / 2 + 1;
    return 1;
}

/* Copies the guard bytes to their places, or back. */
static void guards(struct buffer *b, int layout, int out)
{
    size_t before = layout == AFTER ? GUARD : layout == BEFORE ? 0 : GUARD / 2;
    uint8_t *first = b->start - before, *second = b->start + b->length;
    if (b->huge != NULL)
        return;
    if (out) {
        memcpy(b->guard, first, before);
        memcpy(b->guard + before, second, GUARD - before);
    } else {
        memcpy(first, b->guard, before);
        memcpy(second, b->guard + before, GUARD - before);
    }
}

static int take(void *to, size_t size)
{
    size_t got = fread(to, 1, size, stdin);
    if (got != size && got != 0)
        die("request cut off");
    return got == size;
}

static void must_take(void *to, size_t size)
{
    if (size != 0 && !take(to, size))
        die("request cut off");
}

static void give(const void *from, size_t size)
{
    if (fwrite(from, 1, size, stdout) != size)
        die("answer can't be written");
}

static uint64_t perform(int call, uint32_t number, uint8_t *const *p, const size_t *n)
{
    switch (call) {
    case 1:
        return sandgusset_judge(p[0], n[0], p[1], n[1], p[2], n[2]);
    case 2:
        return sandgusset_judge_trace(p[0], n[0], p[1], n[1], p[2], n[2]);
    case 3:
        return sandgusset_replay(p[0], n[0], p[1], n[1], number, p[2], n[2], p[3], n[3], p[4], n[4]);
    case 4:
        return sandgusset_rewrite(p[0], n[0], p[1], n[1]);
    case 5:
        return sandgusset_order(p[0], n[0], p[1], n[1], p[2], n[2]);
    case 6:
        return sandgusset_replay_words(p[0], n[0], p[1], n[1], p[2], n[2], p[3], n[3], p[4], n[4], p[5], n[5], p[6], n[6]);
    case 7:
        return sandgusset_player_start(p[0], n[0], p[1], n[1], p[2], n[2]);
    case 8:
        return sandgusset_player_time(p[0], n[0], p[1], n[1], p[2], n[2], number);
    case 9:
        return sandgusset_player_input(p[0], n[0], p[1], n[1], p[2], n[2], (uint16_t)number);
    default:
        return sandgusset_player_output(p[0], n[0], p[1], n[1], p[2], n[2]);
    }
}

static int check_helpers(void)
{
    uint8_t b[9] = { 0xEE, 0xEE, 0xEE, 0xEE, 0xEE, 0xEE, 0xEE, 0xEE, 0xEE };
    sandgusset_put16(b, 1, 0x1234);
    if (b[1] != 0xEE || b[2] != 0x34 || b[3] != 0x12 || b[4] != 0xEE || sandgusset_get16(b, 1) != 0x1234)
        return 0;
    sandgusset_put32(b, 1, 0x89ABCDEFu);
    if (b[3] != 0x12 || b[4] != 0xEF || b[5] != 0xCD || b[6] != 0xAB || b[7] != 0x89 || b[8] != 0xEE ||
        sandgusset_get32(b, 1) != 0x89ABCDEFu)
        return 0;
    return sandgusset_refused(1) && sandgusset_refused(SANDGUSSET_EARLY | (uint64_t)3 << 16) && sandgusset_refused(SANDGUSSET_LATE) && !sandgusset_refused(0) &&
           !sandgusset_refused(SANDGUSSET_SPLIT) && !sandgusset_refused(SANDGUSSET_TURNING) &&
           !sandgusset_refused(SANDGUSSET_OVERTAKEN);
}

static void serve(void)
{
    static const int fixed[] = { 0, 1, 2, 3, 1, 1, 4, 1, 1, 1, 1 };     /* so many buffers, from the first, are const */
    static const int wanted[] = { 0, 3, 3, 5, 2, 3, 7, 3, 3, 3, 3 };
    uint8_t head[12];
    while (take(head, sizeof head)) {
        volatile int outcome = 0;
        volatile uint64_t answer = 0;
        uint8_t *starts[BUFFERS];
        size_t lengths[BUFFERS];
        int call = head[4], layout = head[5], null_empty = head[6], count = head[7];
        uint32_t number_given = sandgusset_get32(head, 2);
        if (memcmp(head, "SGRQ", 4) != 0 || call < 1 || call > 10 || layout > LOOSE || count != wanted[call])
            die("not a request");
        for (int i = 0; i < count; i++) {
            struct buffer *b = &buffers[i];
            uint8_t sizes[12];
            must_take(sizes, sizeof sizes);
            b->length = sandgusset_get32(sizes, 0) | (uint64_t)sandgusset_get32(sizes, 1) << 32;
            b->given = sandgusset_get32(sizes, 2);
            b->fixed = i < fixed[call];
            if (b->given > b->length || b->given > ARENA || (b->length <= ARENA - 2 * GUARD && b->given != b->length))
                die("not a request");
            must_take(b->guard, GUARD);
            if (outcome != 0 || !place(b, layout)) {
                static uint8_t scratch[ARENA];
                outcome = NO_MEMORY;
                must_take(scratch, b->given);
                continue;
            }
            must_take(b->start, b->given);
            guards(b, layout, 0);
            if (b->fixed && protect(b, PROT_READ) != 0)
                die("pages can't be closed");
            starts[i] = b->length == 0 && null_empty ? NULL : b->start;
            lengths[i] = (size_t)b->length;
        }
        if (outcome == 0) {
            int number = sigsetjmp(back, 1);
            if (number == 0) {
                in_call = 1;
                alarm(SECONDS);
                answer = perform(call, number_given, starts, lengths);
            } else {
                outcome = number;
            }
            in_call = 0;
            alarm(0);
        }
        uint8_t reply[21] = "SGRS";
        reply[4] = (uint8_t)outcome;
        for (int i = 0; i < 8; i++)
            reply[5 + i] = (uint8_t)(answer >> (8 * i));
        sandgusset_put16(reply + 13, 0, sandgusset_status(answer));
        sandgusset_put16(reply + 13, 1, sandgusset_first(answer));
        sandgusset_put16(reply + 13, 2, sandgusset_second(answer));
        sandgusset_put16(reply + 13, 3, sandgusset_steps(answer));
        give(reply, sizeof reply);
        for (int i = 0; i < count && outcome != NO_MEMORY; i++) {
            guards(&buffers[i], layout, 1);
            give(buffers[i].guard, GUARD);
            give(buffers[i].start, buffers[i].given);
        }
        for (int i = 0; i < count; i++)
            if (buffers[i].huge != NULL) {
                munmap(buffers[i].huge, buffers[i].huge_size + 3 * (size_t)BLOCK);
                buffers[i].huge = NULL;
            }
        if (fflush(stdout) != 0)
            die("answer can't be written");
    }
}

int main(int argc, char **argv)
{
#ifdef SANDGUSSET_VARIANTS
    const char *picked = getenv("SANDGUSSET_VARIANT");
    if (argc > 1 && strcmp(argv[1], "--variants") == 0) {
#define SHOW(name, what) printf("%d %s\n", V_##name, what);
        SANDGUSSET_VARIANT_LIST(SHOW)
        return 0;
    }
    sandgusset_variant = picked == NULL ? 0 : atoi(picked);
#else
    (void)argc;
    (void)argv;
#endif
    if (!check_helpers())
        die("the header's helpers are wrong");
    catch_signals();
    make_arenas();
    serve();
    return 0;
}

/* sandgusset.h - judges controller tables from C.
 *
 * Ten calls on plain numbers and byte buffers. Every call answers for every input, and its answer depends on what it
 * is handed alone.
 *
 * WHAT IS LENT
 *   Every buffer is a pointer to its first byte and a length in bytes.
 *   - A buffer of length 0 may be NULL. Any other pointer must be good for its whole length.
 *   - A const buffer is only read. It may lie in read-only memory.
 *   - No buffer needs any alignment.
 *   - The buffers of one call must not overlap.
 *   - All numbers in buffers are little-endian: transition numbers, step numbers and marks take places of two bytes,
 *     stamps and due times places of four. sandgusset_get16 and its sisters below read and write such places.
 *   - Room counts whole places: 5 bytes are two places of two, and the fifth byte is never touched.
 *   - Nothing is kept, and no memory is asked for: a call works in what is lent and on its stack. So calls may run in
 *     several threads at once, as long as no buffer that a call writes is shared with another.
 *   - A call uses less stack than its SANDGUSSET_STACK_ number below says.
 *   - A refused call writes nothing. Places that a result does not use, and bytes after the last whole place, keep
 *     what they held.
 *
 * WHAT IS ANSWERED
 *   One 64-bit number that holds four fields of 16 bits, lowest first: status, first, second, steps. Fields that are
 *   not named for an answer are 0. Take it apart with sandgusset_status, _first, _second and _steps.
 *
 *   status 0           done: strict, in order, steady, replayed, written or played (see each call)
 *   status 1 to 15     refused with this number; first is the place
 *   status 256         split (only sandgusset_judge)
 *   status 257         turning (sandgusset_judge and sandgusset_judge_trace)
 *   status 258         overtaken (only sandgusset_order)
 *   sandgusset_text gives each of them in words.
 *
 * REFUSALS
 *   1  the table file: fewer than 4 bytes left where a record must begin, a length that is not that of the kind, or
 *      a body that is cut off
 *   2  the table file: a kind that is unknown or out of place, or any byte after the end record
 *   3  the table file: a 257th transition
 *   4  the table file: a number outside its range
 *   5  the table file: a transition equal to an earlier one
 *   6  the trace: empty, longer than 512 steps, of odd length in bytes, naming no transition, or not joined
 *   7  the stamps: not as many as steps, of all words together, or not a multiple of four bytes; or the start stamps of
 *      words: more than 256, or not a multiple of four bytes
 *   8  a lent room is too short
 *   9  a gap is early: at most u
 *  10  the player: no transition is open to this input
 *  11  the player: not now: time would pass the next due response, no response is due for an output, or one is due at an
 *      input
 *  12  a gap is late: more than v
 *  13  the player: the table is split
 *  14  the player: a 513th input
 *  15  the player: the configuration is damaged, or an input would make 241 responses wait
 *   For 1 to 5 the place (first) is the offset in the file of the refused record, or of the first byte after the end
 *   record. For 9 and 12 it is the first step whose gap is outside its guard, counted from 1; that step decides which of
 *   the two is given. For all others it is 0. The file is tested first, then 6, 7, 8, and last 9 or 12, as far as they
 *   apply to the call. sandgusset_replay_words is never refused with 9 or 12: it marks each such word. The player says 10
 *   of both, and has an order of its own (see THE PLAYER).
 *
 * THE TABLE FILE
 *   Records: two bytes of length (counting all that follow them), two bytes of kind, the body, all in numbers of two
 *   bytes. One head, 0 to 256 transitions, one end, then nothing; 4,620 bytes at the most.
 *     kind 1, length  6  head: number of states (1 to 32), initial state
 *     kind 2, length 16  transition: departure, input, output, arrival, u, v, d
 *                        (states from 0; letters 0 to 255; 1 <= u < v <= 4,095 and 1 <= d <= 240, in ticks)
 *     kind 3, length  2  end
 *   Transitions are numbered from 0 in file order; sandgusset_get_transition takes one out of a file by its number.
 *
 * TIME
 *   Stamps are 32-bit counts of 1/256 tick on a counter that wraps. A gap is the difference of successive stamps
 *   modulo 2^32; it fits a step if it is greater than u and at most v ticks of its transition. A response is due d
 *   ticks after its step. At equal due times the earlier step responds first. A pause longer than a full turn of the
 *   counter can't be told from a short one.
 *
 * ORDER
 *   Two responses can be told apart if their output letters differ. Two steps of a trace turn if their responses can be
 *   told apart and come in one order under some word that activates the trace, in the other under another. Responses with
 *   like letters may change places: that makes no trace and no table turn. sandgusset_order and the replays count every
 *   step, whatever its letter.
 *
 * THE PLAYER
 *   Four calls play a table move by move: sandgusset_player_start, then _time, _input and _output as often as the host
 *   likes. Between the moves all is in two buffers of the host, handed in again with each move on the same file:
 *   - config, the configuration, at least 10 bytes: state (2 bytes), inputs so far (2), how many responses wait (2), and
 *     the timer (4), the time since the last input, or since the start, in 1/256 tick. The timer stops counting at 4,096
 *     ticks. Bytes after the tenth are never touched.
 *   - waiting, at least 240 records of 8 bytes: step (2 bytes, counted from 1), output letter (2), time left (4), in 1/256
 *     tick. The responses that wait stand in its first records, in rising step order; records beyond them keep what they
 *     held. From a start never more wait than the table's greatest d over its least u, rounded up: 240 are enough.
 *   sandgusset_get_config, sandgusset_get_waiting and sandgusset_time_to_next below read them. A copy of the two buffers
 *   is a copy of the player: a host may go back to it.
 *   Each call tests what it is handed, in this order, as far as it applies to the call, and is refused for the first
 *   that fails; then both buffers keep what they held.
 *     1 to 5  the table file
 *     15      the configuration (not at the start, which does not look at it): fewer than 10 bytes, a state that is not in
 *             the table, a timer above 4,096 ticks, more than 512 inputs, more waiting than 240 or than records are lent,
 *             steps that do not rise within 1 to the inputs so far, a time left above 240 ticks. A record's letter is
 *             never tested
 *     8       fewer than 240 whole records are lent; at the start also fewer than 10 bytes for the configuration
 *     10      an input that no transition is open to
 *     11      time that would pass the next due response; an output with none due; an input while a response is due
 *     13      the start of, or an input to, a table that is split (sandgusset_judge says 256)
 *     14      a 513th input
 *     15      an input that would make 241 wait. No configuration that was played from a start gives this
 *   After any accepted moves from a start, with at least one input, that end with none waiting, the outputs are those of
 *   sandgusset_replay on the transitions taken, the gaps being the times between the inputs: the same steps in the same
 *   order, at the same times since the start, each with its transition's output letter.
 */
#ifndef SANDGUSSET_H
#define SANDGUSSET_H

#include <stddef.h>
#include <stdint.h>

#ifdef __cplusplus
extern "C" {
#endif

/* The version: a minor one adds calls and numbers, a major one changes what a call means (CHANGELOG.md). */
#define SANDGUSSET_VERSION "3.0.2"
#define SANDGUSSET_VERSION_MAJOR 3
#define SANDGUSSET_VERSION_MINOR 0
#define SANDGUSSET_VERSION_PATCH 2

/* Values of the status field. */
#define SANDGUSSET_DONE 0           /* strict, in order, steady, replayed, written or played */
#define SANDGUSSET_STRICT 0         /* sandgusset_judge: neither split nor turning */
#define SANDGUSSET_IN_ORDER 0       /* sandgusset_order: no step can be overtaken */
#define SANDGUSSET_STEADY 0         /* sandgusset_judge_trace: no pair of steps turns */
#define SANDGUSSET_REPLAYED 0       /* sandgusset_replay; sandgusset_replay_words: first is the number of words */
#define SANDGUSSET_WRITTEN 0        /* sandgusset_rewrite: first is the number of bytes */
#define SANDGUSSET_PLAYED 0         /* the player: first is an input's transition, an output's step (second: its letter) */
#define SANDGUSSET_BAD_RECORD 1     /* first: offset of the record */
#define SANDGUSSET_BAD_KIND 2       /* first: offset of the record, or of the first byte after the end */
#define SANDGUSSET_TOO_MANY 3       /* first: offset of the record */
#define SANDGUSSET_BAD_NUMBER 4     /* first: offset of the record */
#define SANDGUSSET_REPEATED 5       /* first: offset of the record */
#define SANDGUSSET_BAD_TRACE 6      /* first: 0 */
#define SANDGUSSET_BAD_STAMPS 7     /* first: 0 */
#define SANDGUSSET_NO_ROOM 8        /* first: 0 */
#define SANDGUSSET_EARLY 9          /* first: the step, counted from 1 */
#define SANDGUSSET_NOT_OPEN 10      /* first: 0 */
#define SANDGUSSET_NOT_NOW 11       /* first: 0 */
#define SANDGUSSET_LATE 12          /* first: the step, counted from 1 */
#define SANDGUSSET_SPLIT_TABLE 13   /* first: 0 */
#define SANDGUSSET_INPUTS_OVER 14   /* first: 0 */
#define SANDGUSSET_BAD_CONFIG 15    /* first: 0 */
#define SANDGUSSET_SPLIT 256        /* first, second: transition numbers I and J; steps: length of the traces */
#define SANDGUSSET_TURNING 257      /* first, second: step numbers K and M; steps: length of the trace */
#define SANDGUSSET_OVERTAKEN 258    /* first, second: step numbers K and M; steps: length of the trace */

/* Limits. */
#define SANDGUSSET_MAX_FILE 4620        /* bytes of the longest table file */
#define SANDGUSSET_MAX_STEPS 512        /* steps of the longest trace that is handed in */
#define SANDGUSSET_MAX_WORDS 256        /* words of one sandgusset_replay_words */
#define SANDGUSSET_TRACE_PLACES 270     /* trace places that sandgusset_judge and sandgusset_order need: 540 bytes */
#define SANDGUSSET_STAMP_PLACES 540     /* stamp places that sandgusset_judge needs: 2,160 bytes */
#define SANDGUSSET_ORDER_PLACES 270     /* stamp places that sandgusset_order needs: 1,080 bytes */
#define SANDGUSSET_TRACE_BYTES 540
#define SANDGUSSET_STAMP_BYTES 2160
#define SANDGUSSET_ORDER_BYTES 1080
#define SANDGUSSET_MAX_INPUTS 512       /* inputs of the player from a start */
#define SANDGUSSET_MAX_TIMER 1048576    /* where the player's timer stops: 4,096 ticks, in 1/256 tick */
#define SANDGUSSET_PLAYER_CONFIG_BYTES 10   /* bytes of the player's configuration */
#define SANDGUSSET_PLAYER_RECORD_BYTES 8    /* bytes of a waiting response */
#define SANDGUSSET_PLAYER_RECORDS 240       /* records that the player needs: 1,920 bytes */
#define SANDGUSSET_PLAYER_WAITING_BYTES 1920

/* Bytes of stack: each call uses less. Not counted are some KB that the system's loader takes at a first call in a program
 * that binds its functions late (linked without -z now). */
#define SANDGUSSET_STACK_JUDGE 46080
#define SANDGUSSET_STACK_ORDER 45056
#define SANDGUSSET_STACK_JUDGE_TRACE 12288
#define SANDGUSSET_STACK_REPLAY 9216
#define SANDGUSSET_STACK_REPLAY_WORDS 10240
#define SANDGUSSET_STACK_REWRITE 3072
#define SANDGUSSET_STACK_PLAYER_START 7168
#define SANDGUSSET_STACK_PLAYER_TIME 15360
#define SANDGUSSET_STACK_PLAYER_INPUT 15360
#define SANDGUSSET_STACK_PLAYER_OUTPUT 15360

/* Judges a whole table. Refusals: 1 to 5, 8.
 *
 * Lend at least 270 trace places (540 bytes) and 540 stamp places (2,160 bytes), whatever the table is.
 *
 * strict   status 0. No word activates two traces from the initial state, and no two steps of such a trace turn: responses
 *          that can be told apart come in one order. Nothing is written.
 * split    status 256; first I, second J (transition numbers, I < J), steps n. Some word activates two traces from the
 *          initial state. The first trace stands in trace places 0 to n-1 and ends in I; the second differs from it
 *          only in its last number, which is J. Stamp places 0 to n-1 hold the word, from stamp 0: the gap v at every
 *          step but the last, and there the lesser v of I and J. Like letters excuse no split.
 * turning  status 257; first K, second M (steps of the shown trace, counted from 1), steps n = M. Trace places 0 to n-1
 *          hold a trace from the initial state in which they turn: their output letters differ. Stamp places 0 to n-1 hold
 *          the late word, under which K responds before M; places n to 2n-1 hold the early word, under which M responds
 *          before K. Both count from stamp 0. The late word takes the gap v at every step; the early word takes u and
 *          1/256 tick at steps K+1 to M, v elsewhere. Step K is the lowest-numbered reachable transition that can be the
 *          first of such a pair, at its first place in the shown trace.
 * A shown trace has at most 270 steps; which of several it is, is free. A table that is both is answered as split.
 * sandgusset_judge_trace on a shown trace may name another pair of steps: there K is the least of all. */
uint64_t sandgusset_judge(const uint8_t *file, size_t file_len,
                          uint8_t *trace, size_t trace_len,
                          uint8_t *stamps, size_t stamps_len);

/* Does a whole table keep the order of its requests: can no step respond before an earlier one? Refusals: 1 to 5, 8.
 *
 * Lend at least 270 trace places (540 bytes) and 270 stamp places (1,080 bytes), whatever the table is.
 *
 * in order   status 0. No trace from the initial state has, under any word that activates it, a step that responds
 *            before an earlier one. Nothing is written.
 * overtaken  status 258; first K, second M (steps of the shown trace, counted from 1), steps n = M. Trace places 0 to
 *            n-1 hold a trace from the initial state. Stamp places 0 to n-1 hold the early word, under which M responds
 *            before K: from stamp 0, u and 1/256 tick at steps K+1 to M, v elsewhere. Step K is the lowest-numbered
 *            reachable transition that can be overtaken, at its first place in the shown trace.
 * A shown trace has at most 270 steps; which of several it is, is free. Whether the table is split plays no part. Every
 * two steps count, like letters or not. A pair with like letters, and one that always responds in reverse, counts here
 * and does not turn; so K may be another transition than that of sandgusset_judge, and a strict table may be overtaken.
 * A table that turns is never in order. */
uint64_t sandgusset_order(const uint8_t *file, size_t file_len,
                          uint8_t *trace, size_t trace_len,
                          uint8_t *stamps, size_t stamps_len);

/* Judges one trace, which may start in any state. Refusals: 1 to 5, 6, 8.
 *
 * Lend two stamp places per step (8 bytes per step), whatever the trace is.
 *
 * steady   status 0. No two steps turn: responses that can be told apart come in one order. Nothing is written.
 * turning  status 257; first K, second M (of all pairs that turn the least K, then the least M, counted from 1), steps n, the
 *          number of steps in the trace: stamp places 0 to n-1 hold the late word and places n to 2n-1 the early word, both
 *          from stamp 0 and made as above. */
uint64_t sandgusset_judge_trace(const uint8_t *file, size_t file_len,
                                const uint8_t *trace, size_t trace_len,
                                uint8_t *stamps, size_t stamps_len);

/* Replays stamps on a trace: in which order do the responses come? Refusals: 1 to 5, 6, 7, 8, 9, 12.
 *
 * start is the stamp from which the first gap counts. Lend one place of two bytes per step in order and one place of
 * four bytes per step in due.
 *
 * replayed  status 0. order holds the steps, counted from 1, in the order of their responses; due holds beside each
 *           its due time in 1/256 tick since the start (at most 536,801,280). */
uint64_t sandgusset_replay(const uint8_t *file, size_t file_len,
                           const uint8_t *trace, size_t trace_len,
                           uint32_t start,
                           const uint8_t *stamps, size_t stamps_len,
                           uint8_t *order, size_t order_len,
                           uint8_t *due, size_t due_len);

/* Replays a night of words on one trace. Refusals: 1 to 5, 6, 7, 8.
 *
 * There are as many words as places in starts, 0 to 256; each place holds the stamp from which its word's first gap
 * counts. stamps holds the words end to end, one place per step of each. Lend one place of two bytes per step of every
 * word in order and one of four bytes in due, and one place of two bytes per word in marks.
 *
 * replayed  status 0, first the number of words. On a trace of n steps, places w*n to w*n+n-1 of order and due are those
 *           of word w, counted from 0, and place w of marks is its mark. Each word is played as by sandgusset_replay with
 *           its own start: its places hold the answer, due times counting from that start, and its mark is 0. If a gap is
 *           outside its guard, the mark is the first such step, counted from 1, and the word's places in order and due
 *           keep what they held. No word changes what another is answered. Without words nothing is written. */
uint64_t sandgusset_replay_words(const uint8_t *file, size_t file_len,
                                 const uint8_t *trace, size_t trace_len,
                                 const uint8_t *starts, size_t starts_len,
                                 const uint8_t *stamps, size_t stamps_len,
                                 uint8_t *order, size_t order_len,
                                 uint8_t *due, size_t due_len,
                                 uint8_t *marks, size_t marks_len);

/* Reads a table file and writes the table that was read. Refusals: 1 to 5, 8.
 *
 * Lend at least as many bytes as the file has (4,620 are always enough).
 *
 * written  status 0, first the number of bytes written. */
uint64_t sandgusset_rewrite(const uint8_t *file, size_t file_len,
                            uint8_t *out, size_t out_len);

/* Starts the player on a table. Refusals: 1 to 5, 8, 13.
 *
 * Lend at least 10 bytes of configuration and 240 records (1,920 bytes); what they hold is not looked at.
 *
 * played  status 0. config holds the start: the initial state, no inputs, none waiting, timer 0. The records keep what they
 *         held. */
uint64_t sandgusset_player_start(const uint8_t *file, size_t file_len,
                                 uint8_t *config, size_t config_len,
                                 uint8_t *waiting, size_t waiting_len);

/* Lets time pass. Refusals: 1 to 5, 15, 8, 11.
 *
 * parts is in 1/256 tick: at most the least time left of what waits, anything if nothing waits. 0 is accepted, also while a
 * response is due.
 *
 * played  status 0. The timer is so much greater, but at most 4,096 ticks, and every waiting response has so much less time
 *         left. */
uint64_t sandgusset_player_time(const uint8_t *file, size_t file_len,
                                uint8_t *config, size_t config_len,
                                uint8_t *waiting, size_t waiting_len,
                                uint32_t parts);

/* An input now. Refusals: 1 to 5, 15, 8, 10, 11, 13, 14, 15.
 *
 * A transition is open if it leaves the state, has this input letter, and the timer is greater than its u and at most its v.
 * A letter above 255 opens nothing. In a state that can't be reached several may be open: the lowest number is taken.
 *
 * played  status 0, first the number of the transition that is taken. The state is its arrival, the timer 0, the input is
 *         counted, and its response waits after the others: a record with the count as its step, the output letter and d
 *         ticks left. */
uint64_t sandgusset_player_input(const uint8_t *file, size_t file_len,
                                 uint8_t *config, size_t config_len,
                                 uint8_t *waiting, size_t waiting_len,
                                 uint16_t letter);

/* Issues the response that is due now, of several that of the lowest step. Refusals: 1 to 5, 15, 8, 11.
 *
 * A response is due if it has no time left.
 *
 * played  status 0, first the step, second the output letter. One response less waits: its record is gone, those after it
 *         have moved down by one, and the last record that was used keeps what it held. */
uint64_t sandgusset_player_output(const uint8_t *file, size_t file_len,
                                  uint8_t *config, size_t config_len,
                                  uint8_t *waiting, size_t waiting_len);

#ifdef __cplusplus
}
#endif

/* The four fields of an answer. */
static inline uint16_t sandgusset_status(uint64_t answer) { return (uint16_t)(answer & 0xFFFFu); }
static inline uint16_t sandgusset_first(uint64_t answer) { return (uint16_t)((answer >> 16) & 0xFFFFu); }
static inline uint16_t sandgusset_second(uint64_t answer) { return (uint16_t)((answer >> 32) & 0xFFFFu); }
static inline uint16_t sandgusset_steps(uint64_t answer) { return (uint16_t)((answer >> 48) & 0xFFFFu); }

/* 1 if the answer is a refusal, otherwise 0. */
static inline int sandgusset_refused(uint64_t answer)
{
    return sandgusset_status(answer) >= 1 && sandgusset_status(answer) <= 255;
}

/* A status in words; 0 is "done". */
static inline const char *sandgusset_text(unsigned status)
{
    switch (status) {
    case SANDGUSSET_DONE: return "done";
    case SANDGUSSET_BAD_RECORD: return "a record is cut off, or its length is not that of its kind";
    case SANDGUSSET_BAD_KIND: return "a record of unknown kind or out of place, or bytes after the end record";
    case SANDGUSSET_TOO_MANY: return "more than 256 transitions";
    case SANDGUSSET_BAD_NUMBER: return "a number outside its range";
    case SANDGUSSET_REPEATED: return "a transition equal to an earlier one";
    case SANDGUSSET_BAD_TRACE: return "the trace is empty, too long, of odd length, not joined, or names no transition";
    case SANDGUSSET_BAD_STAMPS: return "the number of stamps differs from the number of steps, or there are more than 256 words";
    case SANDGUSSET_NO_ROOM: return "the lent room is too short";
    case SANDGUSSET_EARLY: return "a gap is early: at most u of its guard";
    case SANDGUSSET_NOT_OPEN: return "no transition is open to this input";
    case SANDGUSSET_NOT_NOW: return "not now: a response is due first, or none is due";
    case SANDGUSSET_LATE: return "a gap is late: more than v of its guard";
    case SANDGUSSET_SPLIT_TABLE: return "the table is split";
    case SANDGUSSET_INPUTS_OVER: return "more than 512 inputs";
    case SANDGUSSET_BAD_CONFIG: return "the configuration is damaged, or 241 responses would wait";
    case SANDGUSSET_SPLIT: return "split: two transitions are open to one input at one time";
    case SANDGUSSET_TURNING: return "turning: two responses that can be told apart come in either order";
    case SANDGUSSET_OVERTAKEN: return "overtaken: a step can respond before an earlier one";
    default: return "unknown";
    }
}

/* Place number i (from 0) of a buffer with places of two bytes. */
static inline uint16_t sandgusset_get16(const uint8_t *places, size_t i)
{
    return (uint16_t)(places[2 * i] | ((unsigned)places[2 * i + 1] << 8));
}

static inline void sandgusset_put16(uint8_t *places, size_t i, uint16_t number)
{
    places[2 * i] = (uint8_t)(number & 0xFFu);
    places[2 * i + 1] = (uint8_t)(number >> 8);
}

/* Place number i (from 0) of a buffer with places of four bytes. */
static inline uint32_t sandgusset_get32(const uint8_t *places, size_t i)
{
    return (uint32_t)places[4 * i] | ((uint32_t)places[4 * i + 1] << 8) |
           ((uint32_t)places[4 * i + 2] << 16) | ((uint32_t)places[4 * i + 3] << 24);
}

static inline void sandgusset_put32(uint8_t *places, size_t i, uint32_t number)
{
    places[4 * i] = (uint8_t)(number & 0xFFu);
    places[4 * i + 1] = (uint8_t)((number >> 8) & 0xFFu);
    places[4 * i + 2] = (uint8_t)((number >> 16) & 0xFFu);
    places[4 * i + 3] = (uint8_t)((number >> 24) & 0xFFu);
}

/* A transition as it stands in a table file: states, letters, and u, v, d in ticks. */
struct sandgusset_transition {
    uint16_t departure, input, output, arrival, u, v, d;
};

/* Takes the transition with this number (from 0) out of a table file. 1: it is in *found; 0: the file has none, and
 * *found keeps what it held. Any bytes may be handed in; the numbers are as they stand there, so judge the file first. */
static inline int sandgusset_get_transition(const uint8_t *file, size_t file_len, size_t number,
                                            struct sandgusset_transition *found)
{
    size_t at, length;

    /* By the records' own lengths, none of which is trusted. */
    for (at = 0; file_len - at >= 4; at += 2 + length) {
        const uint8_t *record = file + at;
        unsigned kind = sandgusset_get16(record, 1);

        length = sandgusset_get16(record, 0);
        if (length < 2 || length > file_len - at - 2)
            return 0;
        if (kind == 1)
            continue;
        if (kind != 2 || length != 16)
            return 0;
        if (number-- > 0)
            continue;
        found->departure = sandgusset_get16(record, 2);
        found->input = sandgusset_get16(record, 3);
        found->output = sandgusset_get16(record, 4);
        found->arrival = sandgusset_get16(record, 5);
        found->u = sandgusset_get16(record, 6);
        found->v = sandgusset_get16(record, 7);
        found->d = sandgusset_get16(record, 8);
        return 1;
    }
    return 0;
}

/* The player's configuration: its timer is the time since the last input in 1/256 tick. */
struct sandgusset_config {
    uint16_t state, inputs, waiting;
    uint32_t timer;
};

/* What the 10 bytes of a configuration say. */
static inline struct sandgusset_config sandgusset_get_config(const uint8_t *config)
{
    struct sandgusset_config found;

    found.state = sandgusset_get16(config, 0);
    found.inputs = sandgusset_get16(config, 1);
    found.waiting = sandgusset_get16(config, 2);
    found.timer = sandgusset_get32(config + 6, 0);
    return found;
}

/* A response that waits: its time left in 1/256 tick. */
struct sandgusset_waiting {
    uint16_t step, letter;
    uint32_t left;
};

/* Record number i (from 0) of those that are lent to the player. */
static inline struct sandgusset_waiting sandgusset_get_waiting(const uint8_t *waiting, size_t i)
{
    struct sandgusset_waiting found;

    found.step = sandgusset_get16(waiting + 8 * i, 0);
    found.letter = sandgusset_get16(waiting + 8 * i, 1);
    found.left = sandgusset_get32(waiting + 8 * i, 1);
    return found;
}

/* How far the player's time may advance now, in 1/256 tick: 0 if a response is due, 4,294,967,295 if none waits. As many
 * records are read as the configuration says that wait: hand in one that the player has accepted. */
static inline uint32_t sandgusset_time_to_next(const uint8_t *config, const uint8_t *waiting)
{
    uint32_t least = 0xFFFFFFFFu;
    size_t i, count = sandgusset_get_config(config).waiting;

    for (i = 0; i < count; i++)
        if (sandgusset_get_waiting(waiting, i).left < least)
            least = sandgusset_get_waiting(waiting, i).left;
    return least;
}

#endif

/* Tries what sandgusset.h works out by itself: its version, the texts, its numbers, a transition by its number, what the
 * player's buffers say.
 *
 * It prints what failed; the last line is 'N passed, 0 failed'. Files lie right before a forbidden page.
 */
#define _GNU_SOURCE
#include <stdio.h>
#include <string.h>
#include <sys/mman.h>

#include "sandgusset.h"

enum { PAGE = 1 << 16, TRANSITIONS = 3, HEAD = 8, ROW = 18, END = 4, FILE_BYTES = HEAD + TRANSITIONS * ROW + END };

static int passed, failed;

static void verdict(const char *name, int good)
{
    if (good) {
        passed++;
    } else {
        failed++;
        printf("failed: %s\n", name);
    }
}

/* ---- texts and version ---- */

static int known(unsigned status)
{
    return strcmp(sandgusset_text(status), "unknown") != 0;
}

static void try_texts(void)
{
    static const unsigned all[] = { 0, 1, 2, 3, 4, 5, 6, 7, 8, 9, 10, 11, 12, 13, 14, 15, SANDGUSSET_SPLIT, SANDGUSSET_TURNING,
                                    SANDGUSSET_OVERTAKEN };
    const size_t count = sizeof all / sizeof all[0];
    int own = 1;
    for (size_t i = 0; i < count; i++) {
        own = own && known(all[i]);
        for (size_t j = 0; j < i; j++)
            own = own && strcmp(sandgusset_text(all[i]), sandgusset_text(all[j])) != 0;
    }
    verdict("every status has a text of its own", own);
    verdict("0 is done", strcmp(sandgusset_text(0), "done") == 0);
    verdict("other numbers are unknown", !known(16) && !known(255) && !known(259) && !known(65535) &&
                                             !known(65536 + 1));
    verdict("a refusal's number goes with its text", strcmp(sandgusset_text(3), "more than 256 transitions") == 0);
    verdict("turning is a matter of responses that can be told apart",
            strstr(sandgusset_text(SANDGUSSET_TURNING), "can be told apart") != NULL);
}

static void try_version(void)
{
    char text[40];
    snprintf(text, sizeof text, "%d.%d.%d", SANDGUSSET_VERSION_MAJOR, SANDGUSSET_VERSION_MINOR, SANDGUSSET_VERSION_PATCH);
    verdict("the version in text and in numbers", strcmp(text, SANDGUSSET_VERSION) == 0);
}

static int whole_kb(size_t bytes)
{
    return bytes > 0 && bytes % 1024 == 0;
}

static void try_numbers(void)
{
    verdict("0 is every good answer", SANDGUSSET_STRICT == 0 && SANDGUSSET_IN_ORDER == 0 && SANDGUSSET_STEADY == 0 &&
                                          SANDGUSSET_REPLAYED == 0 && SANDGUSSET_WRITTEN == 0 && SANDGUSSET_PLAYED == 0);
    verdict("overtaken is 258, and no refusal", SANDGUSSET_OVERTAKEN == 258 && !sandgusset_refused(SANDGUSSET_OVERTAKEN));
    verdict("places and their bytes", SANDGUSSET_TRACE_BYTES == 2 * SANDGUSSET_TRACE_PLACES &&
                                          SANDGUSSET_STAMP_BYTES == 4 * SANDGUSSET_STAMP_PLACES &&
                                          SANDGUSSET_ORDER_BYTES == 4 * SANDGUSSET_ORDER_PLACES);
    verdict("256 words of 512 steps", SANDGUSSET_MAX_WORDS == 256 && SANDGUSSET_MAX_STEPS == 512);
    verdict("the player's refusals", SANDGUSSET_NOT_OPEN == 10 && SANDGUSSET_NOT_NOW == 11 && SANDGUSSET_SPLIT_TABLE == 13 &&
                                         SANDGUSSET_INPUTS_OVER == 14 && SANDGUSSET_BAD_CONFIG == 15 && sandgusset_refused(15));
    verdict("the player's room", SANDGUSSET_PLAYER_CONFIG_BYTES == 10 &&
                                     SANDGUSSET_PLAYER_RECORD_BYTES == 8 && SANDGUSSET_PLAYER_RECORDS == 240 &&
                                     SANDGUSSET_PLAYER_WAITING_BYTES == 8 * 240);
    verdict("4,096 ticks and 512 inputs", SANDGUSSET_MAX_TIMER == 4096 * 256 && SANDGUSSET_MAX_INPUTS == 512);
    verdict("the stack of each call, in whole KB", whole_kb(SANDGUSSET_STACK_JUDGE) && whole_kb(SANDGUSSET_STACK_ORDER) &&
                                                       whole_kb(SANDGUSSET_STACK_JUDGE_TRACE) &&
                                                       whole_kb(SANDGUSSET_STACK_REPLAY) &&
                                                       whole_kb(SANDGUSSET_STACK_REPLAY_WORDS) &&
                                                       whole_kb(SANDGUSSET_STACK_REWRITE) &&
                                                       whole_kb(SANDGUSSET_STACK_PLAYER_START) &&
                                                       whole_kb(SANDGUSSET_STACK_PLAYER_TIME) &&
                                                       whole_kb(SANDGUSSET_STACK_PLAYER_INPUT) &&
                                                       whole_kb(SANDGUSSET_STACK_PLAYER_OUTPUT));
}

/* ---- transitions ---- */

static uint8_t file[FILE_BYTES];
static uint8_t *border;     /* the forbidden page */

/* Number i of transition t, a different one for each. */
static unsigned cell(unsigned t, unsigned i)
{
    return 1000 * (t + 1) + 100 + i;
}

static void make_file(void)
{
    static const uint16_t head[] = { 6, 1, 4, 0 }, row[] = { 16, 2 }, end[] = { 2, 3 };
    size_t at = 0;
    for (size_t i = 0; i < HEAD / 2; i++)
        sandgusset_put16(file, at++, head[i]);
    for (unsigned t = 0; t < TRANSITIONS; t++)
        for (unsigned i = 0; i < ROW / 2; i++)
            sandgusset_put16(file, at++, i < 2 ? row[i] : (uint16_t)cell(t, i - 2));
    for (size_t i = 0; i < END / 2; i++)
        sandgusset_put16(file, at++, end[i]);
}

/* Is it transition t, or, for t = TRANSITIONS, what it was before the call? */
static int is(const struct sandgusset_transition *x, unsigned t)
{
    return x->departure == cell(t, 0) && x->input == cell(t, 1) && x->output == cell(t, 2) && x->arrival == cell(t, 3) &&
           x->u == cell(t, 4) && x->v == cell(t, 5) && x->d == cell(t, 6);
}

/* Does the call find transition t in these bytes, or nothing for t = TRANSITIONS? */
static int finds(const uint8_t *bytes, size_t length, size_t number, unsigned t)
{
    const unsigned before = TRANSITIONS;
    struct sandgusset_transition x = { (uint16_t)cell(before, 0), (uint16_t)cell(before, 1), (uint16_t)cell(before, 2),
                                       (uint16_t)cell(before, 3), (uint16_t)cell(before, 4), (uint16_t)cell(before, 5),
                                       (uint16_t)cell(before, 6) };
    uint8_t *at = border - length;
    if (length > 0)
        memcpy(at, bytes, length);
    return sandgusset_get_transition(length > 0 ? at : NULL, length, number, &x) == (t < TRANSITIONS) && is(&x, t);
}

static void try_cuts(void)
{
    int good = 1;
    for (size_t length = 0; length <= FILE_BYTES; length++)
        for (unsigned t = 0; t <= TRANSITIONS; t++) {
            int whole = t < TRANSITIONS && HEAD + ROW * (t + 1) <= length;
            good = good && finds(file, length, t, whole ? t : TRANSITIONS);
        }
    verdict("a transition is found exactly if its record is whole", good);
    verdict("no number is too great", finds(file, FILE_BYTES, (size_t)-1, TRANSITIONS));
}

/* Any byte may be anything: what matters is that nothing outside is read, which would end the program. */
static void try_damage(void)
{
    uint8_t bytes[FILE_BYTES];
    struct sandgusset_transition x;
    int good = 1;
    for (size_t i = 0; i < FILE_BYTES; i++)
        for (unsigned value = 0; value < 256; value++)
            for (size_t number = 0; number <= TRANSITIONS; number++) {
                memcpy(bytes, file, FILE_BYTES);
                bytes[i] = (uint8_t)value;
                memcpy(border - FILE_BYTES, bytes, FILE_BYTES);
                int found = sandgusset_get_transition(border - FILE_BYTES, FILE_BYTES, number, &x);
                good = good && (found == 0 || (found == 1 && number < TRANSITIONS));
            }
    verdict("damaged files", good);
}

static void try_records(void)
{
    uint8_t bytes[FILE_BYTES + 2];
    memcpy(bytes, file, HEAD);
    memset(bytes + HEAD, 0, 2);
    memcpy(bytes + HEAD + 2, file + HEAD, FILE_BYTES - HEAD);
    sandgusset_put16(bytes, 0, 8);
    verdict("a record is as long as it says", finds(bytes, FILE_BYTES + 2, 1, 1));
    memcpy(bytes, file, FILE_BYTES);
    sandgusset_put16(bytes + HEAD, 1, 9);
    verdict("nothing is counted after a record of unknown kind", finds(bytes, FILE_BYTES, 0, TRANSITIONS));
    sandgusset_put16(bytes + HEAD, 1, 3);
    verdict("nothing is counted after the end", finds(bytes, FILE_BYTES, 1, TRANSITIONS));
}

/* ---- what the player's buffers say, right before the forbidden page ---- */

static void try_player(void)
{
    static const uint8_t bytes[] = { 0x02, 0x01, 0x04, 0x03, 0x02, 0x00, 0x0A, 0x09, 0x08, 0x07 };
    static const uint8_t two[] = { 0x12, 0x11, 0x14, 0x13, 0x18, 0x17, 0x16, 0x15, 0x22, 0x21, 0x24, 0x23, 0x28, 0x27, 0x06, 0x05 };
    uint8_t config[sizeof bytes];
    memcpy(config, bytes, sizeof bytes);
    memcpy(border - sizeof bytes, bytes, sizeof bytes);
    struct sandgusset_config now = sandgusset_get_config(border - sizeof bytes);
    verdict("a configuration", now.state == 0x0102 && now.inputs == 0x0304 && now.waiting == 2 && now.timer == 0x0708090Au);
    memcpy(border - sizeof two, two, sizeof two);
    struct sandgusset_waiting second = sandgusset_get_waiting(border - sizeof two, 1);
    verdict("a waiting response", second.step == 0x2122 && second.letter == 0x2324 && second.left == 0x05062728u);
    verdict("the time to the next", sandgusset_time_to_next(config, border - sizeof two) == 0x05062728u);
    sandgusset_put16(config, 2, 1);
    verdict("the time to the only one", sandgusset_time_to_next(config, border - sizeof two) == 0x15161718u);
    sandgusset_put16(config, 2, 0);
    verdict("none waits", sandgusset_time_to_next(config, NULL) == 0xFFFFFFFFu);
}

int main(void)
{
    uint8_t *pages = mmap(NULL, 2 * PAGE, PROT_READ | PROT_WRITE, MAP_PRIVATE | MAP_ANONYMOUS, -1, 0);
    if (pages == MAP_FAILED || mprotect(pages + PAGE, PAGE, PROT_NONE) != 0) {
        fprintf(stderr, "header: no memory\n");
        return 2;
    }
    border = pages + PAGE;
    make_file();
    try_version();
    try_texts();
    try_numbers();
    try_cuts();
    try_damage();
    try_records();
    try_player();
    printf("%d passed, %d failed\n", passed, failed);
    return failed != 0;
}

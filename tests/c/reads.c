/* A log in reads from C: sample B, and logs with a byte of it changed, each cut in two at every
 * byte; states and tables that are too short, that stand for no state or are unsound; and calls behind an answer.
 */
#include "checks.h"
#include "sample.h"
#include "towercloak.h"

#include <string.h>

enum { LENGTH = 128, BEHIND = 8, STATE = TOWERCLOAK_STATE, TABLE = TOWERCLOAK_TABLE, MORE = TOWERCLOAK_MORE };

#define GUARD UINT64_C(0xA7A7A7A7A7A7A7A7)

static const uint8_t sample[LENGTH] = {HEADER, BUFFER};

/* A log with a byte changed, up to a length, and what it comes to. A refusal is given with the byte that settles it, or with
 * the end. */
struct test {
    const char *name;
    size_t length, changed;
    uint8_t byte;
    uint32_t number;
    uint64_t place;
    size_t judged; /* the bytes with which it is refused; more than the length for the end */
};

static const struct test tests[] = {
    {"sample B", 128, 0, 1, 0, 0, 129},
    {"a bare header", 32, 0, 1, 0, 0, 33},
    {"nothing", 0, 0, 1, 1, 0, 1},
    {"31 bytes", 31, 0, 1, 1, 0, 32},
    {"version 2", 128, 0, 2, 2, 0, 32},
    {"type 257", 128, 3, 1, 3, 0, 32},
    {"buffer_size 63", 128, 16, 63, 4, 0, 33},
    {"a buffer cut short", 127, 0, 1, 4, 0, 128},
    {"no byte left for EndOfBuffer", 96, 16, 64, 5, 96, 96},
    {"action 4", 128, 88, 0x58, 6, 88, 96},
    {"kind 7", 128, 88, 0x0F, 19, 88, 104},
    {"Entry where WallTimeMarker should be", 128, 48, 0, 7, 48, 56},
    {"Exit of 6", 128, 88, 0x62, 10, 88, 96},
};

struct told {
    uint32_t answer;
    uint64_t counts[4], place;
};

static uint64_t state[STATE + BEHIND], table[TABLE + BEHIND];

static struct told feed(const uint8_t *bytes, size_t length, size_t numbers, size_t rows)
{
    struct told t = {0, {9, 9, 9, 9}, 9};
    t.answer = towercloak_stream_feed(state, numbers, bytes, length, table, rows, &t.counts[0], &t.counts[1], &t.counts[2],
                                      &t.counts[3], &t.place);
    return t;
}

static struct told end(size_t numbers, size_t rows)
{
    struct told t = {0, {9, 9, 9, 9}, 9};
    t.answer = towercloak_stream_end(state, numbers, table, rows, &t.counts[0], &t.counts[1], &t.counts[2], &t.counts[3],
                                     &t.place);
    return t;
}

static void start(const char *name)
{
    for (size_t i = 0; i < STATE + BEHIND; i++)
        state[i] = GUARD;
    for (size_t i = 0; i < TABLE + BEHIND; i++)
        table[i] = GUARD;
    expect(name, "start", towercloak_stream_start(state, STATE + 1, TOWERCLOAK_LITTLE_ENDIAN) == 0);
}

static int kept(const uint64_t *numbers)
{
    for (size_t i = 0; i < BEHIND; i++)
        if (numbers[i] != GUARD)
            return 0;
    return 1;
}

static int is(struct told t, uint32_t answer, uint64_t place)
{
    uint64_t any = t.counts[0] | t.counts[1] | t.counts[2] | t.counts[3];
    return t.answer == answer && t.place == place && (answer == 0 || any == 0);
}

/* One log, cut in two: after each call what the bytes so far settle. */
static void try_cut(const struct test *test, const uint8_t *log, size_t cut)
{
    size_t so_far[2] = {cut, test->length};
    uint32_t last = MORE;
    start(test->name);
    for (int i = 0; i < 2; i++) {
        size_t from = i == 0 ? 0 : cut;
        uint32_t expected = so_far[i] >= test->judged ? test->number : (uint32_t)MORE;
        struct told t = feed(log + from, so_far[i] - from, STATE, TABLE);
        expect(test->name, "a read", is(t, expected, expected == MORE ? 0 : test->place));
        last = t.answer;
    }
    struct told t = end(STATE, TABLE);
    cases[test->number]++;
    expect(test->name, "the end", is(t, test->number, test->place));
    expect(test->name, "refused before the end, or not", (last == MORE) == (test->judged > test->length));
    uint64_t rows = test->number == 0 && test->length == LENGTH;
    expect(test->name, "the first row", table[0] == rows * 5 && table[5] == rows * 30);
    expect(test->name, "what is behind", kept(state + STATE) && kept(table + TABLE));
    expect(test->name, "calls behind it", is(end(STATE, 0), test->number, test->place) &&
                                              is(feed(log, test->length, STATE, 0), test->number, test->place));
}

/* Calls that change nothing, on a stream in the middle of B. */
static void try_idle(void)
{
    static uint64_t before[STATE], rows[TABLE];
    start("idle");
    expect("idle", "a start that is too short", towercloak_stream_start(state, STATE - 1, 0) == 14);
    expect("idle", "half of B", is(feed(sample, 90, STATE, TABLE), MORE, 0));
    memcpy(before, state, sizeof before);
    memcpy(rows, table, sizeof rows);
    expect_answer("idle", "a short state", feed(sample + 90, 1, STATE - 1, TABLE).answer, 14);
    expect_answer("idle", "no state at all", end(0, TABLE).answer, 14);
    expect_answer("idle", "a short table", feed(sample + 90, 1, STATE, TABLE - 1).answer, 14);
    expect("idle", "nothing changed", memcmp(before, state, sizeof before) == 0 && memcmp(rows, table, sizeof rows) == 0);
    state[5] = 5;
    expect_answer("idle", "a stage that is none", feed(sample + 90, 1, STATE, TABLE).answer, 22);
    state[5] = before[5];
    state[11]++;
    expect_answer("idle", "a buffer too many", end(STATE, TABLE).answer, 22);
    state[11] = before[11];
    table[1]++;
    expect_answer("idle", "an entry that nobody closed", end(STATE, TABLE).answer, 22);
    table[1] = rows[1];
    expect("idle", "and on", is(feed(sample + 90, 38, STATE, TABLE), MORE, 0) && is(end(STATE, TABLE), 0, 0));
}

/* A read past 2^64 - 1 bytes: a state made by hand, in a rest that is skipped. */
static void try_far(void)
{
    uint8_t far[LENGTH];
    memcpy(far, sample, sizeof far);
    memset(far + 16, 0xFF, 8);
    start("far");
    expect("far", "up to the rest", is(feed(far, LENGTH, STATE, TABLE), MORE, 0));
    uint64_t more = UINT64_MAX - LENGTH - 10;
    state[1] += more;
    state[3] -= more;
    expect("far", "10 bytes more", is(feed(far, 10, STATE, TABLE), MORE, 0));
    expect_answer("far", "an 11th", feed(far, 1, STATE, TABLE).answer, 20);
    expect("far", "its place", is(end(STATE, TABLE), 20, UINT64_MAX));
}

int main(void)
{
    static const uint32_t answers[] = {0, 1, 2, 3, 4, 5, 6, 7, 10, 14, 19, 20, 22};
    for (size_t i = 0; i < sizeof tests / sizeof tests[0]; i++) {
        uint8_t log[LENGTH];
        memcpy(log, sample, sizeof log);
        log[tests[i].changed] = tests[i].byte;
        for (size_t cut = 0; cut <= tests[i].length; cut++)
            try_cut(&tests[i], log, cut);
    }
    try_idle();
    try_far();
    return conclude("stream, in reads", answers, sizeof answers / sizeof answers[0]);
}

/* A stream from C: its start, logs in reads of every size, its end at states that calls leave and at others, and the edges
 * of what may be lent.
 */
#include "checks.h"
#include "towercloak.h"

#include <string.h>

/* Numbers behind the state and the table, which must stay as they are. */
enum { BEHIND = 4, STATE = TOWERCLOAK_STATE, TABLE = TOWERCLOAK_TABLE };
enum { LITTLE = TOWERCLOAK_LITTLE_ENDIAN, BIG = TOWERCLOAK_BIG_ENDIAN };

#define GUARD UINT64_C(0xA7A7A7A7A7A7A7A7)

/* Where the numbers of a state stand. */
enum {
    ORDER, OFFSET, SIZE, SKIP, COUNT, STAGE, THREAD, DEPTH, CLOCK, ROWS, RECORDS, BUFFERS, OVER, ANSWER, PLACE,
    SINCE = 18, HELD = 274, ROW = 306, INDEX = 370, CACHE = 626
};

/* Changes to a fresh state: a number's place and what stands there, ended by the state's length. */
struct change {
    size_t place;
    uint64_t number;
};

/* A state, how many numbers it and the table have, and what is answered at its end. */
struct test {
    const char *name;
    struct change changes[8];
    size_t state, table;
    uint32_t number;
    uint64_t place, counts[4];
};

#define LAST {STATE, 0}
#define NONE {0, 0, 0, 0}

static const struct test tests[] = {
    {"no byte", {LAST}, STATE, TABLE, 1, 0, NONE},
    {"31 bytes", {{OFFSET, 31}, {COUNT, 31}, LAST}, STATE, TABLE, 1, 0, NONE},
    {"a bare header", {{OFFSET, 32}, LAST}, STATE, TABLE, 0, 0, NONE},
    {"a byte of the first buffer", {{OFFSET, 33}, {SIZE, 64}, {COUNT, 1}, {HELD, 1}, LAST}, STATE, TABLE, 4, 0, NONE},
    {"a buffer", {{OFFSET, 96}, {SIZE, 64}, {RECORDS, 4}, {BUFFERS, 1}, LAST}, STATE, TABLE, 0, 0, {0, 1, 4, 0}},
    {"a buffer with a call", {{OFFSET, 96}, {SIZE, 64}, {RECORDS, 6}, {BUFFERS, 1}, {ROWS, 1}, LAST}, STATE, TABLE,
     0, 0, {1, 1, 6, 0}},
    {"anything in the cache", {{OFFSET, 32}, {CACHE, UINT64_MAX}, {STATE - 1, UINT64_MAX}, LAST}, STATE, TABLE, 0, 0, NONE},
    {"anything in the rows and the index of none", {{OFFSET, 32}, {ROW, UINT64_MAX}, {INDEX, UINT64_MAX}, LAST},
     STATE, TABLE, 0, 0, NONE},
    {"anything behind the first of an index",
     {{OFFSET, 96}, {SIZE, 64}, {RECORDS, 6}, {BUFFERS, 1}, {ROWS, 1}, {INDEX, UINT64_MAX - 65535}, LAST}, STATE, TABLE,
     0, 0, {1, 1, 6, 0}},
    {"ended by a refusal", {{OFFSET, 99}, {OVER, 1}, {ANSWER, 10}, {PLACE, 88}, LAST}, STATE, TABLE, 10, 88, NONE},
    {"ended by a report",
     {{OFFSET, 128}, {OVER, 1}, {ANSWER + 1, 2}, {ANSWER + 2, 1}, {ANSWER + 3, 9}, {ANSWER + 4, 3}, LAST},
     STATE, 0, 0, 0, {2, 1, 9, 3}},
    {"ended, and no table", {{OVER, 1}, {ANSWER, 1}, LAST}, STATE, 0, 1, 0, NONE},
    {"a state one number short", {LAST}, STATE - 1, TABLE, 14, 0, NONE},
    {"a short state that stands for none", {{ORDER, 2}, LAST}, STATE - 1, TABLE, 14, 0, NONE},
    {"a table one number short", {LAST}, STATE, TABLE - 1, 14, 0, NONE},
    {"order 2", {{ORDER, 2}, LAST}, STATE, TABLE, 22, 0, NONE},
    {"a sixth stage", {{STAGE, 5}, LAST}, STATE, TABLE, 22, 0, NONE},
    {"a thread of 17 bits", {{THREAD, 65537}, LAST}, STATE, TABLE, 22, 0, NONE},
    {"a flag of 2", {{OVER, 2}, LAST}, STATE, TABLE, 22, 0, NONE},
    {"refusal 21", {{ANSWER, 21}, LAST}, STATE, TABLE, 22, 0, NONE},
    {"a count behind a place", {{OVER, 1}, {ANSWER, 1}, {ANSWER + 4, 1}, LAST}, STATE, TABLE, 22, 0, NONE},
    {"a byte of 256", {{HELD + 31, 256}, LAST}, STATE, TABLE, 22, 0, NONE},
    {"no state, and a short table", {{ORDER, 2}, LAST}, STATE, 0, 22, 0, NONE},
    {"a header with a byte too few", {{OFFSET, 31}, LAST}, STATE, TABLE, 22, 0, NONE},
    {"ended by 14", {{OVER, 1}, {ANSWER, 14}, LAST}, STATE, TABLE, 22, 0, NONE},
    {"an index that names no row",
     {{OFFSET, 96}, {SIZE, 64}, {RECORDS, 6}, {BUFFERS, 1}, {ROWS, 1}, {INDEX, 1}, LAST}, STATE, TABLE, 22, 0, NONE},
    {"rows that have no entry",
     {{OFFSET, 96}, {SIZE, 64}, {RECORDS, 6}, {BUFFERS, 1}, {ROWS, 2}, {INDEX, 1}, LAST}, STATE, TABLE, 22, 0, NONE},
};

static uint64_t state[STATE + BEHIND], before[STATE + BEHIND], table[TABLE + BEHIND], expected[TABLE + BEHIND];

/* One row that was entered and closed, and zeros. */
static void fill_table(void)
{
    static const uint64_t row[TOWERCLOAK_ROW] = {5, 1, 1, 0, 0, 9};
    memset(table, 0, sizeof table);
    memcpy(table, row, sizeof row);
    for (size_t i = TABLE; i < TABLE + BEHIND; i++)
        table[i] = GUARD;
    memcpy(expected, table, sizeof table);
}

static void expect_behind(const char *name)
{
    expect(name, "the numbers behind the state", memcmp(state + STATE, before + STATE, BEHIND * sizeof state[0]) == 0);
}

static void start(const char *name, uint32_t order)
{
    for (size_t i = 0; i < STATE + BEHIND; i++)
        state[i] = before[i] = GUARD;
    expect_answer(name, "the start's answer", towercloak_stream_start(state, STATE, order), 0);
    expect_behind(name);
}

static uint32_t end(size_t numbers, size_t rows, uint64_t counts[4], uint64_t *place)
{
    return towercloak_stream_end(state, numbers, table, rows, &counts[0], &counts[1], &counts[2], &counts[3], place);
}

static void run(const struct test *test, uint32_t order)
{
    uint64_t counts[4] = {GUARD, GUARD, GUARD, GUARD}, place = GUARD;
    start(test->name, order);
    fill_table();
    for (const struct change *change = test->changes; change->place != STATE; change++)
        state[change->place] = change->number;
    memcpy(before, state, sizeof state);
    int changed = before[OVER] == 0 && test->number != 14 && test->number != 22;
    size_t rows = TOWERCLOAK_ROW * (size_t)test->counts[0];
    if (changed)
        memset(expected + rows, 0, (TABLE - rows) * sizeof table[0]);
    expect_answer(test->name, "the answer", end(test->state, test->table, counts, &place), test->number);
    expect(test->name, "the counts", memcmp(counts, test->counts, sizeof counts) == 0);
    expect(test->name, "the place", place == test->place);
    expect(test->name, "the table", memcmp(table, expected, sizeof table) == 0);
    if (!changed) {
        expect(test->name, "the state", memcmp(state, before, sizeof state) == 0);
        return;
    }
    expect_behind(test->name);
    expect_answer(test->name, "the answer again", end(STATE, 0, counts, &place), test->number);
    expect(test->name, "the counts again", memcmp(counts, test->counts, sizeof counts) == 0);
}

/* Sample B of Paper 01: a buffer of 96 bytes with an Entry and an Exit of 5. All other bytes are 0. */
enum { LENGTH = 128 };
static const struct {
    size_t place;
    uint8_t byte;
} sample[] = {{0, 1},   {2, 1},    {4, 3},  {9, 0xCA},  {10, 0x9A}, {11, 0x3B}, {16, 96},   {32, 1},  {33, 7},
              {48, 9},  {64, 5},   {67, 0xE8}, {68, 3}, {80, 0x50}, {84, 10},   {88, 0x52}, {92, 30}, {96, 3}};

/* Feeds a log in reads of a size, then tells the end: what is answered first but more. */
static uint32_t feed(const char *name, const uint8_t *log, size_t size, uint64_t counts[4], uint64_t *place)
{
    start(name, LITTLE);
    for (size_t at = 0; at < LENGTH; at += size) {
        size_t length = size < LENGTH - at ? size : LENGTH - at;
        uint32_t number = towercloak_stream_feed(state, STATE, log + at, length, table, TABLE, &counts[0], &counts[1],
                                                 &counts[2], &counts[3], place);
        if (number != TOWERCLOAK_MORE)
            return number;
        expect(name, "more", counts[0] == 0 && counts[1] == 0 && counts[2] == 0 && counts[3] == 0 && *place == 0);
    }
    return end(STATE, TABLE, counts, place);
}

/* B and logs with a byte of it changed, in reads of every size: as the whole log is replayed. */
static void feed_all(void)
{
    static const struct {
        const char *name;
        size_t place;
        uint8_t byte;
    } logs[] = {{"B", 0, 1}, {"version 2", 0, 2}, {"type 2", 2, 2}, {"action 4", 88, 0x58}, {"kind 7", 88, 0x0F},
                {"another Entry", 88, 0x50}, {"Exit of 6", 88, 0x62}, {"no EndOfBuffer", 96, 9}};
    uint64_t counts[4], whole_counts[4], place, whole_place;
    for (size_t i = 0; i < sizeof logs / sizeof logs[0]; i++) {
        uint8_t log[LENGTH] = {0};
        for (size_t k = 0; k < sizeof sample / sizeof sample[0]; k++)
            log[sample[k].place] = sample[k].byte;
        log[logs[i].place] = logs[i].byte;
        fill_table();
        memcpy(expected, table, sizeof table);
        uint32_t whole = towercloak_replay(log, LENGTH, LITTLE, expected, TABLE, &whole_counts[0], &whole_counts[1],
                                           &whole_counts[2], &whole_counts[3], &whole_place);
        for (size_t size = 1; size <= LENGTH; size++) {
            uint32_t number = feed(logs[i].name, log, size, counts, &place);
            expect_answer(logs[i].name, "the answer", number, whole);
            expect(logs[i].name, "the counts", memcmp(counts, whole_counts, sizeof counts) == 0);
            expect(logs[i].name, "the place", place == whole_place);
            expect(logs[i].name, "the table", memcmp(table, expected, sizeof table) == 0);
        }
    }
}

static void lend_too_little(void)
{
    uint64_t counts[4] = {GUARD, GUARD, GUARD, GUARD}, place = GUARD;
    for (size_t i = 0; i < STATE + BEHIND; i++)
        state[i] = before[i] = GUARD;
    expect_answer("one number short", "the start's answer", towercloak_stream_start(state, STATE - 1, LITTLE), 14);
    expect("one number short", "the state", memcmp(state, before, sizeof state) == 0);
    expect_answer("null", "the start's answer", towercloak_stream_start(NULL, 0, BIG), 14);
    expect_answer("null", "the feed's answer",
                  towercloak_stream_feed(NULL, 0, NULL, 0, NULL, 0, &counts[0], &counts[1], &counts[2], &counts[3], &place),
                  14);
    expect_answer("null", "the end's answer",
                  towercloak_stream_end(NULL, 0, NULL, 0, &counts[0], &counts[1], &counts[2], &counts[3], &place), 14);
    expect("null", "the numbers", counts[0] == 0 && counts[1] == 0 && counts[2] == 0 && counts[3] == 0 && place == 0);
}

int main(void)
{
    static const uint32_t answers[] = {0, 1, 2, 3, 4, 6, 7, 10, 14, 19, 22};
    for (size_t i = 0; i < sizeof tests / sizeof tests[0]; i++) {
        run(&tests[i], LITTLE);
        run(&tests[i], BIG);
    }
    feed_all();
    lend_too_little();
    return conclude("stream", answers, sizeof answers / sizeof answers[0]);
}

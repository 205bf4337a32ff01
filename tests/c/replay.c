/* The replay and the header's fields from C: sample B of Paper 01, "Sample logs", in both byte orders, and logs with a
 * byte of it changed, so that they are answered otherwise or refused; and the edges of what may be lent.
 */
#include "checks.h"
#include "sample.h"
#include "towercloak.h"

#include <string.h>

/* Numbers behind the table, and bytes behind the log, which must stay as they are. */
enum { BEHIND = 8, LONGEST = 224 };

#define GUARD UINT64_C(0xA7A7A7A7A7A7A7A7)

/* B, and its buffer once more: 1,000,000,000 Hz, both flags, a buffer_size of 96. */
static const uint8_t twice[LONGEST] = {
    HEADER, BUFFER, BUFFER,
};
static const uint8_t big_twice[LONGEST] = {
    BIG_HEADER, BIG_BUFFER, BIG_BUFFER,
};

enum { LITTLE = TOWERCLOAK_LITTLE_ENDIAN, BIG = TOWERCLOAK_BIG_ENDIAN };

/* The first bytes of such a log with one of them changed, the order they are read in, and what is answered. */
struct test {
    const char *name;
    const uint8_t *log;
    uint32_t order;
    size_t length, changed;
    uint8_t byte;
    size_t numbers;
    uint32_t number;
    uint64_t place, counts[4], row[6];
};

#define WHOLE TOWERCLOAK_TABLE
#define NONE {0, 0, 0, 0}, {0, 0, 0, 0, 0, 0}

static const struct test tests[] = {
    {"sample B", twice, LITTLE, 128, 0, 1, WHOLE, 0, 0, {1, 1, 6, 0}, {5, 1, 1, 0, 0, 30}},
    {"two buffers", twice, LITTLE, 224, 0, 1, WHOLE + 4, 0, 0, {1, 2, 12, 0}, {5, 2, 2, 0, 0, 60}},
    {"a second Entry", twice, LITTLE, 128, 88, 0x50, WHOLE, 0, 0, {1, 1, 6, 2}, {5, 2, 0, 0, 0, 0}},
    {"a bare header", twice, LITTLE, 32, 0, 1, WHOLE, 0, 0, {0, 0, 0, 0}, {0, 0, 0, 0, 0, 0}},
    {"31 bytes", twice, LITTLE, 31, 0, 1, WHOLE, 1, 0, NONE},
    {"version 2", twice, LITTLE, 128, 0, 2, WHOLE, 2, 0, NONE},
    {"type 257", twice, LITTLE, 128, 3, 1, WHOLE, 3, 0, NONE},
    {"buffer_size 95", twice, LITTLE, 128, 16, 95, WHOLE, 4, 0, NONE},
    {"no byte left for EndOfBuffer", twice, LITTLE, 96, 16, 64, WHOLE, 5, 96, NONE},
    {"action 4", twice, LITTLE, 128, 88, 0x58, WHOLE, 6, 88, NONE},
    {"kind 7", twice, LITTLE, 128, 88, 0x0F, WHOLE, 19, 88, NONE},
    {"Entry where WallTimeMarker should be", twice, LITTLE, 128, 48, 0, WHOLE, 7, 48, NONE},
    {"another thread", twice, LITTLE, 224, 129, 8, WHOLE, 8, 128, NONE},
    {"Exit of 6", twice, LITTLE, 128, 88, 0x62, WHOLE, 10, 88, NONE},
    {"a table one number short", twice, LITTLE, 128, 0, 1, WHOLE - 1, 14, 0, NONE},
    {"no table, and a refused log", twice, LITTLE, 31, 0, 1, 0, 14, 0, NONE},

    {"big-endian B", big_twice, BIG, 128, 0, 0, WHOLE, 0, 0, {1, 1, 6, 0}, {5, 1, 1, 0, 0, 30}},
    {"order 2", big_twice, 2, 128, 0, 0, WHOLE, 0, 0, {1, 1, 6, 0}, {5, 1, 1, 0, 0, 30}},
    {"order 256", big_twice, 256, 128, 0, 0, WHOLE, 0, 0, {1, 1, 6, 0}, {5, 1, 1, 0, 0, 30}},
    {"order 2^31", big_twice, 0x80000000, 128, 0, 0, WHOLE, 0, 0, {1, 1, 6, 0}, {5, 1, 1, 0, 0, 30}},
    {"order 2^32 - 1", big_twice, 0xFFFFFFFF, 128, 0, 0, WHOLE, 0, 0, {1, 1, 6, 0}, {5, 1, 1, 0, 0, 30}},
    {"two big-endian buffers", big_twice, BIG, 224, 0, 0, WHOLE + 4, 0, 0, {1, 2, 12, 0}, {5, 2, 2, 0, 0, 60}},
    {"a second big-endian Entry", big_twice, BIG, 128, 88, 0, WHOLE, 0, 0, {1, 1, 6, 2}, {5, 2, 0, 0, 0, 0}},
    {"big-endian Entry_Args", big_twice, BIG, 128, 80, 0x30, WHOLE, 0, 0, {1, 1, 6, 0}, {5, 1, 1, 0, 0, 30}},
    {"big-endian Tail_Exit", big_twice, BIG, 128, 88, 0x20, WHOLE, 0, 0, {1, 1, 6, 0}, {5, 1, 1, 0, 0, 30}},
    {"a delta of 2^24 + 30", big_twice, BIG, 128, 92, 1, WHOLE, 0, 0, {1, 1, 6, 0}, {5, 1, 1, 0, 0, 16777246}},
    {"a big-endian bare header", big_twice, BIG, 32, 0, 0, WHOLE, 0, 0, {0, 0, 0, 0}, {0, 0, 0, 0, 0, 0}},
    {"31 big-endian bytes", big_twice, BIG, 31, 0, 0, WHOLE, 1, 0, NONE},
    {"big-endian version 2", big_twice, BIG, 128, 1, 2, WHOLE, 2, 0, NONE},
    {"big-endian type 257", big_twice, BIG, 128, 2, 1, WHOLE, 3, 0, NONE},
    {"big-endian buffer_size 95", big_twice, BIG, 128, 23, 95, WHOLE, 4, 0, NONE},
    {"no byte left for big-endian EndOfBuffer", big_twice, BIG, 96, 23, 64, WHOLE, 5, 96, NONE},
    {"big-endian action 4", big_twice, BIG, 128, 88, 0x40, WHOLE, 6, 88, NONE},
    {"big-endian kind 7", big_twice, BIG, 128, 88, 0x87, WHOLE, 19, 88, NONE},
    {"Entry where big-endian WallTimeMarker should be", big_twice, BIG, 128, 48, 0, WHOLE, 7, 48, NONE},
    {"another big-endian thread", big_twice, BIG, 224, 130, 8, WHOLE, 8, 128, NONE},
    {"big-endian Exit of 6", big_twice, BIG, 128, 91, 6, WHOLE, 10, 88, NONE},
    {"big-endian Exit of 15 * 2^24 + 5", big_twice, BIG, 128, 88, 0x1F, WHOLE, 10, 88, NONE},
    {"a table one number short, big-endian", big_twice, BIG, 128, 0, 0, WHOLE - 1, 14, 0, NONE},

    {"B as big-endian", twice, BIG, 128, 0, 1, WHOLE, 2, 0, NONE},
    {"B as order 2^31", twice, 0x80000000, 128, 0, 1, WHOLE, 2, 0, NONE},
    {"big-endian B as little-endian", big_twice, LITTLE, 128, 0, 0, WHOLE, 2, 0, NONE},
};

static uint64_t table[WHOLE + BEHIND];

/* Whether the lent numbers of the table hold the one row and zeros, or are untouched after 14, as those behind. */
static int table_holds(const struct test *test)
{
    size_t written = test->number == 14 ? 0 : (size_t)TOWERCLOAK_TABLE;
    for (size_t i = 0; i < sizeof table / sizeof table[0]; i++) {
        uint64_t row = i < TOWERCLOAK_ROW ? test->row[i] : 0;
        if (table[i] != (i < written ? row : GUARD))
            return 0;
    }
    return 1;
}

static void replay(const struct test *test, const uint8_t *log)
{
    uint64_t counts[4] = {GUARD, GUARD, GUARD, GUARD}, place = GUARD;
    for (size_t i = 0; i < sizeof table / sizeof table[0]; i++)
        table[i] = GUARD;
    uint32_t number = towercloak_replay(log, test->length, test->order, table, test->numbers, &counts[0], &counts[1],
                                        &counts[2], &counts[3], &place);
    expect_answer(test->name, "the answer", number, test->number);
    expect(test->name, "the counts", memcmp(counts, test->counts, sizeof counts) == 0);
    expect(test->name, "the place", place == test->place);
    expect(test->name, "the table", table_holds(test));
}

/* The header's fields are told where none of 1 to 4 applies. */
static void read_header(const struct test *test, const uint8_t *log)
{
    uint64_t fields[4] = {GUARD, GUARD, GUARD, GUARD};
    uint32_t expected = test->number <= 4 ? test->number : test->length < 32 ? 1 : 0;
    uint64_t expected_fields[4] = {1000000000, 1, 1, test->order == LITTLE ? log[16] : log[23]};
    if (expected != 0)
        memset(expected_fields, 0, sizeof expected_fields);
    uint32_t number =
        towercloak_header(log, test->length, test->order, &fields[0], &fields[1], &fields[2], &fields[3]);
    expect(test->name, "the header's answer", number == expected);
    expect(test->name, "the header's fields", memcmp(fields, expected_fields, sizeof fields) == 0);
}

static void run(const struct test *test)
{
    uint8_t log[LONGEST], before[LONGEST];
    memcpy(log, test->log, sizeof log);
    log[test->changed] = test->byte;
    memcpy(before, log, sizeof log);
    replay(test, log);
    read_header(test, log);
    expect(test->name, "the log", memcmp(log, before, sizeof log) == 0);
}

/* Each flag alone, and other bits of the bitfield; the widest numbers. */
static void read_flags(void)
{
    static const struct {
        const char *name;
        uint32_t order;
        uint8_t bytes[8]; /* version, type and bitfield */
        uint64_t constant_tsc, nonstop_tsc;
    } cases[] = {
        {"no flag", LITTLE, {1, 0, 1, 0, 0, 0, 0, 0}, 0, 0},
        {"constant_tsc", LITTLE, {1, 0, 1, 0, 1, 0, 0, 0}, 1, 0},
        {"nonstop_tsc", LITTLE, {1, 0, 1, 0, 2, 0, 0, 0}, 0, 1},
        {"other bits", LITTLE, {1, 0, 1, 0, 0xFC, 0xFF, 0xFF, 0xFF}, 0, 0},
        {"all bits", LITTLE, {1, 0, 1, 0, 0xFF, 0xFF, 0xFF, 0xFF}, 1, 1},
        {"big-endian, no flag", BIG, {0, 1, 0, 1, 0, 0, 0, 0}, 0, 0},
        {"big-endian constant_tsc", BIG, {0, 1, 0, 1, 0x80, 0, 0, 0}, 1, 0},
        {"big-endian nonstop_tsc", BIG, {0, 1, 0, 1, 0x40, 0, 0, 0}, 0, 1},
        {"big-endian nonstop_tsc, order 2^31", 0x80000000, {0, 1, 0, 1, 0x40, 0, 0, 0}, 0, 1},
        {"big-endian, other bits", BIG, {0, 1, 0, 1, 0x3F, 0xFF, 0xFF, 0xFF}, 0, 0},
        {"big-endian, all bits", BIG, {0, 1, 0, 1, 0xFF, 0xFF, 0xFF, 0xFF}, 1, 1},
    };
    uint8_t header[32] = {0};
    memset(header + 8, 0xFF, 16);
    for (size_t i = 0; i < sizeof cases / sizeof cases[0]; i++) {
        uint64_t frequency = 0, constant_tsc = GUARD, nonstop_tsc = GUARD, size = 0;
        memcpy(header, cases[i].bytes, sizeof cases[i].bytes);
        expect_answer(cases[i].name, "the answer",
                      towercloak_header(header, sizeof header, cases[i].order, &frequency, &constant_tsc, &nonstop_tsc,
                                        &size), 0);
        expect(cases[i].name, "constant_tsc", constant_tsc == cases[i].constant_tsc);
        expect(cases[i].name, "nonstop_tsc", nonstop_tsc == cases[i].nonstop_tsc);
        expect(cases[i].name, "the other fields", frequency == UINT64_MAX && size == UINT64_MAX);
    }
}

static void lend_nothing(uint32_t order)
{
    uint64_t counts[4] = {GUARD, GUARD, GUARD, GUARD}, place = GUARD;
    expect_answer("null for log and table", "the answer",
                  towercloak_replay(NULL, 0, order, NULL, 0, &counts[0], &counts[1], &counts[2], &counts[3], &place),
                  14);
    expect("null for log and table", "the numbers",
           counts[0] == 0 && counts[1] == 0 && counts[2] == 0 && counts[3] == 0 && place == 0);
    expect_answer("null for log", "the header's answer",
                  towercloak_header(NULL, 0, order, &counts[0], &counts[1], &counts[2], &counts[3]), 1);
}

int main(void)
{
    static const uint32_t answers[] = {0, 1, 2, 3, 4, 5, 6, 7, 8, 10, 14, 19};
    for (size_t i = 0; i < sizeof tests / sizeof tests[0]; i++)
        run(&tests[i]);
    read_flags();
    lend_nothing(LITTLE);
    lend_nothing(BIG);
    return conclude("replay", answers, sizeof answers / sizeof answers[0]);
}

/* The walk of a transition table from C: the source's two examples, other walks of its table, tables that are refused, and
 * the edges of what may be lent.
 */
#include "checks.h"
#include "towercloak.h"

#include <string.h>

/* Numbers behind the list, which must stay as they are, and the longest list. */
enum { BEHIND = 4, LONGEST = 8 };

#define GUARD UINT64_C(0xA7A7A7A7A7A7A7A7)
#define TOP UINT64_MAX

/* The source's table. */
static const uint64_t source[] = {
    123, 1, '0', 1, 124,           123, 1, '1', 1, 125,           124, 0, 1, 456,
    125, 1, '0', 1, 543,           125, 2, '1', '0', 2, 542, 549, 125, 2, '1', '1', 2, 540, 541,
};

/* 32 characters, and one more. */
#define ZEROS_8 '0', '0', '0', '0', '0', '0', '0', '0'
#define ZEROS_32 ZEROS_8, ZEROS_8, ZEROS_8, ZEROS_8
static const uint64_t code_of_32[] = {5, 32, ZEROS_32, 1, 6};
static const uint64_t code_of_33[] = {5, 33, ZEROS_32, '0', 1, 6};
static const uint64_t ring[] = {0, 0, 1, TOP, TOP, 0, 2, 7, 0};
static const uint64_t letter[] = {5, 1, 1, 1, 6};
static const uint64_t no_list[] = {5, 1, '0', 0};
static const uint64_t long_list[] = {5, 1, '0', TOP, 6};
static const uint64_t long_code[] = {5, TOP, '0', 1, 6};
static const uint64_t prefix[] = {5, 1, '1', 1, 6, 9, 0, 1, 6, 5, 2, '1', '0', 1, 6};
static const uint64_t twice[] = {5, 1, '1', 1, 6, 5, 1, '1', 1, 6};
static const uint64_t two_edges[] = {5, 1, '1', 1, 6, 6, 1, '1', 1, 5};

#define NUMBERS(table) table, sizeof table / sizeof table[0]
#define NONE {0}

/* A walk, and what is answered: a list of this length, and its first numbers. */
struct test {
    const char *name;
    const uint64_t *table;
    size_t numbers;
    uint64_t start;
    const char *bits;
    uint64_t wanted;
    size_t length;
    uint32_t number;
    uint64_t edges[LONGEST];
};

static const struct test tests[] = {
    {"the first example", NUMBERS(source), 123, "110", 3, 3, 0, {125, 542, 549}},
    {"the second example", NUMBERS(source), 123, "0", 2, 2, 0, {124, 456}},
    {"a longer list", NUMBERS(source), 123, "111", 3, 8, 0, {125, 540, 541}},
    {"no bits", NUMBERS(source), 124, "", 1, 1, 0, {456}},
    {"nothing wanted", NUMBERS(source), 9, "", 0, 2, 0, NONE},
    {"no table, nothing wanted", source, 0, 9, "", 0, 0, 0, NONE},
    {"empty codes", NUMBERS(ring), 0, "", 7, 8, 0, {TOP, 7, 0, TOP, 7, 0, TOP}},
    {"a code of 32", NUMBERS(code_of_32), 5, "00000000000000000000000000000000", 1, 1, 0, {6}},
    {"one code for two edges", NUMBERS(two_edges), 5, "111", 3, 3, 0, {6, 5, 6}},
    {"a list one short", NUMBERS(source), 123, "110", 3, 2, 14, NONE},
    {"as many wanted as can be", NUMBERS(source), 123, "110", TOP, 8, 14, NONE},
    {"a list one short, and a bad table", NUMBERS(letter), 123, "110", 3, 2, 14, NONE},
    {"a table one number short", source, 32, 123, "110", 3, 3, 40, NONE},
    {"an edge and no more", source, 1, 123, "110", 3, 3, 40, NONE},
    {"a code of 33", NUMBERS(code_of_33), 123, "", 0, 0, 40, NONE},
    {"the character 1", NUMBERS(letter), 123, "", 0, 0, 40, NONE},
    {"an empty list", NUMBERS(no_list), 123, "", 0, 0, 40, NONE},
    {"a list of 2^64 - 1", NUMBERS(long_list), 123, "", 0, 0, 40, NONE},
    {"a code of 2^64 - 1", NUMBERS(long_code), 123, "", 0, 0, 40, NONE},
    {"a code that begins another", NUMBERS(prefix), 9, "", 1, 1, 40, NONE},
    {"a code twice", NUMBERS(twice), 9, "1", 1, 1, 40, NONE},
    {"no row for the starting edge", NUMBERS(source), 9, "", 1, 1, 41, NONE},
    {"no row for 456", NUMBERS(source), 123, "0", 3, 4, 41, NONE},
    {"no table, an edge wanted", source, 0, 9, "", 1, 1, 41, NONE},
    {"bits run out", NUMBERS(source), 123, "11", 3, 3, 42, NONE},
    {"another character", NUMBERS(source), 123, "12", 2, 2, 42, NONE},
    {"31 bits for a code of 32", NUMBERS(code_of_32), 5, "0000000000000000000000000000000", 1, 1, 42, NONE},
    {"a list past the wanted number", NUMBERS(source), 123, "110", 2, 2, 43, NONE},
    {"a list past the wanted number, and bits", NUMBERS(source), 123, "1101", 2, 8, 43, NONE},
    {"a bit too many", NUMBERS(source), 123, "1101", 3, 3, 44, NONE},
    {"a bit, and nothing wanted", NUMBERS(source), 123, "0", 0, 0, 44, NONE},
};

static void run(const struct test *test)
{
    uint64_t list[LONGEST + BEHIND], expected[LONGEST + BEHIND];
    for (size_t i = 0; i < LONGEST + BEHIND; i++)
        list[i] = expected[i] = GUARD;
    if (test->number == 0)
        memcpy(expected, test->edges, (size_t)test->wanted * sizeof expected[0]);
    uint32_t number = towercloak_walk(test->table, test->numbers, test->start, test->bits, strlen(test->bits), test->wanted,
                                      list, test->length);
    expect_answer(test->name, "the answer", number, test->number);
    expect(test->name, "the list", memcmp(list, expected, sizeof list) == 0);
}

static void lend_nothing(void)
{
    expect_answer("null", "nothing wanted", towercloak_walk(NULL, 0, 5, NULL, 0, 0, NULL, 0), 0);
    expect_answer("null", "an edge wanted", towercloak_walk(NULL, 0, 5, NULL, 0, 1, NULL, 0), 14);
}

int main(void)
{
    static const uint32_t answers[] = {0, TOWERCLOAK_SHORT_LIST, TOWERCLOAK_BAD_TABLE, TOWERCLOAK_NO_TRANSITION,
                                       TOWERCLOAK_UNMATCHED_BITS, TOWERCLOAK_PAST_WANTED, TOWERCLOAK_BITS_LEFT};
    for (size_t i = 0; i < sizeof tests / sizeof tests[0]; i++)
        run(&tests[i]);
    lend_nothing();
    return conclude("walk", answers, sizeof answers / sizeof answers[0]);
}

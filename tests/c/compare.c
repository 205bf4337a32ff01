/* The comparison from C: the samples of Paper 01, "Sample logs", and the edges of "Writer and
 * comparison" and of refusals 17 and 18. Each case is tried as it stands and with its sides exchanged.
 */
#include "checks.h"
#include "towercloak.h"

#define MAX UINT64_MAX
#define GHZ UINT64_C(1000000000)
#define BIT(n) (UINT64_C(1) << (n))

struct side {
    uint64_t frequency, constant_tsc, closed, backward, ticks;
};

struct test {
    const char *name;
    struct side a, b;
    uint32_t expected;
};

enum { LOWER = TOWERCLOAK_LOWER, EQUAL = TOWERCLOAK_EQUAL, HIGHER = TOWERCLOAK_HIGHER };

/* A side is frequency, constant_tsc, closed, backward, ticks. This one is 1 tick at 1 Hz, in one measured call. */
#define ONE {1, 1, 1, 0, 1}

static const struct test tests[] = {
    {"30 ticks at 3 GHz against 20 at 1 GHz", {3 * GHZ, 1, 1, 0, 30}, {GHZ, 1, 1, 0, 20}, LOWER},
    {"2^64 - 1 in all four factors", {MAX, 1, 1, 0, MAX}, {MAX, 1, 1, 0, MAX}, EQUAL},
    {"10 ns on both sides", {3 * GHZ, 1, 1, 0, 30}, {GHZ, 1, 1, 0, 10}, EQUAL},

    {"17: frequency 0", {0, 1, 1, 0, 1}, ONE, 17},
    {"17: constant_tsc 0", {1, 0, 1, 0, 1}, ONE, 17},
    {"17: both of one side", {0, 0, 1, 0, 1}, ONE, 17},
    {"17: frequency 0 on both sides", {0, 1, 1, 0, 1}, {0, 1, 1, 0, 1}, 17},
    {"17: constant_tsc 0 on both sides", {1, 0, 1, 0, 1}, {1, 0, 1, 0, 1}, 17},
    {"17: frequency here, constant_tsc there", {0, 1, 1, 0, 1}, {1, 0, 1, 0, 1}, 17},
    {"17: frequency 0, other numbers 2^64 - 1", {0, MAX, MAX, 0, MAX}, {MAX, MAX, MAX, 0, MAX}, 17},

    {"17 before 18: all ten numbers 0", {0, 0, 0, 0, 0}, {0, 0, 0, 0, 0}, 17},
    {"17 before 18: frequency, same side", {0, 1, 0, 0, 1}, ONE, 17},
    {"17 before 18: frequency, other side", {0, 1, 1, 0, 1}, {1, 1, 0, 0, 1}, 17},
    {"17 before 18: frequency, 18 on both", {0, 1, 0, 0, 1}, {1, 1, 0, 0, 1}, 17},
    {"17 before 18: constant_tsc, same side", {1, 0, 0, 0, 1}, ONE, 17},
    {"17 before 18: constant_tsc, other side", {1, 0, 1, 0, 1}, {1, 1, 0, 0, 1}, 17},
    {"17 before 18: constant_tsc, 18 on both", {1, 0, 0, 0, 1}, {1, 1, 0, 0, 1}, 17},

    {"constant_tsc 2 is set", {1, 2, 1, 0, 1}, ONE, EQUAL},
    {"constant_tsc 256 is set", {1, 256, 1, 0, 1}, ONE, EQUAL},
    {"constant_tsc 2^32 is set", {1, BIT(32), 1, 0, 1}, ONE, EQUAL},
    {"constant_tsc 2^63 is set", {1, BIT(63), 1, 0, 1}, ONE, EQUAL},
    {"constant_tsc 2^64 - 1 is set", {1, MAX, 1, 0, 1}, ONE, EQUAL},
    {"constant_tsc is no factor", {1, 2, 1, 0, 2}, {1, 1, 1, 0, 3}, LOWER},

    {"18: closed 0, backward 0", {1, 1, 0, 0, 1}, ONE, 18},
    {"18: closed 1, backward 1", {1, 1, 1, 1, 1}, ONE, 18},
    {"18: closed 1, backward 2", {1, 1, 1, 2, 1}, ONE, 18},
    {"18: closed 0, backward 2^64 - 1", {1, 1, 0, MAX, 1}, ONE, 18},
    {"18: closed and backward 2^64 - 1", {1, 1, MAX, MAX, 1}, ONE, 18},
    {"18: closed = backward on both sides", {1, 1, 3, 3, 1}, {1, 1, 3, 3, 1}, 18},
    {"18: all ten numbers 2^64 - 1", {MAX, MAX, MAX, MAX, MAX}, {MAX, MAX, MAX, MAX, MAX}, 18},
    {"18: no ticks on either side", {1, 1, 0, 0, 0}, {1, 1, 0, 0, 0}, 18},
    {"closed 2, backward 1 is measured", {1, 1, 2, 1, 1}, ONE, EQUAL},
    {"closed 2^64 - 1, backward 2^64 - 2", {1, 1, MAX, MAX - 1, 1}, ONE, EQUAL},
    {"closed 2^64 - 1, backward 0", {1, 1, MAX, 0, 1}, ONE, EQUAL},
    {"closed 2^63, backward 2^63 - 1", {1, 1, BIT(63), BIT(63) - 1, 1}, ONE, EQUAL},
    {"closed is no divisor", {1, 1, 9, 0, 2}, ONE, HIGHER},

    {"ticks 0 against 0", {1, 1, 1, 0, 0}, {1, 1, 1, 0, 0}, EQUAL},
    {"ticks 0 against 0, other frequencies", {1, 1, 1, 0, 0}, {MAX, 1, 1, 0, 0}, EQUAL},
    {"ticks 0 against 1", {1, 1, 1, 0, 0}, ONE, LOWER},
    {"ticks 0 against 1 at 2^64 - 1 Hz", {1, 1, 1, 0, 0}, {MAX, 1, 1, 0, 1}, LOWER},
    {"ticks 0 against 2^64 - 1", {MAX, 1, 1, 0, 0}, {MAX, 1, 1, 0, MAX}, LOWER},

    {"2^64 against 0", {1, 1, 1, 0, BIT(32)}, {BIT(32), 1, 1, 0, 0}, HIGHER},
    {"2^64 against 1", {1, 1, 1, 0, BIT(32)}, {BIT(32), 1, 1, 0, 1}, HIGHER},
    {"2^64 against 2^64 - 1", {1, 1, 1, 0, BIT(32)}, {BIT(32), 1, 1, 0, MAX}, HIGHER},
    {"2^64 in two ways", {2, 1, 1, 0, BIT(32)}, {BIT(32), 1, 1, 0, BIT(63)}, EQUAL},
    {"2^64 against 2^65", {BIT(33), 1, 1, 0, BIT(32)}, {BIT(32), 1, 1, 0, BIT(32)}, LOWER},
    {"2^126 against 2^126 - 2^63", {BIT(63), 1, 1, 0, BIT(63)}, {BIT(63), 1, 1, 0, BIT(63) - 1}, HIGHER},
    {"2^127 - 2^63 against 1", {1, 1, 1, 0, BIT(63)}, {MAX, 1, 1, 0, 1}, HIGHER},
    {"products of 128 bits, one apart", {MAX, 1, 1, 0, MAX - 1}, {MAX - 1, 1, 1, 0, MAX - 2}, HIGHER},
    {"(2^64 - 1)(2^64 - 2) in two ways", {MAX, 1, 1, 0, MAX}, {MAX - 1, 1, 1, 0, MAX - 1}, EQUAL},
    {"a carry from the 32-bit halves", {MAX, 1, 1, 0, MAX}, {MAX, 1, 1, 0, MAX << 32}, HIGHER},
    {"2^64 - 1 against 2^64, from 2^32 +- 1",
     {BIT(32), 1, 1, 0, BIT(32) + 1}, {BIT(32) - 1, 1, 1, 0, BIT(32)}, LOWER},

    {"1 tick at 3 Hz against 1 at 2 Hz", {3, 1, 1, 0, 1}, {2, 1, 1, 0, 1}, LOWER},
    {"a third in two ways", {3, 1, 1, 0, 1}, {MAX, 1, 1, 0, MAX / 3}, EQUAL},
    {"a third and the next above it", {3, 1, 1, 0, 1}, {MAX, 1, 1, 0, MAX / 3 + 1}, LOWER},
    {"2^53 ticks against 2^53 + 1", {1, 1, 1, 0, BIT(53)}, {1, 1, 1, 0, BIT(53) + 1}, LOWER},
    {"2^64 - 2 ticks against 2^64 - 1", {1, 1, 1, 0, MAX - 1}, {1, 1, 1, 0, MAX}, LOWER},
    {"1 tick at 2^63 Hz against 1 at 1 Hz", {BIT(63), 1, 1, 0, 1}, ONE, LOWER},
};

static uint32_t compare(struct side a, struct side b)
{
    return towercloak_compare(a.frequency, a.constant_tsc, a.closed, a.backward, a.ticks,
                              b.frequency, b.constant_tsc, b.closed, b.backward, b.ticks);
}

static uint32_t mirrored(uint32_t answer)
{
    if (answer == TOWERCLOAK_LOWER)
        return TOWERCLOAK_HIGHER;
    if (answer == TOWERCLOAK_HIGHER)
        return TOWERCLOAK_LOWER;
    return answer;
}

int main(void)
{
    static const uint32_t answers[] = {LOWER, EQUAL, HIGHER, 17, 18};
    expect("the header", "the number of refusal 17", TOWERCLOAK_NO_UNIT == 17);
    expect("the header", "the number of refusal 18", TOWERCLOAK_NO_MEASURED_CALL == 18);
    for (size_t i = 0; i < sizeof tests / sizeof tests[0]; i++) {
        const struct test *test = &tests[i];
        expect_answer(test->name, "as it stands", compare(test->a, test->b), test->expected);
        expect_answer(test->name, "exchanged", compare(test->b, test->a), mirrored(test->expected));
    }
    return conclude("comparison", answers, sizeof answers / sizeof answers[0]);
}

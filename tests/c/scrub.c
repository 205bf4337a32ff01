/* The scrubber from C: sample B of Paper 01, "Sample logs", and other logs, all with dirty hidden bytes, in both byte
 * orders; the same logs with a byte changed, so that they are refused; and the edges of what may be lent.
 */
#include "checks.h"
#include "towercloak.h"

#include <string.h>

/* Bytes on either side of a log, which must stay as they are. */
enum { AROUND = 16, GUARD = 0xA7, LONGEST = 165 };

/* What *place holds before. */
#define NOWHERE UINT64_C(0xA7A7A7A7A7A7A7A7)

/* As many hidden bytes as the paper's table has. In these logs they, and no others, lie from 0xD0 to 0xDF. */
#define DIRT_3 0xD1, 0xD2, 0xD3
#define DIRT_5 DIRT_3, 0xD4, 0xD5
#define DIRT_7 DIRT_5, 0xD6, 0xD7
#define DIRT_8 DIRT_7, 0xD8
#define DIRT_13 DIRT_8, 0xD9, 0xDA, 0xDB, 0xDC, 0xDD
#define DIRT_15 DIRT_13, 0xDE, 0xDF

/* Visible bytes that are all different. */
#define SHOWN_2 0x21, 0x22
#define SHOWN_4 SHOWN_2, 0x23, 0x24
#define SHOWN_7 SHOWN_4, 0x25, 0x26, 0x27
#define SHOWN_8 SHOWN_7, 0x28

#define ZEROS_7 0, 0, 0, 0, 0, 0, 0
#define ZEROS_8 ZEROS_7, 0
#define GHZ 0x00, 0xCA, 0x9A, 0x3B, 0, 0, 0, 0
#define BIG_GHZ 0, 0, 0, 0, 0x3B, 0x9A, 0xCA, 0x00

/* Version and type 1, both flags, 1,000,000,000 Hz, and this buffer_size. */
#define HEADER(size) 1, 0, 1, 0, 3, 0, 0, 0, GHZ, size, ZEROS_7, DIRT_8
#define BIG_HEADER(size) 0, 1, 0, 1, 0xC0, 0, 0, 0, BIG_GHZ, ZEROS_7, size, DIRT_8
/* NewBuffer of thread 7, WallTimeMarker at 0, NewCPUId 0 at 1000. */
#define LEADING 0x01, 7, 0, DIRT_13, 0x09, ZEROS_8, 0, 0, 0, 0, DIRT_3, 0x05, 0, 0, 0xE8, 3, 0, 0, 0, 0, 0, 0, DIRT_5
#define BIG_LEADING \
    0x80, 0, 7, DIRT_13, 0x84, ZEROS_8, 0, 0, 0, 0, DIRT_3, 0x82, 0, 0, 0, 0, 0, 0, 0, 0, 3, 0xE8, DIRT_5
#define END_OF_BUFFER 0x03, DIRT_15
#define BIG_END_OF_BUFFER 0x81, DIRT_15

static const uint8_t sample_b[128] = {
    HEADER(96), LEADING,                            /* up to 80 */
    0x50, 0, 0, 0, 10, 0, 0, 0,                     /* Entry */
    0x52, 0, 0, 0, 30, 0, 0, 0,                     /* Exit, at 88 */
    END_OF_BUFFER,                                  /* at 96 */
    DIRT_15, 0xD0,                                  /* the skipped rest */
};

static const uint8_t big_b[128] = {
    BIG_HEADER(96), BIG_LEADING,                    /* up to 80 */
    0, 0, 0, 5, 0, 0, 0, 10,                        /* Entry */
    0x10, 0, 0, 5, 0, 0, 0, 30,                     /* Exit, at 88 */
    BIG_END_OF_BUFFER,                              /* at 96 */
    DIRT_15, 0xD0,                                  /* the skipped rest */
};

/* Any flags, frequency and buffer_size. */
static const uint8_t bare_header[32] = {1, 0, 1, 0, SHOWN_4, SHOWN_8, SHOWN_8, DIRT_8};
static const uint8_t big_bare_header[32] = {0, 1, 0, 1, SHOWN_4, SHOWN_8, SHOWN_8, DIRT_8};

static const uint8_t two_buffers[160] = {HEADER(64), LEADING, END_OF_BUFFER, LEADING, END_OF_BUFFER};
static const uint8_t big_two_buffers[160] = {
    BIG_HEADER(64), BIG_LEADING, BIG_END_OF_BUFFER, BIG_LEADING, BIG_END_OF_BUFFER,
};

/* An event of 3 bytes and a skipped rest of 2. */
static const uint8_t every_record[165] = {
    1, 0, 1, 0, SHOWN_4, SHOWN_8, 133, ZEROS_7, DIRT_8,
    0x01, SHOWN_2, DIRT_13,                         /* NewBuffer */
    0x09, SHOWN_8, SHOWN_4, DIRT_3,                 /* WallTimeMarker, at 48 */
    0x05, SHOWN_2, SHOWN_8, DIRT_5,                 /* NewCPUId, at 64 */
    0x07, SHOWN_8, DIRT_7,                          /* TSCWrap, at 80 */
    0xF6, SHOWN_7,                                  /* Entry_Args, at 96 */
    0x0D, DIRT_8, DIRT_7,                           /* CallArgument, at 104 */
    0x0B, 3, 0, 0, 0, SHOWN_8, DIRT_3, DIRT_3,      /* CustomEventMarker, at 120, and its event */
    0x52, SHOWN_7,                                  /* Exit of a function that isn't open, at 139 */
    END_OF_BUFFER, 0xD1, 0xD2,                      /* at 147, and the skipped rest */
};

static const uint8_t big_every_record[165] = {
    0, 1, 0, 1, SHOWN_4, SHOWN_8, ZEROS_7, 133, DIRT_8,
    0x80, SHOWN_2, DIRT_13,                         /* NewBuffer */
    0x84, SHOWN_8, SHOWN_4, DIRT_3,                 /* WallTimeMarker, at 48 */
    0x82, SHOWN_2, SHOWN_8, DIRT_5,                 /* NewCPUId, at 64 */
    0x83, SHOWN_8, DIRT_7,                          /* TSCWrap, at 80 */
    0x3F, SHOWN_7,                                  /* Entry_Args, at 96 */
    0x86, DIRT_8, DIRT_7,                           /* CallArgument, at 104 */
    0x85, 0, 0, 0, 3, SHOWN_8, DIRT_3, DIRT_3,      /* CustomEventMarker, at 120, and its event */
    0x15, SHOWN_7,                                  /* Exit of a function that isn't open, at 139 */
    BIG_END_OF_BUFFER, 0xD1, 0xD2,                  /* at 147, and the skipped rest */
};

enum { LITTLE = TOWERCLOAK_LITTLE_ENDIAN, BIG = TOWERCLOAK_BIG_ENDIAN };

/* A log of this length with one byte changed, the order it is read in, what it is answered, and where it is refused. */
struct test {
    const char *name;
    const uint8_t *log;
    uint32_t order;
    size_t length, changed;
    uint8_t byte;
    uint32_t number;
    uint64_t place;
};

static const struct test tests[] = {
    {"sample B", sample_b, LITTLE, 128, 0, 1, 0, 0},
    {"sample B with a second Entry", sample_b, LITTLE, 128, 88, 0x50, 0, 0},
    {"a bare header", bare_header, LITTLE, 32, 0, 1, 0, 0},
    {"two buffers", two_buffers, LITTLE, 160, 0, 1, 0, 0},
    {"every record", every_record, LITTLE, 165, 0, 1, 0, 0},
    {"31 bytes", sample_b, LITTLE, 31, 0, 1, 1, 0},
    {"one byte", sample_b, LITTLE, 1, 0, 1, 1, 0},
    {"version 2", sample_b, LITTLE, 128, 0, 2, 2, 0},
    {"type 257", sample_b, LITTLE, 128, 3, 1, 3, 0},
    {"buffer_size 95", sample_b, LITTLE, 128, 16, 95, 4, 0},
    {"a byte less", sample_b, LITTLE, 127, 16, 96, 4, 0},
    {"EndOfBuffer runs past the end", sample_b, LITTLE, 111, 16, 79, 5, 96},
    {"no byte left for EndOfBuffer", sample_b, LITTLE, 96, 16, 64, 5, 96},
    {"an event runs past the end", every_record, LITTLE, 165, 121, 30, 5, 120},
    {"action 4", sample_b, LITTLE, 128, 88, 0x58, 6, 88},
    {"kind 7", sample_b, LITTLE, 128, 96, 0x0F, 19, 96},
    {"Entry where WallTimeMarker should be", sample_b, LITTLE, 128, 48, 0, 7, 48},
    {"CallArgument after Entry", every_record, LITTLE, 165, 96, 0xF0, 7, 104},
    {"another thread", two_buffers, LITTLE, 160, 97, 8, 8, 96},

    {"big-endian B", big_b, BIG, 128, 0, 0, 0, 0},
    {"big-endian B, order 2", big_b, 2, 128, 0, 0, 0, 0},
    {"big-endian B, order 256", big_b, 256, 128, 0, 0, 0, 0},
    {"big-endian B, order 2^31", big_b, 0x80000000, 128, 0, 0, 0, 0},
    {"big-endian B, order 2^32 - 1", big_b, 0xFFFFFFFF, 128, 0, 0, 0, 0},
    {"big-endian B with a second Entry", big_b, BIG, 128, 88, 0, 0, 0},
    {"a big-endian bare header", big_bare_header, BIG, 32, 0, 0, 0, 0},
    {"two big-endian buffers", big_two_buffers, BIG, 160, 0, 0, 0, 0},
    {"every big-endian record", big_every_record, BIG, 165, 0, 0, 0, 0},
    {"31 big-endian bytes", big_b, BIG, 31, 0, 0, 1, 0},
    {"big-endian version 257", big_b, BIG, 128, 0, 1, 2, 0},
    {"big-endian type 257", big_b, BIG, 128, 2, 1, 3, 0},
    {"big-endian buffer_size 95", big_b, BIG, 128, 23, 95, 4, 0},
    {"big-endian EndOfBuffer runs past the end", big_b, BIG, 111, 23, 79, 5, 96},
    {"no byte left for big-endian EndOfBuffer", big_b, BIG, 96, 23, 64, 5, 96},
    {"a big-endian event runs past the end", big_every_record, BIG, 165, 124, 30, 5, 120},
    {"a big-endian event of 2^24 + 3 bytes", big_every_record, BIG, 165, 121, 1, 5, 120},
    {"big-endian action 4", big_b, BIG, 128, 88, 0x40, 6, 88},
    {"big-endian action 7", big_b, BIG, 128, 88, 0x70, 6, 88},
    {"big-endian kind 7", big_b, BIG, 128, 96, 0x87, 19, 96},
    {"big-endian kind 64", big_b, BIG, 128, 96, 0xC0, 19, 96},
    {"Entry where big-endian WallTimeMarker should be", big_b, BIG, 128, 48, 0, 7, 48},
    {"CallArgument after big-endian Entry", big_every_record, BIG, 165, 96, 0x0F, 7, 104},
    {"another big-endian thread", big_two_buffers, BIG, 160, 98, 8, 8, 96},
    {"another high byte of a big-endian thread", big_two_buffers, BIG, 160, 97, 1, 8, 96},

    {"sample B as big-endian", sample_b, BIG, 128, 0, 1, 2, 0},
    {"sample B as order 2^31", sample_b, 0x80000000, 128, 0, 1, 2, 0},
    {"big-endian B as little-endian", big_b, LITTLE, 128, 0, 0, 2, 0},
};

/* Scrubs a copy of the log between guards, and expects this answer, place and these bytes. */
static void scrub(const struct test *test, const char *what, const uint8_t *log, const uint8_t *after)
{
    uint8_t lent[AROUND + LONGEST + AROUND], expected[sizeof lent];
    uint64_t place = NOWHERE;
    memset(lent, GUARD, sizeof lent);
    memcpy(lent + AROUND, log, test->length);
    memset(expected, GUARD, sizeof expected);
    memcpy(expected + AROUND, after, test->length);
    expect_answer(test->name, what, towercloak_scrub(lent + AROUND, test->length, test->order, &place),
                  test->number);
    expect(test->name, "the place", place == test->place);
    expect(test->name, "the bytes", memcmp(lent, expected, sizeof lent) == 0);
}

/* The log, which changes only where it is accepted, and what it then is once more. */
static void run(const struct test *test)
{
    uint8_t log[LONGEST], after[LONGEST];
    memcpy(log, test->log, test->length);
    log[test->changed] = test->byte;
    for (size_t i = 0; i < test->length; i++)
        after[i] = test->number == 0 && (log[i] & 0xF0) == 0xD0 ? 0 : log[i];
    scrub(test, "the answer", log, after);
    scrub(test, "the answer once more", after, after);
}

/* A log in both orders: the same offsets change. */
static void compare_offsets(const char *name, const uint8_t *little, const uint8_t *big, size_t length)
{
    uint8_t one[LONGEST], other[LONGEST];
    uint64_t place = NOWHERE;
    size_t differ = 0, changed = 0;
    memcpy(one, little, length);
    memcpy(other, big, length);
    expect_answer(name, "the little-endian answer", towercloak_scrub(one, length, LITTLE, &place), 0);
    expect_answer(name, "the big-endian answer", towercloak_scrub(other, length, BIG, &place), 0);
    for (size_t i = 0; i < length; i++) {
        changed += one[i] != little[i];
        differ += (one[i] != little[i]) != (other[i] != big[i]);
    }
    expect(name, "the offsets of hidden bytes", changed > 0 && differ == 0);
}

static void scrub_nothing(uint32_t order)
{
    uint8_t byte = GUARD;
    uint64_t place = NOWHERE;
    expect_answer("null of length 0", "the answer", towercloak_scrub(NULL, 0, order, &place), 1);
    expect("null of length 0", "the place", place == 0);
    place = NOWHERE;
    expect_answer("length 0", "the answer", towercloak_scrub(&byte, 0, order, &place), 1);
    expect("length 0", "the place", place == 0);
    expect("length 0", "the byte", byte == GUARD);
}

int main(void)
{
    static const uint32_t answers[] = {0, 1, 2, 3, 4, 5, 6, 7, 8, 19};
    expect("the header", "the number of little-endian", TOWERCLOAK_LITTLE_ENDIAN == 0);
    expect("the header", "the number of big-endian", TOWERCLOAK_BIG_ENDIAN == 1);
    for (size_t i = 0; i < sizeof tests / sizeof tests[0]; i++)
        run(&tests[i]);
    compare_offsets("B in both orders", sample_b, big_b, 128);
    compare_offsets("two buffers in both orders", two_buffers, big_two_buffers, 160);
    compare_offsets("every record in both orders", every_record, big_every_record, 165);
    scrub_nothing(LITTLE);
    scrub_nothing(BIG);
    return conclude("scrubber", answers, sizeof answers / sizeof answers[0]);
}

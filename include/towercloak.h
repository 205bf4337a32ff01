/* Towercloak: replay and scrubbing of XRay flight data recorder logs, whole or as they arrive, exact comparison of times
 * measured in them, reading of DCFGs, and walks of the transition tables of DCFG traces.
 *
 * Link with libtowercloak.a or libtowercloak.so (`make host` writes both to target/lib/).
 * Every function may be handed any numbers and any bytes at all; it keeps no state and touches no memory of
 * the caller's but what it is lent. What one call is lent must not overlap. A pointer to bytes, to a table or to a
 * list may be null where the length beside it is 0.
 */
#ifndef TOWERCLOAK_H
#define TOWERCLOAK_H

#include <stddef.h>
#include <stdint.h>

#ifdef __cplusplus
extern "C" {
#endif

/* The first number is also the shared library's, and goes up where programs that call it have to change. */
#define TOWERCLOAK_VERSION "2.2.0"

/* The byte order of a log, which its bytes don't tell. A log of one order is refused by 2 as one of the other. */
enum {
    TOWERCLOAK_LITTLE_ENDIAN = 0,
    TOWERCLOAK_BIG_ENDIAN = 1 /* as is any other number */
};

enum {
    TOWERCLOAK_LONGEST = 16777216, /* the most bytes of a log that is whole */
    TOWERCLOAK_ROW = 6,            /* the numbers of a row of the table */
    TOWERCLOAK_TABLE = 6144        /* the numbers of the table: 1,024 rows */
};

/* What towercloak_compare answers. */
enum {
    TOWERCLOAK_LOWER = 0,
    TOWERCLOAK_EQUAL = 1,
    TOWERCLOAK_HIGHER = 2,
    TOWERCLOAK_NO_UNIT = 17,          /* a side's ticks have no unit */
    TOWERCLOAK_NO_MEASURED_CALL = 18  /* a side has no call that was measured */
};

/* Compares the time of side a with that of side b, where a time is ticks over frequency.
 *
 * Of each side: the log's cycle_frequency in Hz, its flag constant_tsc (0, or any other number if it is
 * set), and of the function's row the numbers of closed and of backward calls and the sum of ticks. The
 * sums are compared as they are, whatever the numbers of calls that they come from.
 *
 * TOWERCLOAK_NO_UNIT           a frequency or a constant_tsc is 0, on either side
 * TOWERCLOAK_NO_MEASURED_CALL  else, closed is not above backward, on either side
 * TOWERCLOAK_LOWER             else, ticks_a * frequency_b <  ticks_b * frequency_a
 * TOWERCLOAK_EQUAL             else, they are equal
 * TOWERCLOAK_HIGHER            else
 *
 * The products are whole numbers of up to 128 bits: nothing is rounded or cut.
 */
uint32_t towercloak_compare(uint64_t frequency_a, uint64_t constant_tsc_a, uint64_t closed_a,
                            uint64_t backward_a, uint64_t ticks_a,
                            uint64_t frequency_b, uint64_t constant_tsc_b, uint64_t closed_b,
                            uint64_t backward_b, uint64_t ticks_b);

/* Scrubs the log of this byte order in these length bytes, in place.
 *
 * 0           it was well-formed. Now its hidden bytes are 0: header bytes 24 to 31, every reserved or unused
 *             byte of a record, the arguments of calls, the bytes of events, and the skipped rest of each
 *             buffer. All others are as they were, and *place is 0.
 * 1 to 8, 19  it was refused by the rule of this number. All its bytes are as they were, and *place is where:
 *             the offset of the refused record's first byte, or of the buffer's end where no byte is left for
 *             a record, and 0 for 1 to 4.
 *
 * place must point to one number, which is written whatever the answer.
 */
uint32_t towercloak_scrub(uint8_t *log, size_t length, uint32_t order, uint64_t *place);

/* Replays the log of this byte order in these length bytes: what its call stack did, for each function, in the lent
 * table.
 *
 * 0            Each function that was entered has a row of six numbers, in the order of first entry: its id, how
 *              often it was entered, closed, closed backward (the clock at the exit was below that at the entry;
 *              also counted as closed) and abandoned (an Exit closed a call below it first), and the sum of its
 *              ticks. Row i starts at table[i * TOWERCLOAK_ROW]. *rows, *buffers, *records and *open are the
 *              numbers of rows, buffers, records and calls still open, and *place is 0.
 * 1 to 14, 19  It was refused by the rule of this number. The four counts are 0, and *place is where: as for the
 *              scrubber, and 0 for 14.
 *
 * numbers is how many the table has: 14 is fewer than TOWERCLOAK_TABLE, and the table is then untouched. Else
 * its first TOWERCLOAK_TABLE numbers are written, rows and then zeros, or zeros alone where the log is refused;
 * those behind them are never touched.
 */
uint32_t towercloak_replay(const uint8_t *log, size_t length, uint32_t order, uint64_t *table, size_t numbers,
                           uint64_t *rows, uint64_t *buffers, uint64_t *records, uint64_t *open,
                           uint64_t *place);

/* Reads the header of the log of this byte order in these length bytes.
 *
 * 0       *frequency is its cycle_frequency in Hz, *constant_tsc and *nonstop_tsc are its flags, 0 or 1, and
 *         *buffer_size is the number of bytes of each buffer.
 * 1 to 4  It was refused by the rule of this number, and all four are 0.
 *
 * 1 and 4 go by the whole log's length, so the log is handed over whole.
 */
uint32_t towercloak_header(const uint8_t *log, size_t length, uint32_t order, uint64_t *frequency,
                           uint64_t *constant_tsc, uint64_t *nonstop_tsc, uint64_t *buffer_size);

/* A stream is a log that arrives in reads of any length, and is replayed as it comes, whatever its length under 2^64 bytes.
 * Between two calls it is a state and a table of numbers, both the caller's: each call is lent them as the one before left
 * them. What the numbers of a state mean is for these functions alone. */
enum {
    TOWERCLOAK_STATE = 1138, /* the numbers of a state */
    TOWERCLOAK_MORE = 255    /* the answer of a stream that goes on */
};

/* Starts a stream: its state is that in front of the first byte of a log of this byte order.
 *
 * 0   The first TOWERCLOAK_STATE numbers of the state are written.
 * 14  numbers, which is how many the state has, is fewer. It is untouched.
 */
uint32_t towercloak_stream_start(uint64_t *state, size_t numbers, uint32_t order);

/* Feeds a stream the next length bytes of its log, which may be cut anywhere. The first four tests are those of
 * towercloak_stream_end, in its order. Behind them:
 *
 * 20               These bytes would be more than 2^64 - 1 with those before them.
 * 2 to 13, 19      The log is refused by the rule of this number, whatever follows.
 * TOWERCLOAK_MORE  Neither. The table has the rows so far, as towercloak_replay has them, and zeros behind them. A record is
 *                  judged once its 8 or 16 bytes, or its buffer's last, are in.
 *
 * The four counts are 0, but where the stream has ended before with others. *place is where it was refused: as for
 * towercloak_replay, and for 20 the number of bytes before. It is 0 for 14, 22 and TOWERCLOAK_MORE. 2 to 13, 19 and 20 end
 * the stream, and leave TOWERCLOAK_TABLE zeros in the table; given again, they leave it as it is.
 */
uint32_t towercloak_stream_feed(uint64_t *state, size_t state_numbers, const uint8_t *bytes, size_t length,
                                uint64_t *table, size_t numbers, uint64_t *rows, uint64_t *buffers, uint64_t *records,
                                uint64_t *open, uint64_t *place);

/* Tells a stream its end. The tests are made in this order:
 *
 * 14           The state has fewer than TOWERCLOAK_STATE numbers.
 * 22           Its numbers stand for no state, or for one that isn't sound (docs/STREAM.md).
 *              Where the stream has ended before, its answer is given again, whatever the table.
 * 14           The table has fewer than TOWERCLOAK_TABLE numbers.
 * 22           The rows in the table aren't sound.
 * 1            The header isn't whole.
 * 4            The last buffer isn't.
 * 0            The table, and *rows, *buffers, *records and *open, are as towercloak_replay leaves them, for a log of any length.
 *
 * Where the answer isn't 0 the four counts are 0. *place is the place of an earlier refusal, and else 0. 14 and 22, and an
 * answer that is given again, change neither state nor table; 1 and 4 leave TOWERCLOAK_TABLE zeros in the table. No number
 * behind those of the state or of the table is ever touched.
 */
uint32_t towercloak_stream_end(uint64_t *state, size_t state_numbers, uint64_t *table, size_t numbers, uint64_t *rows,
                               uint64_t *buffers, uint64_t *records, uint64_t *open, uint64_t *place);

enum {
    TOWERCLOAK_EDGES = 20480, /* the numbers of a DCFG's edges: 4,096 rows of 5 */
    TOWERCLOAK_THREADS = 512  /* the numbers of its threads: 256 rows of 2 */
};

/* Reads the DCFG (dynamic control-flow graph) in this text of length bytes: its edges and threads, in the order of the
 * text, in the lent tables. The text is JSON, of at most 1,048,576 bytes. A process is told by its row among PROCESSES,
 * from 0.
 *
 * 0   edges has rows of five numbers: the process, the id, the source, the target and the type. threads has rows of two: the
 *     process and the thread's count. *edge_count and *thread_count are the numbers of rows, and *place is 0.
 * 14  edges has fewer than TOWERCLOAK_EDGES numbers, or threads fewer than TOWERCLOAK_THREADS.
 * 30  The text is longer than 1,048,576 bytes.
 * 31  It is not JSON. The place is the first byte with which no JSON text can go on, or the text's length where it ends too
 *     soon.
 * 32  An array or object is opened more than 32 deep, in what is skipped or of the wrong kind: at its bracket.
 * 33  A key is repeated in its object, or a column in its header: at the closing quote of the second.
 * 34  A value is of the wrong kind: at its last byte.
 * 35  An id is outside 1 to 2,147,483,647: at its last byte.
 * 36  A table's own id is repeated in it: at the last byte of the second.
 * 37  There is a 4,097th edge or a 257th thread: at the last byte of the edge's row, or of the thread's count.
 * 38  A needed key or column is missing: at the text's length.
 * 39  A process's counts don't sum to its INSTR_COUNT: at the text's length.
 *
 * 14 is tested first, then 30. Of 31 to 37 the one with the first place is given, at one place the one with the lower
 * number; 38 and 39 only where there is none of these, 38 before 39. After a refusal both counts are 0, and *place is the
 * place as an offset in the text, 0 for 14 and 30.
 *
 * edge_numbers and thread_numbers are how many numbers the tables have. After 14 both are untouched. Else their first
 * TOWERCLOAK_EDGES and TOWERCLOAK_THREADS numbers are written, rows and then zeros, or zeros alone where the text is
 * refused; those behind them are never touched. It takes at most 2 MiB of stack.
 */
uint32_t towercloak_dcfg(const uint8_t *text, size_t length, uint64_t *edges, size_t edge_numbers, uint64_t *threads,
                         size_t thread_numbers, uint64_t *edge_count, uint64_t *thread_count, uint64_t *place);

/* What towercloak_walk answers. */
enum {
    TOWERCLOAK_SHORT_LIST = 14,     /* the lent list is shorter than the wanted number */
    TOWERCLOAK_BAD_TABLE = 40,      /* the table itself is refused */
    TOWERCLOAK_NO_TRANSITION = 41,  /* no row is for an edge */
    TOWERCLOAK_UNMATCHED_BITS = 42, /* the bits run out, or no row's code begins them */
    TOWERCLOAK_PAST_WANTED = 43,    /* a row's list passes the wanted number */
    TOWERCLOAK_BITS_LEFT = 44       /* bits are left over */
};

/* Walks a transition table of a DCFG trace: which edges follow the starting one where these bits are read.
 *
 * The table is rows, one behind the other, of 64-bit numbers: the edge that the row is for, the length of its code, the
 * code's characters, which are '0' and '1', a number each, the length of its list, and the edges of the list. An edge may
 * be any number. bits is a string of bit_count characters, without an end of its own.
 *
 * A step goes along the row of the current edge whose whole code begins the bits: it reads the code and lists the row's
 * edges, of which the last is the next current edge. The walk goes on until the wanted number of edges is listed, which
 * doesn't count the starting one.
 *
 * 0         list[0] to list[wanted - 1] are the edges. The list's rest is as it was.
 * 14        wanted is above length, the number of edges that the list has room for.
 * 40        The table ends inside a row; or a code has over 32 characters, or one that isn't '0' or '1'; or a row's list is
 *           empty; or some edge has two rows where one code begins or equals the other. All rows are tested first.
 * 41 to 44  The walk is refused where it stands, as told above.
 *
 * After a refusal the list is as it was. A walk takes half a MiB of stack. Tables of up to 65,536 rows are sorted first, and
 * a step finds its row by halving; a larger one is tested in parts, each with each, and a step goes through all rows.
 */
uint32_t towercloak_walk(const uint64_t *table, size_t numbers, uint64_t start, const char *bits, size_t bit_count,
                         uint64_t wanted, uint64_t *list, size_t length);

#ifdef __cplusplus
}
#endif

#endif

/* The limit: a replay by the same rules in plain C, as fast as it could be made, to see how near to it the proved one comes.
 * It makes the same tests on the whole log, and tells only whether one of them failed.
 *
 * Entries and exits follow each other in no order that a processor could guess, so one way does both: what differs is
 * computed, and one test, which nearly always passes, sends the rest to the slow way. */

#include <stddef.h>
#include <stdint.h>
#include <string.h>

enum { WIDTH = 6, ROWS = 1024, DEPTH = 256, SLOTS = 4096 };
enum { ENTERED = 1, CLOSED, BACKWARD, ABANDONED, TICKS };
enum { NEW_BUFFER, END_OF_BUFFER, NEW_CPU_ID, TSC_WRAP, WALL_TIME, CUSTOM_EVENT, CALL_ARGUMENT };

/* An open call: its clock at entry, its id, and where its row starts in the table. */
struct call {
    uint64_t since;
    uint32_t row, id;
};

/* A slot of the hash table: an id and one more, so that 0 is free, and where its row starts. */
struct slot {
    uint32_t key, row;
};

/* stack[0] is no call: no id is its. */
struct state {
    uint64_t *table, clock, depth, rows;
    struct call stack[DEPTH + 2];
    struct slot slots[SLOTS];
};

static inline uint64_t number(const uint8_t *at, size_t size)
{
    uint64_t value = 0;
    memcpy(&value, at, size); /* little-endian, as the logs are */
    return value;
}

static inline uint32_t hash(uint32_t id)
{
    return id * 0x9e3779b1u >> 20;
}

/* Every entry, with tests 11 and 12. */
static __attribute__((noinline)) int enter(struct state *s, uint32_t id)
{
    if (s->depth == DEPTH)
        return 0;
    uint32_t at = hash(id);
    while (s->slots[at].key && s->slots[at].key != id + 1)
        at = (at + 1) % SLOTS;
    if (!s->slots[at].key) {
        if (s->rows == ROWS)
            return 0;
        s->slots[at] = (struct slot){id + 1, s->rows++ * WIDTH};
        s->table[s->slots[at].row] = id;
    }
    s->table[s->slots[at].row + ENTERED]++;
    s->stack[++s->depth] = (struct call){s->clock, s->slots[at].row, id};
    return 1;
}

/* Every exit, with tests 10 and 13. */
static __attribute__((noinline)) int leave(struct state *s, uint32_t id)
{
    uint64_t at = s->depth;
    while (at && s->stack[at].id != id)
        at--;
    if (!at)
        return 0;
    for (uint64_t above = at + 1; above <= s->depth; above++)
        s->table[s->stack[above].row + ABANDONED]++;
    uint64_t *row = s->table + s->stack[at].row;
    row[CLOSED]++;
    s->depth = at - 1;
    if (s->clock < s->stack[at].since) {
        row[BACKWARD]++;
        return 1;
    }
    return !__builtin_add_overflow(row[TICKS], s->clock - s->stack[at].since, &row[TICKS]);
}

/* Function records, one behind the other, with test 9; where they end, or null. An entry into a row that is known, and the exit of
 * the innermost call, are done at once. */
static inline const uint8_t *calls(struct state *s, const uint8_t *at, const uint8_t *end)
{
    uint64_t clock = s->clock, depth = s->depth;
    for (; end - at >= 8; at += 8) {
        uint64_t record = number(at, 8);
        if (record & 9)
            break;
        if (__builtin_expect(__builtin_add_overflow(clock, record >> 32, &clock), 0))
            return NULL;
        uint32_t id = (uint32_t)record >> 4;
        uint64_t leaves = (record >> 1 ^ record >> 2) & 1, mask = -leaves;
        __asm__("" : "+r"(mask), "+r"(leaves)); /* or the compiler makes two ways of it */
        struct slot slot = s->slots[hash(id)];
        struct call *top = &s->stack[depth];
        uint64_t *row = s->table + slot.row;
        uint64_t later = depth + 1 + 2 * mask, ticks;
        if (__builtin_expect(slot.key != id + 1, 0) || __builtin_expect((top->row ^ slot.row) & (uint32_t)mask, 0)
            || __builtin_expect(clock < (top->since & mask), 0) || __builtin_expect(later > DEPTH, 0)
            || __builtin_expect(__builtin_add_overflow(row[TICKS], (clock - top->since) & mask, &ticks), 0)) {
            s->clock = clock;
            s->depth = depth;
            if (!(leaves ? leave(s, id) : enter(s, id)))
                return NULL;
            depth = s->depth;
            continue;
        }
        row[TICKS] = ticks;
        row[ENTERED + leaves]++;
        top[1] = (struct call){clock, slot.row, id};
        depth = later;
    }
    s->clock = clock;
    s->depth = depth;
    return at;
}

/* The body of a buffer: tests 5 to 7, and 9 to 13. */
static int body(struct state *s, const uint8_t *at, const uint8_t *end)
{
    for (int arguments = 0;; at += 16) {
        const uint8_t *start = at;
        at = calls(s, at, end);
        if (!at || end - at < 16 || !(*at & 1))
            return 0;
        if (start < at)
            arguments = (at[-8] & 6) == 6; /* they stand behind Entry_Args alone */
        arguments &= *at >> 1 == CALL_ARGUMENT;
        uint64_t size = number(at + 1, 4);
        switch (*at >> 1) {
        case END_OF_BUFFER:
            return 1;
        case NEW_CPU_ID:
            s->clock = number(at + 3, 8);
            break;
        case TSC_WRAP:
            s->clock = number(at + 1, 8);
            break;
        case CALL_ARGUMENT:
            if (!arguments)
                return 0;
            break;
        case CUSTOM_EVENT:
            if ((uint64_t)(end - at - 16) < size)
                return 0;
            at += size;
            break;
        default:
            return 0;
        }
    }
}

int limit_replay(const uint8_t *log, size_t length, uint64_t *table)
{
    struct state s;
    memset(table, 0, WIDTH * ROWS * sizeof *table);
    if (length < 32 || length > 16777216 || number(log, 2) != 1 || number(log + 2, 2) != 1)
        return 0;
    uint64_t size = number(log + 16, 8);
    if (length > 32 && (size < 64 || (length - 32) % size))
        return 0;
    s.table = table;
    s.clock = s.depth = s.rows = 0;
    s.stack[0] = (struct call){0, -1, -1};
    memset(s.slots, 0, sizeof s.slots);
    for (const uint8_t *at = log + 32; at < log + length; at += size) {
        static const uint8_t leading[] = {NEW_BUFFER * 2 + 1, WALL_TIME * 2 + 1, NEW_CPU_ID * 2 + 1};
        for (int which = 0; which < 3; which++)
            if (at[16 * which] != leading[which])
                return 0;
        if (number(at + 1, 2) != number(log + 33, 2)) /* test 8 */
            return 0;
        s.clock = number(at + 35, 8);
        if (!body(&s, at + 48, at + size))
            return 0;
    }
    return 1;
}

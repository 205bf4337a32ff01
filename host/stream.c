#include "stream.h"

#include "log.h"
#include "tell.h"

#include <errno.h>
#include <string.h>
#include <unistd.h>

enum { HEADER = 32, TRANSFER = 65536 };

/* What is read, and the log's first bytes, which are its header. */
static uint8_t part[TRANSFER], first[HEADER];
static uint64_t state[TOWERCLOAK_STATE];

/* Reads what is there. Gives the number of bytes, 0 at the end, or -1. */
static ssize_t transfer(int file) {
    ssize_t n;
    do
        n = read(file, part, sizeof part);
    while (n < 0 && errno == EINTR);
    return n;
}

/* Feeds a transfer, or tells the end where there is none. Gives what the call answers. */
static uint32_t feed(size_t n, struct report *report, uint64_t *place) {
    if (n == 0)
        return towercloak_stream_end(state, TOWERCLOAK_STATE, report->table, TOWERCLOAK_TABLE, &report->rows,
                                     &report->buffers, &report->records, &report->open, place);
    return towercloak_stream_feed(state, TOWERCLOAK_STATE, part, n, report->table, TOWERCLOAK_TABLE, &report->rows,
                                  &report->buffers, &report->records, &report->open, place);
}

int report_stream(const char *name, int file, uint32_t order, struct report *report) {
    struct log header = {.bytes = first, .length = 0};
    uint32_t number = TOWERCLOAK_MORE;
    uint64_t place = 0;
    towercloak_stream_start(state, TOWERCLOAK_STATE, order);
    while (number == TOWERCLOAK_MORE) {
        ssize_t n = transfer(file);
        if (n < 0)
            return failed(name, strerror(errno));
        size_t more = HEADER - header.length < (size_t)n ? HEADER - header.length : (size_t)n;
        memcpy(first + header.length, part, more);
        header.length += more;
        number = feed((size_t)n, report, &place);
    }
    if (number != 0) {
        refused(name, number, place);
        hint_at_order(name, &header, order);
        return REFUSED;
    }
    towercloak_header(first, HEADER, order, &report->frequency, &report->constant_tsc, &report->nonstop_tsc,
                      &report->buffer_size);
    return DONE;
}

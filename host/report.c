#include "report.h"

#include "log.h"
#include "stream.h"
#include "tell.h"

#include <inttypes.h>
#include <stdio.h>
#include <string.h>

static int report_whole(const char *name, int file, uint32_t order, struct report *report) {
    struct log log;
    uint64_t place;
    int status = read_open_log(name, file, ANY, &log);
    if (status != DONE)
        return status;
    towercloak_header(log.bytes, log.length, order, &report->frequency, &report->constant_tsc, &report->nonstop_tsc,
                      &report->buffer_size);
    uint32_t number = towercloak_replay(log.bytes, log.length, order, report->table, TOWERCLOAK_TABLE, &report->rows,
                                        &report->buffers, &report->records, &report->open, &place);
    if (number != 0) {
        status = refused(name, number, place);
        hint_at_order(name, &log, order);
    }
    drop_log(&log);
    return status;
}

int report_on(const char *name, uint32_t order, struct report *report) {
    int file = open_log(name, ANY);
    if (file < 0)
        return FAILED;
    int status = report_whole(name, file, order, report);
    close_log(name, file);
    return status;
}

int report_as_it_comes(const char *name, uint32_t order, struct report *report) {
    int file = open_log(name, ANY);
    if (file < 0)
        return FAILED;
    int whole = strcmp(name, "-") != 0 && is_short(file);
    int status = whole ? report_whole(name, file, order, report) : report_stream(name, file, order, report);
    close_log(name, file);
    return status;
}

const uint64_t *row_of(const struct report *report, uint64_t place) {
    return report->table + place * TOWERCLOAK_ROW;
}

void print_header(const struct report *report) {
    printf("\"frequency\": %" PRIu64 ", \"constant_tsc\": %" PRIu64 ", \"nonstop_tsc\": %" PRIu64
           ", \"buffer_size\": %" PRIu64,
           report->frequency, report->constant_tsc, report->nonstop_tsc, report->buffer_size);
}

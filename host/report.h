/* What a log's replay told. */
#ifndef REPORT_H
#define REPORT_H

#include "towercloak.h"

/* The numbers of a row. */
enum { ID, ENTERED, CLOSED, BACKWARD, ABANDONED, TICKS };

struct report {
    uint64_t frequency, constant_tsc, nonstop_tsc, buffer_size;
    uint64_t rows, buffers, records, open;
    uint64_t table[TOWERCLOAK_TABLE];
};

/* Replays the log of this byte order that the file holds, whole. Gives DONE, or REFUSED or FAILED and tells why. */
int report_on(const char *name, uint32_t order, struct report *report);

/* The same of a regular file no longer than the longest log. A longer one, a pipe and standard input are replayed as they
 * come, under a stream's rules. */
int report_as_it_comes(const char *name, uint32_t order, struct report *report);

/* A row of the table, by its place in the order of first entry. */
const uint64_t *row_of(const struct report *report, uint64_t place);

/* Prints the header's fields as members of an object of json. */
void print_header(const struct report *report);

#endif

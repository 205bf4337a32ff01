/* A log of any length, replayed as it comes. */
#ifndef STREAM_H
#define STREAM_H

#include "report.h"

/* Replays the log of this byte order from an open file, in a fixed amount of memory. It stops reading at the first refusal.
 * Gives DONE, or REFUSED or FAILED and tells why. */
int report_stream(const char *name, int file, uint32_t order, struct report *report);

#endif

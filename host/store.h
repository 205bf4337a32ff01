/* Files that are there whole or not at all. */
#ifndef STORE_H
#define STORE_H

#include "log.h"

/* Stores the bytes of the log under this name, with its permissions. A file that has the name already is left alone.
 * Gives DONE, or FAILED and tells why. */
int store(const char *name, const struct log *log);

/* Writes the bytes of the log to standard output. Gives DONE, or FAILED and tells why. */
int store_out(const struct log *log);

#endif

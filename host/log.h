/* A log in memory of the program's own, so that nothing that happens to its file meanwhile reaches it. */
#ifndef LOG_H
#define LOG_H

#include <stddef.h>
#include <stdint.h>
#include <sys/types.h>

struct log {
    uint8_t *bytes;
    size_t length;
    mode_t mode; /* the permissions of its file; of anything but a regular file, those of an owner alone */
};

/* Which files are taken: those whose own name is that of a regular file, or any. */
enum taken { REGULAR, ANY };

/* Makes this process leave no core file, which would hold what it has read. Gives whether it will leave none. */
int leave_no_core(void);

/* Opens this file, or takes standard input for -. Gives its number, or -1 and tells why. */
int open_log(const char *name, enum taken taken);

/* Closes it, unless it is standard input. */
void close_log(const char *name, int file);

/* Whether this is a regular file that is no longer than the longest log. */
int is_short(int file);

/* Reads the log from an open file, as read_log does. */
int read_open_log(const char *name, int file, enum taken taken, struct log *log);

/* Reads the log that this file holds, or standard input for -: whole, or one byte more than the longest. Gives DONE, or
 * FAILED and tells why. */
int read_log(const char *name, enum taken taken, struct log *log);

/* Tells on standard error, of a log that was refused in this byte order, where its header passes in the other one. */
void hint_at_order(const char *name, const struct log *log, uint32_t order);

/* Gives its memory back. */
void drop_log(struct log *log);

#endif

/* What the program tells beside its answers: what went wrong, on standard error, and refusals. */
#ifndef TELL_H
#define TELL_H

#include <stdint.h>

/* Exit statuses. The larger of two is given where both apply, but for check's own. */
enum { DONE = 0, REFUSED = 1, FAILED = 2, SLOWER = 3, NOT_COMPARED = 4 };

/* Tells on standard error what is to be said of a file, a word or a command. */
void warn(const char *name, const char *what);

/* The same of something that went wrong. Gives FAILED. */
int failed(const char *name, const char *what);

/* Tells that a log was refused: on standard error by its file's name, the number, the place and the rule in words. Gives
 * REFUSED. */
int refused_aside(const char *name, uint32_t number, uint64_t place);

/* The same, and on standard output by the number and the place. */
int refused(const char *name, uint32_t number, uint64_t place);

/* The words of a rule by its number. */
const char *rule(uint32_t number);

#endif

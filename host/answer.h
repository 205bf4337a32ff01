/* The functions of two logs beside each other, and what is answered of each. */
#ifndef ANSWER_H
#define ANSWER_H

#include "report.h"

#include <stddef.h>

/* The first that applies, in this order. */
enum answer { ONLY_LOG, ONLY_REFERENCE, NO_UNIT, NO_MEASURED_CALL, CALLS_DIFFER, LOWER, EQUAL, HIGHER, ANSWERS };

/* A function on one side. One that was never entered there has zeros. */
struct side {
    int there;
    uint64_t closed, backward, calls, ticks; /* calls are those that were measured: closed less backward */
};

struct function {
    uint64_t id;
    struct side log, reference;
    enum answer answer;
};

/* As many as two logs can have. */
enum { MOST_FUNCTIONS = 2 * TOWERCLOAK_TABLE / TOWERCLOAK_ROW };

/* The functions of either log, by their ids. Gives how many there are. */
size_t functions_of(const struct report *log, const struct report *reference, struct function *functions);

#endif

/* The command compare. */
#include "command.h"
#include "tell.h"
#include "towercloak.h"

#include <inttypes.h>
#include <stdio.h>

static const char help[] =
    "usage: towercloak compare FREQUENCY CONSTANT_TSC CLOSED BACKWARD TICKS  (of side a)\n"
    "                          FREQUENCY CONSTANT_TSC CLOSED BACKWARD TICKS  (of side b)\n"
    "\n"
    "Prints lower, equal or higher: how the time of side a stands to that of side b, exactly. Frequency and\n"
    "constant_tsc are those of a log's header; closed, backward and ticks those of a function's row. Ticks are a sum\n"
    "over all measured calls: where the sides measured different numbers of calls, standard error says so.\n"
    "\n"
    "Exit status: 0, 1 for 'refused 17' or 'refused 18', 2 for words that are no numbers.\n";

/* The numbers of a side, in the order of the words. */
enum { FREQUENCY, CONSTANT_TSC, CLOSED, BACKWARD, TICKS, SIDE };

static uint32_t compare(const uint64_t *a, const uint64_t *b) {
    return towercloak_compare(a[FREQUENCY], a[CONSTANT_TSC], a[CLOSED], a[BACKWARD], a[TICKS], b[FREQUENCY],
                              b[CONSTANT_TSC], b[CLOSED], b[BACKWARD], b[TICKS]);
}

static int run(const struct options *options, char **words, int count) {
    static const char *const orders[] = {"lower", "equal", "higher"};
    uint64_t numbers[2 * SIDE];
    const uint64_t *a = numbers, *b = numbers + SIDE;
    (void)options;
    for (int i = 0; i < count; i++)
        if (!is_number(words[i], &numbers[i]))
            return failed(words[i], "is no number from 0 to 18446744073709551615");
    uint32_t order = compare(a, b);
    if (order > TOWERCLOAK_HIGHER) {
        printf("refused %" PRIu32 "\n", order);
        fflush(stdout);
        fprintf(stderr, "towercloak: compare: refused %" PRIu32 ": %s\n", order, rule(order));
        return REFUSED;
    }
    puts(orders[order]);
    fflush(stdout);
    if (a[CLOSED] - a[BACKWARD] != b[CLOSED] - b[BACKWARD])
        warn("compare", "the sides measured different numbers of calls, and their sums are compared as they are");
    return DONE;
}

const struct command compare_command = {"compare", help, "", 10, 10, run};

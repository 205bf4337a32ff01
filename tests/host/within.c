/* Answers lines of five numbers, the ticks and the frequency of a time and of the reference's, and percent: 1 where the
 * time is within so many percent, else 0.
 */
#include "within.h"

#include <inttypes.h>
#include <stdio.h>

int main(void) {
    struct span time, reference;
    uint64_t percent;
    while (scanf("%" SCNu64 "%" SCNu64 "%" SCNu64 "%" SCNu64 "%" SCNu64, &time.ticks, &time.frequency, &reference.ticks,
                 &reference.frequency, &percent) == 5)
        printf("%d\n", is_within(time, reference, percent));
    return 0;
}

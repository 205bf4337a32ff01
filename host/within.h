/* How two times stand to each other where one may be some percent longer, in whole numbers. */
#ifndef WITHIN_H
#define WITHIN_H

#include <stdint.h>

/* A time: so many ticks of a clock of this frequency. */
struct span {
    uint64_t ticks, frequency;
};

/* Whether the time is at most so many percent longer than the reference's, exactly: whether
 *     time.ticks * reference.frequency * 100 <= reference.ticks * time.frequency * (100 + percent)
 * percent is at most 1,000, so that these products have at most 139 bits. */
int is_within(struct span time, struct span reference, uint64_t percent);

#endif

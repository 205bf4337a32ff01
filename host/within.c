#include "within.h"

#include <stddef.h>

/* A whole number of 160 bits, in digits of 32 bits, the lowest first. */
enum { DIGITS = 5 };

struct wide {
    uint32_t digit[DIGITS];
};

/* Adds a number times a digit to the sum, from this place of the sum on. A step's carry fits 64 bits:
 * (2^32 - 1)^2 + 2 * (2^32 - 1) = 2^64 - 1. */
static void add_product(struct wide *sum, const struct wide *number, uint32_t digit, size_t from) {
    uint64_t carry = 0;
    for (size_t i = from; i < DIGITS; i++) {
        carry += (uint64_t)number->digit[i - from] * digit + sum->digit[i];
        sum->digit[i] = (uint32_t)carry;
        carry >>= 32;
    }
}

static struct wide times(struct wide number, uint64_t factor) {
    struct wide product = {{0}};
    add_product(&product, &number, (uint32_t)factor, 0);
    add_product(&product, &number, (uint32_t)(factor >> 32), 1);
    return product;
}

static struct wide product_of(uint64_t a, uint64_t b, uint64_t c) {
    struct wide one = {{1}};
    return times(times(times(one, a), b), c);
}

static int is_at_most(const struct wide *a, const struct wide *b) {
    size_t i = DIGITS - 1;
    while (i > 0 && a->digit[i] == b->digit[i])
        i--;
    return a->digit[i] <= b->digit[i];
}

int is_within(struct span time, struct span reference, uint64_t percent) {
    struct wide a = product_of(time.ticks, reference.frequency, 100);
    struct wide b = product_of(reference.ticks, time.frequency, 100 + percent);
    return is_at_most(&a, &b);
}

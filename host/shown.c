#include "shown.h"

#include <inttypes.h>
#include <stdio.h>
#include <string.h>

void show_time(char text[SHOWN], uint64_t ticks, uint64_t frequency, uint64_t constant_tsc) {
    static const char *const units[] = {"s", "ms", "\u00b5s", "ns"};
    int unit = 0;
    if (frequency == 0 || constant_tsc == 0) {
        snprintf(text, SHOWN, "%" PRIu64 " ticks", ticks);
        return;
    }
    long double time = (long double)ticks / (long double)frequency;
    for (; time < 1 && unit < 3; unit++)
        time *= 1000;
    snprintf(text, SHOWN, "~%.3Lf %s", time, units[unit]);
}

int columns_of(const char *text) {
    int columns = 0;
    for (; *text != '\0'; text++)
        columns += ((unsigned char)*text & 0xC0) != 0x80;
    return columns;
}

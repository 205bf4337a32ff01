/* Times as people read them. */
#ifndef SHOWN_H
#define SHOWN_H

#include <stdint.h>

/* Room for a time. */
enum { SHOWN = 32 };

/* Writes these ticks of a clock of this frequency as a time, marked as rounded, or as they are where they have no unit. */
void show_time(char text[SHOWN], uint64_t ticks, uint64_t frequency, uint64_t constant_tsc);

/* How many columns a text takes that show_time wrote. */
int columns_of(const char *text);

#endif

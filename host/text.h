/* A file's text in memory, as long as the file, taken line by line and number by number. */
#ifndef TEXT_H
#define TEXT_H

#include <stddef.h>
#include <stdint.h>

struct text {
    char *bytes;
    size_t length, place; /* what is before the place was taken */
    uint64_t line;        /* how many lines were taken */
};

/* A line without its end, which is a line feed or a carriage return and a line feed. */
struct line {
    const char *next, *end;
};

/* Reads the whole file, or standard input for -. Gives DONE, or FAILED and tells why. */
int read_text(const char *name, struct text *text);

/* Gives its memory back. */
void drop_text(struct text *text);

/* Takes the next line. Gives whether there is one: behind the last line's end there is none. */
int next_line(struct text *text, struct line *line);

/* Takes the blanks in front of a word. Gives whether there is one in the rest of the line. */
int next_word(struct line *line);

/* Takes a word that is a decimal number of 64 bits. Gives whether it is one. */
int next_number(struct line *line, uint64_t *number);

#endif

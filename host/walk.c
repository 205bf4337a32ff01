/* The command walk. */
#include "command.h"
#include "tell.h"
#include "text.h"
#include "towercloak.h"

#include <errno.h>
#include <inttypes.h>
#include <stdio.h>
#include <stdlib.h>
#include <string.h>

static const char help[] =
    "usage: towercloak walk FILE\n"
    "\n"
    "Prints the edges that a string of bits leads along, by the transition table of a DCFG trace: 'edges' and how many,\n"
    "then a line for each.\n"
    "\n"
    "  FILE   four lines: the starting edge; the bits, as characters 0 and 1; how many edges are wanted behind the starting\n"
    "         one; how many the list has that is lent for them. Behind these the table, row by row, as numbers between\n"
    "         blanks or line ends: edge, length of the code, each character of the code (48 or 49), length of the list, and\n"
    "         the edges of the list. All numbers are decimal; the line of the bits may be empty. - is standard input\n"
    "\n"
    "Exit status: 0, 1 for a walk that is refused, told as 'refused NUMBER', 2 for a file that can't be read or is no such\n"
    "file.\n";

static const char no_number[] = "a decimal number from 0 to 18446744073709551615 should stand here";

/* What a file holds. */
struct walk {
    uint64_t start, wanted, room;
    const char *bits;
    size_t bit_count;
    uint64_t *table;
    size_t numbers;
};

/* Tells what is wrong in the line last taken. Gives FAILED. */
static int wrong_line(const char *name, const struct text *text, const char *what) {
    char told[128];
    snprintf(told, sizeof told, "line %" PRIu64 ": %s", text->line, what);
    return failed(name, told);
}

/* Takes a line. Gives DONE, or FAILED and tells what should stand there. */
static int take_line(const char *name, struct text *text, struct line *line, const char *what) {
    if (next_line(text, line))
        return DONE;
    text->line++;
    return wrong_line(name, text, what);
}

/* Takes a line that holds a number and blanks. */
static int take_number(const char *name, struct text *text, uint64_t *number, const char *what) {
    struct line line;
    int status = take_line(name, text, &line, what);
    if (status != DONE)
        return status;
    if (!next_word(&line) || !next_number(&line, number) || next_word(&line))
        return wrong_line(name, text, what);
    return DONE;
}

static int take_head(const char *name, struct text *text, struct walk *walk) {
    struct line bits;
    if (take_number(name, text, &walk->start, "the starting edge should stand here, as one decimal number") != DONE)
        return FAILED;
    if (take_line(name, text, &bits, "the bits should stand here; the line may be empty") != DONE)
        return FAILED;
    walk->bits = bits.next;
    walk->bit_count = (size_t)(bits.end - bits.next);
    if (take_number(name, text, &walk->wanted, "the wanted number should stand here, as one decimal number") != DONE)
        return FAILED;
    return take_number(name, text, &walk->room, "the list's length should stand here, as one decimal number");
}

/* Takes all numbers of the lines that are left. */
static int take_table(const char *name, struct text *text, struct walk *walk) {
    struct line line;
    walk->numbers = 0;
    /* Two numbers have a byte between them. */
    walk->table = calloc((text->length - text->place) / 2 + 1, sizeof walk->table[0]);
    if (walk->table == NULL)
        return failed(name, strerror(ENOMEM));
    while (next_line(text, &line))
        while (next_word(&line))
            if (!next_number(&line, &walk->table[walk->numbers++]))
                return wrong_line(name, text, no_number);
    return DONE;
}

static int tell_refused(const char *name, uint32_t number) {
    const char *words = number == TOWERCLOAK_SHORT_LIST ? "the lent list is shorter than the wanted number" : rule(number);
    char told[256];
    printf("refused %" PRIu32 "\n", number);
    fflush(stdout);
    snprintf(told, sizeof told, "refused %" PRIu32 ": %s", number, words);
    warn(name, told);
    return REFUSED;
}

static int walk_along(const char *name, const struct walk *walk) {
    /* Of a longer list no more is touched than is wanted. */
    uint64_t room = walk->wanted < walk->room ? walk->wanted : walk->room;
    uint64_t *list = room < SIZE_MAX ? calloc((size_t)room + 1, sizeof list[0]) : NULL;
    if (list == NULL)
        return failed(name, strerror(ENOMEM));
    uint32_t number = towercloak_walk(walk->table, walk->numbers, walk->start, walk->bits, walk->bit_count, walk->wanted,
                                      list, (size_t)room);
    int status = DONE;
    if (number != 0) {
        status = tell_refused(name, number);
    } else {
        printf("edges %" PRIu64 "\n", walk->wanted);
        for (uint64_t i = 0; i < walk->wanted; i++)
            printf("%" PRIu64 "\n", list[i]);
    }
    free(list);
    return status;
}

static int run(const struct options *options, char **words, int count) {
    struct text text;
    struct walk walk = {0};
    (void)options;
    (void)count;
    int status = read_text(words[0], &text);
    if (status == DONE)
        status = take_head(words[0], &text, &walk);
    if (status == DONE)
        status = take_table(words[0], &text, &walk);
    if (status == DONE)
        status = walk_along(words[0], &walk);
    free(walk.table);
    drop_text(&text);
    return status;
}

const struct command walk_command = {"walk", help, "", 1, 1, run};

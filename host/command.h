/* The commands of the program, and the options that they share. */
#ifndef COMMAND_H
#define COMMAND_H

#include <stdint.h>

enum format { TEXT, CSV, JSON, DOT };

struct options {
    const char *out; /* -o, or null */
    enum format format;
    uint64_t within;                 /* percent */
    uint32_t order, reference_order; /* the byte order of logs, and of check's reference */
};

struct command {
    const char *name, *help;
    const char *options; /* letters of those that it takes, as command.c has them */
    int least, most;     /* how many words it takes beside them */
    int (*run)(const struct options *options, char **words, int count);
};

extern const struct command replay_command, check_command, scrub_command, compare_command, dcfg_command, walk_command;

/* Runs the command with these words, of which the first is its name. Gives the exit status. */
int run_command(const struct command *command, int count, char **words);

/* Tells how the command was used wrongly. Gives FAILED. */
int misused(const struct command *command, const char *what);

/* Whether the text is a whole number of 64 bits, and which. */
int is_number(const char *text, uint64_t *number);

#endif

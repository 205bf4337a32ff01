#define _GNU_SOURCE
#include "command.h"

#include "tell.h"
#include "towercloak.h"

#include <errno.h>
#include <getopt.h>
#include <stdio.h>
#include <stdlib.h>
#include <string.h>

enum { HELP = 'h', OUT = 'o', FORMAT = 'f', WITHIN = 'w', BIG = 'b', BIG_LOG = 'l', BIG_REFERENCE = 'r', GRAPH = 'g' };

enum { MOST_PERCENT = 1000 };

static const struct option long_options[] = {
    {"help", no_argument, NULL, HELP},
    {"format", required_argument, NULL, FORMAT},
    {"within", required_argument, NULL, WITHIN},
    {"big-endian", no_argument, NULL, BIG},
    {"log-big-endian", no_argument, NULL, BIG_LOG},
    {"reference-big-endian", no_argument, NULL, BIG_REFERENCE},
    {NULL, 0, NULL, 0},
};

int is_number(const char *text, uint64_t *number) {
    char *end;
    if (text[0] < '0' || text[0] > '9')
        return 0;
    errno = 0;
    *number = strtoull(text, &end, 10);
    return errno == 0 && *end == '\0';
}

/* A graph is a format of commands that have one to draw. */
static int is_format(const struct command *command, const char *text, enum format *format) {
    static const char *const names[] = {[TEXT] = "text", [CSV] = "csv", [JSON] = "json", [DOT] = "dot"};
    enum format last = strchr(command->options, GRAPH) != NULL ? DOT : JSON;
    for (*format = TEXT; *format <= last; (*format)++)
        if (strcmp(text, names[*format]) == 0)
            return 1;
    return 0;
}

int misused(const struct command *command, const char *what) {
    warn(command->name, what);
    fprintf(stderr, "Try 'towercloak %s --help'.\n", command->name);
    return FAILED;
}

/* Takes one option in. Gives what is wrong with it, or null. */
static const char *take(const struct command *command, int letter, struct options *options) {
    if (strchr(command->options, letter) == NULL)
        return "it has no such option, or the option lacks its word";
    if (letter == OUT)
        options->out = optarg;
    else if (letter == FORMAT && !is_format(command, optarg, &options->format))
        return strchr(command->options, GRAPH) != NULL ? "--format is text, csv, json or dot" : "--format is text, csv or json";
    else if (letter == WITHIN && (!is_number(optarg, &options->within) || options->within > MOST_PERCENT))
        return "--within is a whole number of percent, from 0 to 1000";
    if (letter == BIG || letter == BIG_LOG)
        options->order = TOWERCLOAK_BIG_ENDIAN;
    if (letter == BIG || letter == BIG_REFERENCE)
        options->reference_order = TOWERCLOAK_BIG_ENDIAN;
    return NULL;
}

int run_command(const struct command *command, int count, char **words) {
    struct options options = {NULL, TEXT, 0, TOWERCLOAK_LITTLE_ENDIAN, TOWERCLOAK_LITTLE_ENDIAN};
    int letter;
    opterr = 0;
    while ((letter = getopt_long(count, words, "o:", long_options, NULL)) != -1) {
        if (letter == HELP) {
            fputs(command->help, stdout);
            return DONE;
        }
        const char *wrong = take(command, letter, &options);
        if (wrong != NULL)
            return misused(command, wrong);
    }
    count -= optind;
    if (count < command->least || (count > command->most && command->most > 0))
        return misused(command, "it takes another number of words");
    return command->run(&options, words + optind, count);
}

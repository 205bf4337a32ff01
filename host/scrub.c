/* The command scrub. */
#define _POSIX_C_SOURCE 200809L
#include "command.h"
#include "log.h"
#include "store.h"
#include "tell.h"
#include "towercloak.h"

#include <errno.h>
#include <signal.h>
#include <stdlib.h>
#include <string.h>

static const char help[] =
    "usage: towercloak scrub [--big-endian] [-o OUT] FILE...\n"
    "\n"
    "Writes a copy of each log with zero in every hidden byte: arguments, events, reserved bytes and the skipped\n"
    "rests of buffers. The log is left as it is. The copy is FILE.scrubbed or, of one log, OUT; it is there whole or\n"
    "not at all, and a file of its name is left alone.\n"
    "\n"
    "  --big-endian   the logs are big-endian: the highest byte of each number comes first\n"
    "  -o OUT         the copy's name, or - for standard output\n"
    "  FILE           a log, or - for standard input; with -o it may be a pipe or a link too\n"
    "\n"
    "A log that is refused is told on standard output as 'refused NUMBER at PLACE', or only on standard error where\n"
    "the copy goes to standard output. The others are scrubbed all the same.\n"
    "\n"
    "Exit status: 2 if a file can't be read or written, else 1 if a log was refused, else 0.\n";

static int is_standard(const char *name) {
    return name != NULL && strcmp(name, "-") == 0;
}

static int store_beside(const char *name, const struct log *log) {
    char *copy = malloc(strlen(name) + sizeof ".scrubbed");
    if (copy == NULL)
        return failed(name, strerror(errno));
    strcpy(copy, name);
    strcat(copy, ".scrubbed");
    int status = store(copy, log);
    free(copy);
    return status;
}

/* Scrubs what was read of this file, and stores it. */
static int scrub_log(const char *name, const struct options *options, struct log *log) {
    const char *out = options->out;
    uint64_t place;
    uint32_t number = towercloak_scrub(log->bytes, log->length, options->order, &place);
    if (number != 0) {
        int status = is_standard(out) ? refused_aside(name, number, place) : refused(name, number, place);
        hint_at_order(name, log, options->order);
        return status;
    }
    if (out == NULL)
        return store_beside(name, log);
    return is_standard(out) ? store_out(log) : store(out, log);
}

static int run(const struct options *options, char **words, int count) {
    int worst = DONE;
    if (options->out != NULL && count > 1)
        return misused(&scrub_command, "-o names the copy of one log");
    /* Where nobody reads what is told, the other logs are scrubbed all the same. */
    signal(SIGPIPE, SIG_IGN);
    for (int i = 0; i < count; i++) {
        struct log log;
        int status = read_log(words[i], options->out == NULL ? REGULAR : ANY, &log);
        if (status == DONE) {
            status = scrub_log(words[i], options, &log);
            drop_log(&log);
        }
        worst = status > worst ? status : worst;
    }
    return worst;
}

const struct command scrub_command = {"scrub", help, "ob", 1, 0, run};

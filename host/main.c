/* Towercloak for the shell: what a log's calls did, whether a node is slower than the reference, copies of logs without
 * what may hold patient data, control-flow graphs, and walks of transition tables.
 */
#define _POSIX_C_SOURCE 200809L
#include "command.h"
#include "log.h"
#include "tell.h"
#include "towercloak.h"

#include <errno.h>
#include <fcntl.h>
#include <locale.h>
#include <signal.h>
#include <stdio.h>
#include <string.h>
#include <unistd.h>

static const char help[] =
    "usage: towercloak COMMAND WORD...\n"
    "\n"
    "  check LOG REFERENCE   is a node slower than the reference? function by function\n"
    "  scrub FILE...         writes copies of logs without what may hold patient data\n"
    "  replay FILE           what a log's calls did, function by function\n"
    "  compare NUMBER...     compares two measured times\n"
    "  dcfg FILE             the edges and threads of a control-flow graph\n"
    "  walk FILE             the edges that a string of bits leads along, by a transition table\n"
    "\n"
    "'towercloak COMMAND --help' tells more of each; --version tells this program's version.\n"
    "\n"
    "Exit status:\n"
    "  0   done; check: each function of the reference is there, compared and not slower\n"
    "  1   a log, a comparison, a graph or a walk was refused by a numbered rule\n"
    "  2   wrong usage, or a file that can't be read or written\n"
    "  3   check: some function is slower\n"
    "  4   check: none is slower, but something could not be compared\n";

static const struct command *const commands[] = {&check_command, &scrub_command, &replay_command, &compare_command,
                                                 &dcfg_command,  &walk_command};

/* A file that is opened later must not take the number of a standard one that is closed, and get what is told. */
static int hold_standard_files(void) {
    int file;
    do
        file = open("/dev/null", O_RDONLY);
    while (file >= 0 && file <= STDERR_FILENO);
    return file >= 0 && close(file) == 0;
}

static int run(int count, char **words) {
    const char *word = count > 1 ? words[1] : "";
    for (size_t i = 0; i < sizeof commands / sizeof commands[0]; i++)
        if (strcmp(word, commands[i]->name) == 0)
            return run_command(commands[i], count - 1, words + 1);
    if (strcmp(word, "--help") == 0 && count == 2) {
        fputs(help, stdout);
        return DONE;
    }
    if (strcmp(word, "--version") == 0 && count == 2) {
        puts("towercloak " TOWERCLOAK_VERSION);
        return DONE;
    }
    fputs(help, stderr);
    return FAILED;
}

int main(int count, char **words) {
    if (!hold_standard_files())
        return FAILED;
    setlocale(LC_CTYPE, "");
    setvbuf(stderr, NULL, _IOLBF, BUFSIZ);
    /* A write past a limit on file sizes is to fail, and not to end the program. */
    signal(SIGXFSZ, SIG_IGN);
    if (!leave_no_core())
        return failed("core files", strerror(errno));
    int status = run(count, words);
    int lost = ferror(stdout);
    if (fclose(stdout) != 0 || lost)
        return failed("standard output", "can't be written");
    return status;
}

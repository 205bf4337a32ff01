/* The command replay. */
#include "command.h"
#include "report.h"
#include "tell.h"

#include <inttypes.h>
#include <stdio.h>

static const char help[] =
    "usage: towercloak replay [--big-endian] [--format=text|csv|json] FILE\n"
    "\n"
    "Prints what the log's call stack did: the numbers of rows, buffers, records and calls still open, then a row for\n"
    "each function, in the order of first entry: its id, how often it was entered, closed, closed backward and\n"
    "abandoned, and the sum of its ticks. csv and json name each number, and have the header's fields too. csv repeats\n"
    "in each line what is the whole log's; of a log without functions it has one line, whose first six cells are empty.\n"
    "\n"
    "  --big-endian   the log is big-endian: the highest byte of each number comes first\n"
    "  FILE           a log of any length, a pipe that holds one, or - for standard input\n"
    "\n"
    "A regular file of up to 16,777,216 bytes is replayed whole. Standard input, a pipe and a longer file are replayed as\n"
    "they come, in a fixed amount of memory, and the reading stops at the first refusal. Such a log has no upper limit; one\n"
    "whose last buffer is cut short is refused by 4 at its end, unless something is refused before.\n"
    "\n"
    "Exit status: 0, 1 for a log that is refused, told as 'refused NUMBER at PLACE', 2 for a file that can't be read.\n";

static void print_text(const struct report *report) {
    printf("rows %" PRIu64 " buffers %" PRIu64 " records %" PRIu64 " open %" PRIu64 "\n", report->rows, report->buffers,
           report->records, report->open);
    for (uint64_t i = 0; i < report->rows; i++) {
        const uint64_t *row = row_of(report, i);
        printf("%" PRIu64 " %" PRIu64 " %" PRIu64 " %" PRIu64 " %" PRIu64 " %" PRIu64 "\n", row[ID], row[ENTERED],
               row[CLOSED], row[BACKWARD], row[ABANDONED], row[TICKS]);
    }
}

/* The cells behind a row's own: what is the whole log's. */
static void print_log_cells(const struct report *report) {
    printf(",%" PRIu64 ",%" PRIu64 ",%" PRIu64 ",%" PRIu64 ",%" PRIu64 ",%" PRIu64 ",%" PRIu64 ",%" PRIu64 "\n",
           report->frequency, report->constant_tsc, report->nonstop_tsc, report->buffer_size, report->rows,
           report->buffers, report->records, report->open);
}

static void print_csv(const struct report *report) {
    puts("function,entered,closed,backward,abandoned,ticks,"
         "frequency,constant_tsc,nonstop_tsc,buffer_size,rows,buffers,records,open");
    for (uint64_t i = 0; i < report->rows; i++) {
        const uint64_t *row = row_of(report, i);
        printf("%" PRIu64 ",%" PRIu64 ",%" PRIu64 ",%" PRIu64 ",%" PRIu64 ",%" PRIu64, row[ID], row[ENTERED],
               row[CLOSED], row[BACKWARD], row[ABANDONED], row[TICKS]);
        print_log_cells(report);
    }
    if (report->rows == 0) {
        fputs(",,,,,", stdout);
        print_log_cells(report);
    }
}

static void print_json(const struct report *report) {
    fputs("{\n  ", stdout);
    print_header(report);
    printf(",\n  \"rows\": %" PRIu64 ", \"buffers\": %" PRIu64 ", \"records\": %" PRIu64 ", \"open\": %" PRIu64
           ",\n  \"functions\": [",
           report->rows, report->buffers, report->records, report->open);
    for (uint64_t i = 0; i < report->rows; i++) {
        const uint64_t *row = row_of(report, i);
        printf("%s\n    {\"function\": %" PRIu64 ", \"entered\": %" PRIu64 ", \"closed\": %" PRIu64
               ", \"backward\": %" PRIu64 ", \"abandoned\": %" PRIu64 ", \"ticks\": %" PRIu64 "}",
               i == 0 ? "" : ",", row[ID], row[ENTERED], row[CLOSED], row[BACKWARD], row[ABANDONED], row[TICKS]);
    }
    puts("\n  ]\n}");
}

static int run(const struct options *options, char **words, int count) {
    static void (*const print[])(const struct report *) = {[TEXT] = print_text, [CSV] = print_csv, [JSON] = print_json};
    static struct report report;
    (void)count;
    int status = report_as_it_comes(words[0], options->order, &report);
    if (status == DONE)
        print[options->format](&report);
    return status;
}

const struct command replay_command = {"replay", help, "fb", 1, 1, run};

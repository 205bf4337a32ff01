/* The command check. */
#include "answer.h"
#include "command.h"
#include "shown.h"
#include "tell.h"
#include "within.h"

#include <inttypes.h>
#include <stdio.h>
#include <string.h>

static const char help[] =
    "usage: towercloak check [--big-endian] [--within PERCENT] [--format=text|csv|json] LOG REFERENCE\n"
    "\n"
    "Compares a log with the reference's, function by function, and prints a line for each function of either: its id,\n"
    "on each side the number of measured calls and their time, and one answer, the first of these that applies:\n"
    "\n"
    "  only-log          the reference never entered it, which counts for nothing\n"
    "  only-reference    the log never entered it\n"
    "  no-unit           the ticks of one side have no unit: rule 17\n"
    "  no-measured-call  one side has no measured call of it: rule 18\n"
    "  calls-differ      the sides measured different numbers of calls, whose sums say nothing of each other\n"
    "  lower, equal, higher   how the log's time stands to the reference's, exactly\n"
    "\n"
    "The last line is the verdict: passes, slower or not-compared, and how often each answer came. Times are shown\n"
    "rounded, and nothing goes by what is shown. csv has the lines alone; json names every number.\n"
    "\n"
    "  --big-endian             both logs are big-endian: the highest byte of each number comes first\n"
    "  --log-big-endian         LOG alone is\n"
    "  --reference-big-endian   REFERENCE alone is\n"
    "  --within PERCENT         a function that is higher by up to so many whole percent, 0 to 1000, is not slower\n"
    "  LOG, REFERENCE           logs of up to 16,777,216 bytes, pipes that hold one, or - for standard input\n"
    "\n"
    "Exit status: 0 each function of the reference is there, compared and not slower; 1 a log is refused, told as\n"
    "'refused NUMBER at PLACE'; 2 a file can't be read; 3 some function is slower; 4 none is slower, but something\n"
    "could not be compared.\n";

struct check {
    struct report log, reference;
    struct function functions[MOST_FUNCTIONS];
    size_t count;
    uint64_t within;
    uint64_t answers[ANSWERS]; /* how often each came */
    uint64_t slower;           /* how many of those that are higher are so by more than is let pass */
};

static const char *const words_of[ANSWERS] = {
    [ONLY_LOG] = "only-log",
    [ONLY_REFERENCE] = "only-reference",
    [NO_UNIT] = "no-unit",
    [NO_MEASURED_CALL] = "no-measured-call",
    [CALLS_DIFFER] = "calls-differ",
    [LOWER] = "lower",
    [EQUAL] = "equal",
    [HIGHER] = "higher",
};

static int is_slower(const struct check *check, const struct function *function) {
    struct span log = {function->log.ticks, check->log.frequency};
    struct span reference = {function->reference.ticks, check->reference.frequency};
    return function->answer == HIGHER && (check->within == 0 || !is_within(log, reference, check->within));
}

static void count_answers(struct check *check) {
    for (size_t i = 0; i < check->count; i++) {
        check->answers[check->functions[i].answer]++;
        check->slower += (uint64_t)is_slower(check, &check->functions[i]);
    }
}

static uint64_t not_compared(const struct check *check) {
    const uint64_t *answers = check->answers;
    return answers[ONLY_REFERENCE] + answers[NO_UNIT] + answers[NO_MEASURED_CALL] + answers[CALLS_DIFFER];
}

/* The exit status. */
static int verdict(const struct check *check) {
    if (check->slower > 0)
        return SLOWER;
    return not_compared(check) > 0 ? NOT_COMPARED : DONE;
}

static const char *verdict_words(const struct check *check) {
    int status = verdict(check);
    return status == SLOWER ? "slower" : status == NOT_COMPARED ? "not-compared" : "passes";
}

static void print_text_side(const struct side *side, const struct report *report) {
    char time[SHOWN] = "-";
    if (side->calls > 0)
        show_time(time, side->ticks, report->frequency, report->constant_tsc);
    int before = 16 - columns_of(time);
    printf("%12" PRIu64 " %*s%s", side->calls, before > 0 ? before : 0, "", time);
}

static void print_text_verdict(const struct check *check) {
    const uint64_t *answers = check->answers;
    printf("%s: %" PRIu64 " lower, %" PRIu64 " equal, %" PRIu64 " higher", verdict_words(check), answers[LOWER],
           answers[EQUAL], answers[HIGHER]);
    if (check->within > 0)
        printf(" (%" PRIu64 " by more than %" PRIu64 " percent)", check->slower, check->within);
    printf(", %" PRIu64 " not compared; %" PRIu64 " only in the log\n", not_compared(check), answers[ONLY_LOG]);
}

static void print_text(const struct check *check) {
    printf("%9s %12s %16s %12s %16s  %s\n", "function", "calls", "time", "ref. calls", "ref. time", "answer");
    for (size_t i = 0; i < check->count; i++) {
        const struct function *function = &check->functions[i];
        printf("%9" PRIu64 " ", function->id);
        print_text_side(&function->log, &check->log);
        putchar(' ');
        print_text_side(&function->reference, &check->reference);
        int passes = function->answer == HIGHER && !is_slower(check, function);
        printf("  %s%s\n", words_of[function->answer], passes ? ", within" : "");
    }
    print_text_verdict(check);
}

static void print_csv(const struct check *check) {
    puts("function,log_calls,reference_calls,log_ticks,reference_ticks,answer");
    for (size_t i = 0; i < check->count; i++) {
        const struct function *function = &check->functions[i];
        printf("%" PRIu64 ",%" PRIu64 ",%" PRIu64 ",%" PRIu64 ",%" PRIu64 ",%s\n", function->id, function->log.calls,
               function->reference.calls, function->log.ticks, function->reference.ticks, words_of[function->answer]);
    }
}

static void print_json_function(const struct check *check, const struct function *function) {
    printf("    {\"function\": %" PRIu64 ", \"log_calls\": %" PRIu64 ", \"reference_calls\": %" PRIu64
           ", \"log_ticks\": %" PRIu64 ", \"reference_ticks\": %" PRIu64 ", \"answer\": \"%s\", \"slower\": %s}",
           function->id, function->log.calls, function->reference.calls, function->log.ticks, function->reference.ticks,
           words_of[function->answer], is_slower(check, function) ? "true" : "false");
}

static void print_json(const struct check *check) {
    fputs("{\n  \"log\": {", stdout);
    print_header(&check->log);
    fputs("},\n  \"reference\": {", stdout);
    print_header(&check->reference);
    fputs("},\n  \"functions\": [", stdout);
    for (size_t i = 0; i < check->count; i++) {
        puts(i == 0 ? "" : ",");
        print_json_function(check, &check->functions[i]);
    }
    printf("\n  ],\n  \"within\": %" PRIu64 ", \"verdict\": \"%s\",\n  \"counts\": {", check->within,
           verdict_words(check));
    for (int answer = ONLY_LOG; answer < ANSWERS; answer++)
        printf("\"%s\": %" PRIu64 ", ", words_of[answer], check->answers[answer]);
    printf("\"slower\": %" PRIu64 "}\n}\n", check->slower);
}

static int run(const struct options *options, char **words, int count) {
    static void (*const print[])(const struct check *) = {[TEXT] = print_text, [CSV] = print_csv, [JSON] = print_json};
    static struct check check;
    (void)count;
    if (strcmp(words[0], "-") == 0 && strcmp(words[1], "-") == 0)
        return misused(&check_command, "standard input holds one log");
    int log = report_on(words[0], options->order, &check.log);
    int reference = report_on(words[1], options->reference_order, &check.reference);
    if (log != DONE || reference != DONE)
        return log > reference ? log : reference;
    check.within = options->within;
    check.count = functions_of(&check.log, &check.reference, check.functions);
    count_answers(&check);
    print[options->format](&check);
    if (check.reference.rows == 0)
        warn(words[1], "the reference enters no function: nothing was compared");
    return verdict(&check);
}

const struct command check_command = {"check", help, "fwblr", 2, 2, run};

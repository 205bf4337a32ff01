/* What the C tests share: checks, and how many cases expect each answer. */
#ifndef CHECKS_H
#define CHECKS_H

#include <stddef.h>
#include <stdint.h>
#include <stdio.h>

/* Answers are refusals' numbers, and less where there is none. */
enum { GREATEST = 44 };
static unsigned passed, failed, cases[GREATEST + 1];

static void expect(const char *name, const char *what, int holds)
{
    if (holds) {
        passed++;
        return;
    }
    failed++;
    printf("FAILED: %s: %s\n", name, what);
}

/* A case: what was answered, and what it should be. */
static void expect_answer(const char *name, const char *what, uint32_t answer, uint32_t expected)
{
    cases[expected]++;
    expect(name, what, answer == expected);
}

/* Prints what was run of an entry, by the answers that it can give; one that no case expects is a failure. Gives the
 * exit status. */
static int conclude(const char *entry, const uint32_t *answers, size_t count)
{
    for (size_t i = 0; i < count; i++) {
        printf("answer %2u:%4u cases\n", (unsigned)answers[i], cases[answers[i]]);
        if (cases[answers[i]] == 0) {
            failed++;
            printf("FAILED: %s: no case of answer %u\n", entry, (unsigned)answers[i]);
        }
    }
    printf("c, %s: %u checks passed, %u failed\n", entry, passed, failed);
    return failed != 0;
}

#endif

#include "tell.h"

#include <inttypes.h>
#include <stdio.h>
#include <string.h>
#include <wchar.h>
#include <wctype.h>

/* As docs/FORMAT.md has them, in short. Those of the writers, 15 and 16, are none of this program's. */
static const char *const rules[] = {
    [1] = "the log is under 32 or over 16,777,216 bytes",
    [2] = "version is not 1",
    [3] = "type is not 1",
    [4] = "bytes follow the header, and buffer_size is under 64 or doesn't divide their number",
    [5] = "no byte is left in the buffer for a record, or a record or its event runs past the buffer's end",
    [6] = "a function record's action is above 3",
    [7] = "a record may not stand here",
    [8] = "a buffer names another thread than the first",
    [9] = "the clock would pass 2^64 - 1",
    [10] = "an exit finds no open call of its function",
    [11] = "a 257th call would be open",
    [12] = "a 1,025th function would be entered",
    [13] = "a function's ticks would pass 2^64 - 1",
    [14] = "the lent table has under 6,144 numbers",
    [17] = "a side's frequency or constant_tsc is 0: its ticks have no unit",
    [18] = "a side has no measured call: closed is not above backward",
    [19] = "a metadata record's kind is above 6",
    [20] = "a read would take the log past 2^64 - 1 bytes",
    [22] = "the state of a stream, or its rows, are none that a stream can have",
    [30] = "the text is over 1,048,576 bytes",
    [31] = "the text is not JSON",
    [32] = "an array or object is opened more than 32 deep",
    [33] = "a key is repeated in its object, or a column in its header",
    [34] = "a value is of the wrong kind",
    [35] = "an id is outside 1 to 2,147,483,647",
    [36] = "a table's own id is repeated in it",
    [37] = "there is a 4,097th edge or a 257th thread",
    [38] = "a needed key or column is missing",
    [39] = "a process's counts don't sum to its INSTR_COUNT",
    [40] = "the transition table ends inside a row, a code is over 32 characters or not of 0 and 1, a list is empty, or a "
           "code begins another of its edge",
    [41] = "no row of the transition table is for an edge",
    [42] = "the bits run out, or no row's code begins them",
    [43] = "a row's list passes the wanted number of edges",
    [44] = "bits are left over",
};

const char *rule(uint32_t number) {
    return rules[number];
}

/* Characters that turn the direction in which text is shown. */
static int turns_text(wchar_t character) {
    return (character >= 0x202A && character <= 0x202E) || (character >= 0x2066 && character <= 0x2069);
}

/* A name can hold any byte. What a terminal would act on is told by its bytes' numbers. */
static void tell_name(const char *name) {
    mbstate_t state;
    memset(&state, 0, sizeof state);
    while (*name != '\0') {
        wchar_t character;
        size_t left = strlen(name), size = mbrtowc(&character, name, left, &state);
        int shown = size <= left && iswprint((wint_t)character) && !turns_text(character);
        if (size > left) {
            memset(&state, 0, sizeof state);
            size = 1;
        }
        for (; size > 0; size--, name++)
            fprintf(stderr, shown ? "%c" : "\\x%02x", (unsigned char)*name);
    }
}

void warn(const char *name, const char *what) {
    fputs("towercloak: ", stderr);
    tell_name(name);
    fprintf(stderr, ": %s\n", what);
}

int failed(const char *name, const char *what) {
    warn(name, what);
    return FAILED;
}

int refused_aside(const char *name, uint32_t number, uint64_t place) {
    fputs("towercloak: ", stderr);
    tell_name(name);
    fprintf(stderr, ": refused %" PRIu32 " at %" PRIu64 ": %s\n", number, place, rule(number));
    return REFUSED;
}

int refused(const char *name, uint32_t number, uint64_t place) {
    printf("refused %" PRIu32 " at %" PRIu64 "\n", number, place);
    /* So that a terminal shows both lines in this order. */
    fflush(stdout);
    return refused_aside(name, number, place);
}

#define _POSIX_C_SOURCE 200809L
#include "text.h"

#include "tell.h"

#include <errno.h>
#include <fcntl.h>
#include <stdlib.h>
#include <string.h>
#include <unistd.h>

enum { FIRST_ROOM = 1 << 16 };

/* Reads to the file's end, into memory that is doubled where it is full. Gives null, or what is wrong. */
static const char *read_open(int file, struct text *text) {
    size_t room = 0;
    for (;;) {
        if (text->length == room) {
            room = room == 0 ? FIRST_ROOM : 2 * room;
            char *bytes = room > text->length ? realloc(text->bytes, room) : NULL;
            if (bytes == NULL)
                return strerror(ENOMEM);
            text->bytes = bytes;
        }
        ssize_t n = read(file, text->bytes + text->length, room - text->length);
        if (n == 0)
            return NULL;
        if (n > 0)
            text->length += (size_t)n;
        else if (errno != EINTR)
            return strerror(errno);
    }
}

int read_text(const char *name, struct text *text) {
    *text = (struct text){NULL, 0, 0, 0};
    int standard = strcmp(name, "-") == 0;
    int file = standard ? STDIN_FILENO : open(name, O_RDONLY | O_CLOEXEC);
    if (file < 0)
        return failed(name, strerror(errno));
    const char *wrong = read_open(file, text);
    if (!standard)
        close(file);
    if (wrong == NULL)
        return DONE;
    drop_text(text);
    return failed(name, wrong);
}

void drop_text(struct text *text) {
    free(text->bytes);
    text->bytes = NULL;
}

int next_line(struct text *text, struct line *line) {
    size_t left = text->length - text->place;
    if (left == 0)
        return 0;
    line->next = text->bytes + text->place;
    line->end = memchr(line->next, '\n', left);
    if (line->end == NULL)
        line->end = line->next + left;
    size_t length = (size_t)(line->end - line->next);
    text->place += length < left ? length + 1 : left;
    text->line++;
    if (length < left && length > 0 && line->end[-1] == '\r')
        line->end--;
    return 1;
}

int next_word(struct line *line) {
    while (line->next < line->end && (*line->next == ' ' || *line->next == '\t'))
        line->next++;
    return line->next < line->end;
}

int next_number(struct line *line, uint64_t *number) {
    const char *first = line->next;
    *number = 0;
    for (; line->next < line->end && *line->next >= '0' && *line->next <= '9'; line->next++) {
        uint64_t digit = (uint64_t)(*line->next - '0');
        if (*number > (UINT64_MAX - digit) / 10)
            return 0;
        *number = *number * 10 + digit;
    }
    return line->next > first && (line->next == line->end || *line->next == ' ' || *line->next == '\t');
}

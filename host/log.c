#define _GNU_SOURCE
#include "log.h"

#include "tell.h"
#include "towercloak.h"

#include <errno.h>
#include <fcntl.h>
#include <string.h>
#include <sys/mman.h>
#include <sys/prctl.h>
#include <sys/resource.h>
#include <sys/stat.h>
#include <unistd.h>

/* One byte more than the longest log, so that a longer one shows. */
enum { ROOM = TOWERCLOAK_LONGEST + 1 };

static const char no_regular_file[] = "is no regular file: its copy has to be named, with -o";

int leave_no_core(void) {
    struct rlimit none = {0, 0};
    return prctl(PR_SET_DUMPABLE, 0) == 0 && setrlimit(RLIMIT_CORE, &none) == 0;
}

/* Memory that follows no file. A page of it is there once it is written, and large pages are there sooner. */
static uint8_t *room(void) {
    uint8_t *bytes = mmap(NULL, ROOM, PROT_READ | PROT_WRITE, MAP_PRIVATE | MAP_ANONYMOUS, -1, 0);
    if (bytes == MAP_FAILED)
        return NULL;
    madvise(bytes, ROOM, MADV_DONTDUMP);
    madvise(bytes, ROOM, MADV_HUGEPAGE);
    return bytes;
}

static int reads_whole(int file, struct log *log) {
    log->length = 0;
    while (log->length < ROOM) {
        ssize_t n = read(file, log->bytes + log->length, ROOM - log->length);
        if (n < 0 && errno == EINTR)
            continue;
        if (n <= 0)
            return n == 0;
        log->length += (size_t)n;
    }
    return 1;
}

/* Whether the file was as it is now all the time. The time of its last change tells of a write even where the writer sets
 * the file's own time back. */
static int unchanged(const struct stat *before, const struct stat *after) {
    return before->st_size == after->st_size && before->st_ctim.tv_sec == after->st_ctim.tv_sec &&
           before->st_ctim.tv_nsec == after->st_ctim.tv_nsec;
}

/* Whether a second reading, from where the first one started, finds the same bytes. It tells of what is stored through a
 * mapping, which can leave the file's times as they were. */
static int reads_again(int file, off_t start, const struct log *log) {
    uint8_t part[1 << 16];
    size_t done = 0;
    while (done < log->length) {
        size_t left = log->length - done;
        ssize_t n = pread(file, part, left < sizeof part ? left : sizeof part, start + (off_t)done);
        if (n < 0 && errno == EINTR)
            continue;
        if (n <= 0 || memcmp(part, log->bytes + done, (size_t)n) != 0)
            return 0;
        done += (size_t)n;
    }
    return 1;
}

/* Reads from a file that is open. Gives null, or what is wrong. A part of one log and a part of another are not a log:
 * bytes of an event of the one can lie where the other has function records. */
static const char *read_open(int file, enum taken taken, struct log *log) {
    struct stat before, after;
    if (fstat(file, &before) != 0)
        return strerror(errno);
    int regular = S_ISREG(before.st_mode);
    if (!regular && taken == REGULAR)
        return no_regular_file;
    log->mode = regular ? before.st_mode & 0777 : S_IRUSR | S_IWUSR;
    log->bytes = room();
    if (log->bytes == NULL)
        return strerror(errno);
    const char *wrong = NULL;
    off_t start = regular ? lseek(file, 0, SEEK_CUR) : 0;
    if (!reads_whole(file, log) || fstat(file, &after) != 0)
        wrong = strerror(errno);
    else if (regular && !(unchanged(&before, &after) && reads_again(file, start, log)))
        wrong = "changed while it was read";
    if (wrong != NULL)
        drop_log(log);
    return wrong;
}

int open_log(const char *name, enum taken taken) {
    int standard = strcmp(name, "-") == 0;
    if (standard && taken == REGULAR) {
        failed(name, no_regular_file);
        return -1;
    }
    /* A pipe must not hold it up where none is taken, and a link, as /dev/stdin, is another file's name. */
    int flags = taken == REGULAR ? O_NONBLOCK | O_NOFOLLOW : 0;
    int file = standard ? STDIN_FILENO : open(name, O_RDONLY | O_CLOEXEC | flags);
    if (file < 0)
        failed(name, taken == REGULAR && errno == ELOOP ? no_regular_file : strerror(errno));
    return file;
}

void close_log(const char *name, int file) {
    if (strcmp(name, "-") != 0)
        close(file);
}

int is_short(int file) {
    struct stat now;
    return fstat(file, &now) == 0 && S_ISREG(now.st_mode) && now.st_size <= TOWERCLOAK_LONGEST;
}

int read_open_log(const char *name, int file, enum taken taken, struct log *log) {
    const char *wrong = read_open(file, taken, log);
    return wrong == NULL ? DONE : failed(name, wrong);
}

int read_log(const char *name, enum taken taken, struct log *log) {
    int file = open_log(name, taken);
    if (file < 0)
        return FAILED;
    int status = read_open_log(name, file, taken, log);
    close_log(name, file);
    return status;
}

void hint_at_order(const char *name, const struct log *log, uint32_t order) {
    int little = order == TOWERCLOAK_LITTLE_ENDIAN;
    uint32_t other = little ? TOWERCLOAK_BIG_ENDIAN : TOWERCLOAK_LITTLE_ENDIAN;
    uint64_t fields[4];
    if (towercloak_header(log->bytes, log->length, other, &fields[0], &fields[1], &fields[2], &fields[3]) == 0)
        warn(name, little ? "its header is a big-endian log's: see --big-endian"
                          : "its header is a little-endian log's: see --big-endian");
}

void drop_log(struct log *log) {
    munmap(log->bytes, ROOM);
    log->bytes = NULL;
}

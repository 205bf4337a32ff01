#define _GNU_SOURCE
#include "store.h"

#include "tell.h"

#include <errno.h>
#include <fcntl.h>
#include <limits.h>
#include <signal.h>
#include <stdio.h>
#include <string.h>
#include <sys/stat.h>
#include <time.h>
#include <unistd.h>

/* The functions below give 0 or, as errno has it, why not. */

static int written(int file, const struct log *log) {
    size_t done = 0;
    while (done < log->length) {
        ssize_t n = write(file, log->bytes + done, log->length - done);
        if (n < 0 && errno == EINTR)
            continue;
        if (n <= 0)
            return n < 0 ? errno : EIO;
        done += (size_t)n;
    }
    return 0;
}

/* Fills a new file, which is its owner's alone until then. */
static int filled(int file, const struct log *log) {
    int why = written(file, log);
    if (why != 0)
        return why;
    /* A file system without permissions may refuse these. */
    (void)fchmod(file, log->mode);
    return fsync(file) == 0 ? 0 : errno;
}

/* Fills a file without a name and then gives it one: until then it is gone with the process, however that ends. Where
 * this is not to be had, it is EOPNOTSUPP. */
static int store_unnamed(int folder, const char *name, const struct log *log) {
    char path[sizeof "/proc/self/fd/" + 3 * sizeof(int)];
    int file = openat(folder, ".", O_TMPFILE | O_WRONLY | O_CLOEXEC, S_IRUSR | S_IWUSR);
    if (file < 0)
        return EOPNOTSUPP;
    snprintf(path, sizeof path, "/proc/self/fd/%d", file);
    int why = filled(file, log);
    if (why == 0 && linkat(AT_FDCWD, path, folder, name, AT_SYMLINK_FOLLOW) != 0)
        why = errno == EEXIST ? EEXIST : EOPNOTSUPP;
    close(file);
    return why;
}

/* Gives a file this name in place of its own, where no file has it. A file system can do one of these two, if any. */
static int renamed(int folder, const char *old, const char *name) {
    if (renameat2(folder, old, folder, name, RENAME_NOREPLACE) == 0)
        return 0;
    if (errno != EINVAL && errno != ENOSYS)
        return errno;
    return linkat(folder, old, folder, name, 0) == 0 ? 0 : errno;
}

/* Fills a file of another name in the folder, and then renames it. */
static int store_beside(int folder, const char *name, const struct log *log) {
    struct timespec now;
    char beside[sizeof ".towercloak." + 6 * sizeof(long)];
    clock_gettime(CLOCK_REALTIME, &now);
    snprintf(beside, sizeof beside, ".towercloak.%ld.%ld", (long)getpid(), now.tv_nsec);
    int file = openat(folder, beside, O_CREAT | O_EXCL | O_WRONLY | O_CLOEXEC, S_IRUSR | S_IWUSR);
    if (file < 0)
        return errno;
    int why = filled(file, log);
    if (close(file) != 0 && why == 0)
        why = errno;
    if (why == 0)
        why = renamed(folder, beside, name);
    unlinkat(folder, beside, 0);
    return why;
}

/* The same, during which signals wait: the file beside goes away again. */
static int store_named(int folder, const char *name, const struct log *log) {
    sigset_t all, before;
    sigfillset(&all);
    sigprocmask(SIG_BLOCK, &all, &before);
    int why = store_beside(folder, name, log);
    sigprocmask(SIG_SETMASK, &before, NULL);
    return why;
}

/* Makes the name last. A folder that may not be read can't be synced, and some file systems sync none. */
static int synced(int folder) {
    int file = openat(folder, ".", O_RDONLY | O_DIRECTORY | O_CLOEXEC);
    if (file < 0)
        return errno == EACCES ? 0 : errno;
    int why = fsync(file) == 0 || errno == EINVAL ? 0 : errno;
    close(file);
    return why;
}

/* The folder of a file of this name, open for calls that name a file in it, and where the file's own name starts. */
static int folder_of(const char *name, const char **own) {
    char path[PATH_MAX];
    const char *slash = strrchr(name, '/');
    *own = slash == NULL ? name : slash + 1;
    int length = snprintf(path, sizeof path, "%.*s.", (int)(*own - name), name);
    if (length < 0 || (size_t)length >= sizeof path) {
        errno = ENAMETOOLONG;
        return -1;
    }
    return open(path, O_PATH | O_DIRECTORY | O_CLOEXEC);
}

int store(const char *name, const struct log *log) {
    const char *own;
    int folder = folder_of(name, &own);
    if (folder < 0)
        return failed(name, strerror(errno));
    int why = store_unnamed(folder, own, log);
    if (why == EOPNOTSUPP)
        why = store_named(folder, own, log);
    if (why == 0)
        why = synced(folder);
    close(folder);
    return why == 0 ? DONE : failed(name, strerror(why));
}

int store_out(const struct log *log) {
    int why = written(STDOUT_FILENO, log);
    return why == 0 ? DONE : failed("standard output", strerror(why));
}

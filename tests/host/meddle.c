/* Stands between the program and the system, to be preloaded: a file system that lacks what the words of MEDDLE name, and
 * a log that changes while it is read.
 *
 * tmpfile  no file without a name
 * link     no hard links
 * rename   no rename that replaces nothing
 * change   CHANGED is written over the file that was opened first, once a byte of it was read
 * mapped   the same, through a mapping whose pages were written before: the file's times stay as they are
 * trace    tells on standard error of each name that is given, and of each folder that is synced
 */
#define _GNU_SOURCE
#include <dlfcn.h>
#include <errno.h>
#include <fcntl.h>
#include <stdarg.h>
#include <stdio.h>
#include <stdlib.h>
#include <string.h>
#include <sys/mman.h>
#include <sys/stat.h>
#include <unistd.h>

static int meddles(const char *word) {
    const char *words = getenv("MEDDLE");
    return words != NULL && strstr(words, word) != NULL;
}

static int without(const char *word, int error) {
    if (!meddles(word))
        return 0;
    errno = error;
    return 1;
}

static void trace(const char *what, const char *name) {
    if (meddles("trace"))
        fprintf(stderr, "%s %s\n", what, name);
}

int openat(int folder, const char *name, int flags, ...) {
    int (*real)(int, const char *, int, ...) = dlsym(RTLD_NEXT, "openat");
    va_list more;
    va_start(more, flags);
    mode_t mode = flags & (O_CREAT | O_TMPFILE) ? va_arg(more, mode_t) : 0;
    va_end(more);
    if ((flags & O_TMPFILE) == O_TMPFILE && without("tmpfile", EOPNOTSUPP))
        return -1;
    return real(folder, name, flags, mode);
}

int link(const char *old, const char *name) {
    return linkat(AT_FDCWD, old, AT_FDCWD, name, 0);
}

int linkat(int from, const char *old, int to, const char *name, int flags) {
    int (*real)(int, const char *, int, const char *, int) = dlsym(RTLD_NEXT, "linkat");
    if (without("link", EPERM))
        return -1;
    trace("link", name);
    return real(from, old, to, name, flags);
}

int renameat2(int from, const char *old, int to, const char *name, unsigned flags) {
    int (*real)(int, const char *, int, const char *, unsigned) = dlsym(RTLD_NEXT, "renameat2");
    if (without("rename", EINVAL))
        return -1;
    trace(flags == RENAME_NOREPLACE ? "rename" : "replace", name);
    return real(from, old, to, name, flags);
}

int fsync(int file) {
    int (*real)(int) = dlsym(RTLD_NEXT, "fsync");
    struct stat about;
    if (fstat(file, &about) == 0)
        trace("sync", S_ISDIR(about.st_mode) ? "folder" : "file");
    return real(file);
}

/* The pages of the log, written as they are, so that a later store in them changes none of the file's times. */
static char *mapped;

int open(const char *name, int flags, ...) {
    int (*real)(const char *, int, ...) = dlsym(RTLD_NEXT, "open");
    va_list more;
    va_start(more, flags);
    mode_t mode = flags & (O_CREAT | O_TMPFILE) ? va_arg(more, mode_t) : 0;
    va_end(more);
    struct stat about;
    if (meddles("mapped") && mapped == NULL && stat(name, &about) == 0 && S_ISREG(about.st_mode)) {
        int file = real(name, O_RDWR);
        mapped = mmap(NULL, (size_t)about.st_size, PROT_READ | PROT_WRITE, MAP_SHARED, file, 0);
        for (off_t i = 0; i < about.st_size; i++)
            ((volatile char *)mapped)[i] = mapped[i];
        close(file);
    }
    return real(name, flags, mode);
}

/* Writes the other file over the one that is open here for reading. */
static void change(int file) {
    char path[64], bytes[4096];
    snprintf(path, sizeof path, "/proc/self/fd/%d", file);
    int from = open(getenv("CHANGED"), O_RDONLY), to = open(path, O_WRONLY);
    ssize_t (*real)(int, void *, size_t) = dlsym(RTLD_NEXT, "read");
    char *at = mapped;
    for (ssize_t n; (n = real(from, bytes, sizeof bytes)) > 0;)
        if (at != NULL)
            at = memcpy(at, bytes, (size_t)n), at += n;
        else if (write(to, bytes, (size_t)n) != n)
            abort();
    close(from);
    close(to);
}

ssize_t read(int file, void *bytes, size_t length) {
    ssize_t (*real)(int, void *, size_t) = dlsym(RTLD_NEXT, "read");
    static int changed;
    if (!(meddles("change") || meddles("mapped")) || changed)
        return real(file, bytes, length);
    ssize_t n = real(file, bytes, length < 88 ? length : 88);
    changed = 1;
    change(file);
    return n;
}

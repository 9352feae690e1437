/* Loaded before the C library (LD_PRELOAD) it counts the program's calls on files, from 1: open (but of /dev/null), statx of an open file, pread, pwrite, ftruncate and fsync.
   The one of number FILES_FAIL_AT fails with EIO. With FILES_PIECE=N a pread or a pwrite moves at most N bytes; with FILES_INTERRUPT=1 every second of them ends with EINTR
   before it moved any. When the program ends it writes to the file FILES_TO how many there were, and how many but statx came behind the one that failed; and then each path
   that was opened, a line each. */
#define _GNU_SOURCE
#include <dlfcn.h>
#include <errno.h>
#include <fcntl.h>
#include <stdarg.h>
#include <stdio.h>
#include <stdlib.h>
#include <string.h>
#include <sys/stat.h>
#include <unistd.h>

static unsigned long fail_at, calls, behind, moves, piece;
static int interrupt;
static char opened[65536];

#define NEXT(name) \
    static __typeof__(name) *next; \
    if (!next) \
        next = (__typeof__(name) *)dlsym(RTLD_NEXT, #name)

static unsigned long told(const char *name) {
    const char *value = getenv(name);
    return value ? strtoul(value, NULL, 10) : 0;
}

__attribute__((constructor)) static void begin(void) {
    fail_at = told("FILES_FAIL_AT");
    piece = told("FILES_PIECE");
    interrupt = told("FILES_INTERRUPT") != 0;
}

static int fails(void) {
    errno = EIO;
    behind += fail_at && calls >= fail_at;
    return ++calls == fail_at;
}

static int is_interrupted(void) {
    errno = EINTR;
    return interrupt && ++moves % 2;
}

int open(const char *path, int flags, ...) {
    NEXT(open);
    va_list rest;
    va_start(rest, flags);
    mode_t mode = flags & O_CREAT ? va_arg(rest, mode_t) : 0;
    va_end(rest);
    if (strcmp(path, "/dev/null")) {
        if (strlen(opened) + strlen(path) + 2 < sizeof opened) {
            strcat(opened, path);
            strcat(opened, "\n");
        }
        if (fails())
            return -1;
    }
    return next(path, flags, mode);
}

int statx(int at, const char *restrict path, int flags, unsigned mask, struct statx *restrict into) {
    NEXT(statx);
    errno = EIO;
    return !*path && ++calls == fail_at ? -1 : next(at, path, flags, mask, into);
}

ssize_t pread(int file, void *into, size_t count, off_t offset) {
    NEXT(pread);
    return is_interrupted() || fails() ? -1 : next(file, into, piece && piece < count ? piece : count, offset);
}

ssize_t pwrite(int file, const void *from, size_t count, off_t offset) {
    NEXT(pwrite);
    return is_interrupted() || fails() ? -1 : next(file, from, piece && piece < count ? piece : count, offset);
}

int ftruncate(int file, off_t length) {
    NEXT(ftruncate);
    return fails() ? -1 : next(file, length);
}

int fsync(int file) {
    NEXT(fsync);
    return fails() ? -1 : next(file);
}

__attribute__((destructor)) static void end(void) {
    const char *path = getenv("FILES_TO");
    FILE *to = path ? fopen(path, "w") : NULL;
    if (to) {
        fprintf(to, "%lu %lu\n%s", calls, behind, opened);
        fclose(to);
    }
}

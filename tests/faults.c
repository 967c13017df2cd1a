/* Faults of the outside. FAULT_CALL names a call: open, read, write, close, or thread for the start of a thread. The one
   with the number in FAULT_AT, counted from 1, fails with the error in FAULT_ERROR, and with FAULT_EVER all behind it too.
   Reads and writes take at most FAULT_PIECE bytes. The read with the number in FAULT_CUT finds its file cut to what was
   read of it. What a fault befell is written to the descriptor in FAULT_FD, as the call and the file's path or the number
   of the stream. tests/faults.py loads it in front of the program. */
#define _GNU_SOURCE
#include <dlfcn.h>
#include <errno.h>
#include <fcntl.h>
#include <pthread.h>
#include <stdarg.h>
#include <stdatomic.h>
#include <stdio.h>
#include <stdlib.h>
#include <string.h>
#include <sys/syscall.h>
#include <unistd.h>

static atomic_long left, reads_left;
static const char *failing;
static int told = -1, error, is_ever;
static size_t piece;

static long number(const char *name) {
    const char *word = getenv(name);
    return word ? atol(word) : 0;
}

__attribute__((constructor)) static void begin(void) {
    told = number("FAULT_FD") ? (int)number("FAULT_FD") : -1;
    failing = getenv("FAULT_CALL");
    left = number("FAULT_AT");
    error = (int)number("FAULT_ERROR");
    is_ever = getenv("FAULT_EVER") != NULL;
    piece = (size_t)number("FAULT_PIECE");
    reads_left = number("FAULT_CUT");
}

static void tell(const char *call, const char *what) {
    char line[4200];
    int length = snprintf(line, sizeof line, "%s %s\n", call, what);
    if (told >= 0 && syscall(SYS_write, told, line, (size_t)length) != length) abort();
}

static void path_of(int file, char *path, size_t room) {
    char link[64];
    snprintf(link, sizeof link, "/proc/self/fd/%d", file);
    ssize_t length = readlink(link, path, room - 1);
    path[length < 0 ? 0 : length] = 0;
}

/* Whether this call is to fail. */
static int fails(const char *call, const char *what) {
    if (told < 0 || !failing || strcmp(call, failing)) return 0;
    long now = atomic_fetch_sub(&left, 1);
    if (now != 1 && !(is_ever && now < 1)) return 0;
    tell(call, what);
    errno = error;
    return 1;
}

static int fails_at(const char *call, int file) {
    char path[4096];
    if (file <= 2) snprintf(path, sizeof path, "%d", file);
    else path_of(file, path, sizeof path);
    return fails(call, path);
}

static void cut(int file) {
    char path[4096];
    if (file <= 2 || reads_left == 0 || atomic_fetch_sub(&reads_left, 1) != 1) return;
    path_of(file, path, sizeof path);
    if (truncate(path, lseek(file, 0, SEEK_CUR))) abort();
    tell("cut", path);
}

static int opened(int folder, const char *path, int flags, mode_t mode) {
    return fails("open", path) ? -1 : (int)syscall(SYS_openat, folder, path, flags, mode);
}

int open(const char *path, int flags, ...) {
    va_list rest;
    va_start(rest, flags);
    mode_t mode = flags & O_CREAT ? va_arg(rest, mode_t) : 0;
    va_end(rest);
    return opened(AT_FDCWD, path, flags, mode);
}

int openat(int folder, const char *path, int flags, ...) {
    va_list rest;
    va_start(rest, flags);
    mode_t mode = flags & O_CREAT ? va_arg(rest, mode_t) : 0;
    va_end(rest);
    return opened(folder, path, flags, mode);
}

ssize_t read(int file, void *bytes, size_t count) {
    if (fails_at("read", file)) return -1;
    cut(file);
    return syscall(SYS_read, file, bytes, piece && piece < count ? piece : count);
}

ssize_t write(int file, const void *bytes, size_t count) {
    if (fails_at("write", file)) return -1;
    return syscall(SYS_write, file, bytes, piece && piece < count ? piece : count);
}

int close(int file) {
    if (fails_at("close", file)) {
        syscall(SYS_close, file);
        return -1;
    }
    return (int)syscall(SYS_close, file);
}

int pthread_create(pthread_t *thread, const pthread_attr_t *with, void *(*start)(void *), void *given) {
    static int (*create)(pthread_t *, const pthread_attr_t *, void *(*)(void *), void *);
    if (!create) *(void **)&create = dlsym(RTLD_NEXT, "pthread_create");
    return fails("thread", "start") ? error : create(thread, with, start, given);
}

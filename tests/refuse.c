/* Preloaded before the C library: refuses one growth of memory, or fails one read of standard input or one write of
 * standard output, counted from 1; or moves one byte a call. REFUSE=N, FAIL_READ=N, FAIL_WRITE=N, EMPTY_WRITE=N,
 * ONE_BYTE=1. Where MET names a file, it is made when the call was met. */
#define _GNU_SOURCE
#include <dlfcn.h>
#include <errno.h>
#include <fcntl.h>
#include <stddef.h>
#include <stdlib.h>
#include <sys/types.h>
#include <unistd.h>

static long number(const char *name) {
    const char *text = getenv(name);
    return text ? atol(text) : 0;
}

static void met(void) {
    const char *file = getenv("MET");
    int made = file ? open(file, O_CREAT | O_WRONLY, 0644) : -1;
    if (made >= 0)
        close(made);
}

static int is_turn(long *seen, long turn) {
    if (turn <= 0 || ++*seen != turn)
        return 0;
    met();
    return 1;
}

static int refuses(void) {
    static long seen, turn = -1;
    if (turn < 0)
        turn = number("REFUSE");
    return is_turn(&seen, turn);
}

void *malloc(size_t size) {
    static void *(*real)(size_t);
    if (!real)
        real = (void *(*)(size_t))dlsym(RTLD_NEXT, "malloc");
    return refuses() ? NULL : real(size);
}

void *realloc(void *old, size_t size) {
    static void *(*real)(void *, size_t);
    if (!real)
        real = (void *(*)(void *, size_t))dlsym(RTLD_NEXT, "realloc");
    return refuses() ? NULL : real(old, size);
}

ssize_t read(int file, void *buffer, size_t size) {
    static ssize_t (*real)(int, void *, size_t);
    static long seen;
    if (!real)
        real = (ssize_t (*)(int, void *, size_t))dlsym(RTLD_NEXT, "read");
    if (file == 0 && is_turn(&seen, number("FAIL_READ"))) {
        errno = EIO;
        return -1;
    }
    if (file == 0 && number("ONE_BYTE") && size > 1)
        size = 1;
    return real(file, buffer, size);
}

ssize_t write(int file, const void *buffer, size_t size) {
    static ssize_t (*real)(int, const void *, size_t);
    static long failed, empty;
    if (!real)
        real = (ssize_t (*)(int, const void *, size_t))dlsym(RTLD_NEXT, "write");
    if (file == 1 && is_turn(&failed, number("FAIL_WRITE"))) {
        errno = EIO;
        return -1;
    }
    if (file == 1 && is_turn(&empty, number("EMPTY_WRITE")))
        return 0;
    if (file == 1 && number("ONE_BYTE") && size > 1)
        size = 1;
    return real(file, buffer, size);
}

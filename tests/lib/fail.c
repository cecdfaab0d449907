/* Stands before the C library's calls, by LD_PRELOAD, and lets one of them fail.
 *
 * FAIL_MEMORY=K refuses the K-th request for memory, FAIL_READ=K and FAIL_WRITE=K let the K-th read or write fail, and SHORT_READ=K and
 * SHORT_WRITE=K let it move one byte alone. READ_PIECE=N and WRITE_PIECE=N let each move N bytes at most, and WRITE_ROOM=N is how many
 * bytes are written in all: what goes beyond fails. CALLS=FILE writes how many requests, reads and writes there were when the program
 * ends.
 */
#define _GNU_SOURCE
#include <dlfcn.h>
#include <errno.h>
#include <fcntl.h>
#include <stdio.h>
#include <stdlib.h>
#include <sys/types.h>
#include <unistd.h>

enum { MEMORY, READ, WRITE };
static long calls[3];

#define REAL(name, answer, arguments) \
    static answer(*real) arguments;   \
    if (!real) real = (answer(*) arguments)dlsym(RTLD_NEXT, name)

static int is_due(int kind, const char *name) {
    const char *wanted = getenv(name);
    return wanted && calls[kind] == atol(wanted);
}

/* how many bytes a call may move, of so many: 1 where it is to be short, else as many as a piece has */
static size_t piece(int kind, const char *is_short, const char *in_pieces, size_t size) {
    const char *most = getenv(in_pieces);
    if (is_due(kind, is_short) && size > 1) return 1;
    return most && size > (size_t)atol(most) ? (size_t)atol(most) : size;
}

/* how many bytes there is room for, of so many */
static size_t room(size_t size) {
    static size_t written;
    const char *all = getenv("WRITE_ROOM");
    if (!all) return size;
    size_t left = (size_t)atol(all) - written;
    size_t taken = size < left ? size : left;
    written += taken;
    return taken;
}

static int is_refused(void) {
    calls[MEMORY]++;
    return is_due(MEMORY, "FAIL_MEMORY");
}

static void *nothing(void) {
    errno = ENOMEM;
    return 0;
}

void *malloc(size_t size) {
    REAL("malloc", void *, (size_t));
    return is_refused() ? nothing() : real(size);
}

void *realloc(void *old, size_t size) {
    REAL("realloc", void *, (void *, size_t));
    return is_refused() ? nothing() : real(old, size);
}

int posix_memalign(void **to, size_t align, size_t size) {
    REAL("posix_memalign", int, (void **, size_t, size_t));
    return is_refused() ? ENOMEM : real(to, align, size);
}

void *aligned_alloc(size_t align, size_t size) {
    REAL("aligned_alloc", void *, (size_t, size_t));
    return is_refused() ? nothing() : real(align, size);
}

ssize_t read(int file, void *to, size_t size) {
    REAL("read", ssize_t, (int, void *, size_t));
    calls[READ]++;
    if (is_due(READ, "FAIL_READ")) {
        errno = EIO;
        return -1;
    }
    return real(file, to, piece(READ, "SHORT_READ", "READ_PIECE", size));
}

ssize_t write(int file, const void *from, size_t size) {
    REAL("write", ssize_t, (int, const void *, size_t));
    calls[WRITE]++;
    if (is_due(WRITE, "FAIL_WRITE")) {
        errno = EIO;
        return -1;
    }
    size_t taken = room(piece(WRITE, "SHORT_WRITE", "WRITE_PIECE", size));
    if (size > 0 && taken == 0) {
        errno = ENOSPC;
        return -1;
    }
    return real(file, from, taken);
}

__attribute__((destructor)) static void tell(void) {
    const char *to = getenv("CALLS");
    static char text[64];
    if (!to) return;
    int file = open(to, O_WRONLY | O_CREAT | O_TRUNC, 0600);
    int size = snprintf(text, sizeof text, "%ld %ld %ld\n", calls[MEMORY], calls[READ], calls[WRITE]);
    REAL("write", ssize_t, (int, const void *, size_t));
    if (file >= 0 && real(file, text, size) == size) close(file);
}

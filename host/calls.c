/* Loaded before the C library by host/calls: records each call by which the program changes its file or prints, in their order, and lets one
 * of them fail. A record is its kind, a number and so many bytes: `C` a cut to so many bytes (none follow), `>` bytes for the file, `|` a wait
 * for the disk, `<` bytes for standard output, `?` a call on any other descriptor. CALLS names the file of records. CALLS_FAIL is the number of
 * the call that fails, from 1 on: it is recorded, is not made, and answers -1 with EIO; CALLS_FAIL_READ is that of a read. Where CALLS_WAY is
 * `short`, no read and no write moves more than seven bytes; where it is `interrupted`, each is interrupted once before it is made. */
#define _GNU_SOURCE
#include <dlfcn.h>
#include <errno.h>
#include <fcntl.h>
#include <stdarg.h>
#include <stdint.h>
#include <stdlib.h>
#include <string.h>
#include <unistd.h>

static int records = -1;   /* the descriptor of the records */
static int day = -1;       /* the descriptor that appends to the day's file */
static long calls, reads, interrupted;

static void *real(const char *name) { return dlsym(RTLD_NEXT, name); }

/* The number in a variable of the environment, 0 where it is not set. */
static long number_in(const char *name) {
    const char *text = getenv(name);
    return text ? atol(text) : 0;
}

static int is_way(const char *way) {
    const char *text = getenv("CALLS_WAY");
    return text && !strcmp(text, way);
}

static int fails_with(int error) {
    errno = error;
    return 1;
}

/* Whether a read or a write is interrupted now: every other one is. */
static int is_interrupted(void) { return is_way("interrupted") && ++interrupted % 2 ? fails_with(EINTR) : 0; }

static size_t shortened(size_t size) { return is_way("short") && size > 7 ? 7 : size; }

/* Records a call, and says whether it is the one that fails. */
static int recorded(char kind, uint64_t number, const void *bytes, size_t size) {
    ssize_t (*put)(int, const void *, size_t) = real("write");
    char head[9] = {kind};
    if (records < 0) {
        int (*open_real)(const char *, int, ...) = real("open");
        records = open_real(getenv("CALLS"), O_WRONLY | O_CREAT | O_TRUNC, 0600);
    }
    memcpy(head + 1, &number, 8);
    if (put(records, head, 9) != 9 || put(records, bytes, size) != (ssize_t)size) abort();
    return ++calls == number_in("CALLS_FAIL") ? fails_with(EIO) : 0;
}

int open(const char *path, int flags, ...) {
    int (*made)(const char *, int, ...) = real("open");
    va_list more;
    va_start(more, flags);
    int fd = made(path, flags, va_arg(more, int));
    va_end(more);
    if (flags & O_APPEND) day = fd;
    return fd;
}

ssize_t write(int fd, const void *bytes, size_t size) {
    ssize_t (*made)(int, const void *, size_t) = real("write");
    if (fd == STDERR_FILENO) return made(fd, bytes, size);
    if (is_interrupted()) return -1;
    size = shortened(size);
    return recorded(fd == day ? '>' : fd == STDOUT_FILENO ? '<' : '?', size, bytes, size) ? -1 : made(fd, bytes, size);
}

ssize_t read(int fd, void *bytes, size_t size) {
    ssize_t (*made)(int, void *, size_t) = real("read");
    if (is_interrupted()) return -1;
    if (++reads == number_in("CALLS_FAIL_READ") && fails_with(EIO)) return -1;
    return made(fd, bytes, shortened(size));
}

int fdatasync(int fd) {
    int (*made)(int) = real("fdatasync");
    return recorded(fd == day ? '|' : '?', 0, "", 0) ? -1 : made(fd);
}

int ftruncate(int fd, off_t length) {
    int (*made)(int, off_t) = real("ftruncate");
    return recorded(fd == day ? 'C' : '?', (uint64_t)length, "", 0) ? -1 : made(fd, length);
}

/* Preloaded into a program, it refuses reads of files and writes to the outputs. Of each stream so many bytes pass as
   the variable with `LIMIT` says, and the next call fails with EIO; a call passes at most so many bytes as the variable
   with `PIECE` says. A variable that isn't there sets no bound. */

#define _GNU_SOURCE
#include <errno.h>
#include <stdlib.h>
#include <sys/syscall.h>
#include <sys/types.h>
#include <unistd.h>

struct stream {
    const char *limit;
    const char *piece;
    size_t passed;
};

static struct stream file = {"READ_LIMIT", "READ_PIECE", 0};
static struct stream output = {"OUTPUT_LIMIT", "OUTPUT_PIECE", 0};
static struct stream error_output = {"ERROR_LIMIT", "ERROR_PIECE", 0};

static size_t bound(const char *variable) {
    const char *value = getenv(variable);
    return value ? strtoul(value, NULL, 10) : (size_t)-1;
}

/* Whether a call of the stream passes; `size` becomes what may pass in it. */
static int may_pass(const struct stream *stream, size_t *size) {
    size_t left = bound(stream->limit) - stream->passed;
    size_t piece = bound(stream->piece);
    if (*size > 0 && left == 0) {
        errno = EIO;
        return 0;
    }
    if (*size > left)
        *size = left;
    if (*size > piece)
        *size = piece;
    return 1;
}

/* Counts what a call has passed, and hands it on. */
static ssize_t counted(struct stream *stream, ssize_t count) {
    if (count > 0)
        stream->passed += (size_t)count;
    return count;
}

ssize_t read(int fd, void *to, size_t size) {
    if (fd <= STDERR_FILENO)
        return syscall(SYS_read, fd, to, size);
    return may_pass(&file, &size) ? counted(&file, syscall(SYS_read, fd, to, size)) : -1;
}

ssize_t write(int fd, const void *from, size_t size) {
    struct stream *stream = fd == STDOUT_FILENO ? &output : &error_output;
    if (fd != STDOUT_FILENO && fd != STDERR_FILENO)
        return syscall(SYS_write, fd, from, size);
    return may_pass(stream, &size) ? counted(stream, syscall(SYS_write, fd, from, size)) : -1;
}

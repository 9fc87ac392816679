/* Preloaded into a program, it refuses memory to it. The program is run by forks of one process, from before `main`:
   for each number from 1 on, first so that the allocation of this number and all later ones fail, and then so that it
   alone fails, until a run with all later ones refused is the right one. The variable RIGHT names a file with the right
   standard output, RIGHT_ERROR one with the right standard error, and RIGHT_STATUS is the right status. Printed is how
   many allocations were refused, or what was wrong, with the status 1. */

#define _GNU_SOURCE
#include <errno.h>
#include <fcntl.h>
#include <stdio.h>
#include <stdlib.h>
#include <string.h>
#include <sys/mman.h>
#include <sys/stat.h>
#include <sys/wait.h>
#include <unistd.h>

/* what glibc calls its own functions */
extern void *__libc_malloc(size_t size);
extern void *__libc_calloc(size_t count, size_t size);
extern void *__libc_realloc(void *old, size_t size);
extern void *__libc_memalign(size_t alignment, size_t size);

static long first = 0; /* the number of the allocation that is refused, or 0 */
static int is_alone = 0;

static int is_refused(void) {
    static long number = 0;
    if (!first)
        return 0;
    number += 1;
    return is_alone ? number == first : number >= first;
}

static void *refusal(void) {
    errno = ENOMEM;
    return NULL;
}

void *malloc(size_t size) {
    return is_refused() ? refusal() : __libc_malloc(size);
}

void *calloc(size_t count, size_t size) {
    return is_refused() ? refusal() : __libc_calloc(count, size);
}

void *realloc(void *old, size_t size) {
    return is_refused() ? refusal() : __libc_realloc(old, size);
}

void *aligned_alloc(size_t alignment, size_t size) {
    return is_refused() ? refusal() : __libc_memalign(alignment, size);
}

int posix_memalign(void **to, size_t alignment, size_t size) {
    void *made = is_refused() ? NULL : __libc_memalign(alignment, size);
    if (!made)
        return ENOMEM;
    *to = made;
    return 0;
}

struct text {
    char *bytes;
    size_t len;
};

struct run {
    int status;
    struct text out, error;
};

static void must(int holds, const char *what) {
    if (holds)
        return;
    printf("%s: %s\n", what, strerror(errno));
    fflush(stdout);
    _exit(1);
}

/* The bytes of a file, until `forget`. */
static struct text read_all(int file) {
    struct stat of_file;
    struct text read = {NULL, 0};
    must(fstat(file, &of_file) == 0, "fstat");
    read.len = (size_t)of_file.st_size;
    if (read.len) {
        read.bytes = mmap(NULL, read.len, PROT_READ, MAP_PRIVATE, file, 0);
        must(read.bytes != MAP_FAILED, "mmap");
    }
    return read;
}

static void forget(struct text it) {
    if (it.len)
        munmap(it.bytes, it.len);
}

static int is_start(struct text start, struct text whole) {
    return start.len <= whole.len && (!start.len || !memcmp(start.bytes, whole.bytes, start.len));
}

static int is_same(struct text one, struct text other) {
    return one.len == other.len && is_start(one, other);
}

static struct run right_run(void) {
    const char *out = getenv("RIGHT"), *error = getenv("RIGHT_ERROR"), *status = getenv("RIGHT_STATUS");
    int files[2];
    must(out && error && status, "RIGHT, RIGHT_ERROR and RIGHT_STATUS");
    files[0] = open(out, O_RDONLY);
    files[1] = open(error, O_RDONLY);
    must(files[0] >= 0 && files[1] >= 0, "the files of the right run");
    return (struct run){atoi(status), read_all(files[0]), read_all(files[1])};
}

/* An empty file in memory, closed in what a run executes. */
static int made(const char *name) {
    int file = memfd_create(name, MFD_CLOEXEC);
    must(file >= 0, "memfd_create");
    return file;
}

/* Whether this process is the one that runs the program. The other one gets how the run ended. */
static int begins_run(long number, int alone, const int files[2], struct run *ended) {
    int status;
    for (int i = 0; i < 2; i++)
        must(ftruncate(files[i], 0) == 0 && lseek(files[i], 0, SEEK_SET) == 0, "ftruncate");
    pid_t process = fork();
    must(process >= 0, "fork");
    if (process == 0) {
        must(dup2(files[0], STDOUT_FILENO) >= 0 && dup2(files[1], STDERR_FILENO) >= 0, "dup2");
        close(files[0]);
        close(files[1]);
        is_alone = alone;
        first = number;
        return 1;
    }
    must(waitpid(process, &status, 0) == process, "waitpid");
    ended->status = WIFEXITED(status) ? WEXITSTATUS(status) : 128 + WTERMSIG(status);
    ended->out = read_all(files[0]);
    ended->error = read_all(files[1]);
    return 0;
}

static int is_right(struct run it, struct run right) {
    return it.status == right.status && is_same(it.out, right.out) && is_same(it.error, right.error);
}

/* Whether a run ended out of memory, after the start of the right output. */
static int is_out_of_memory(struct run it, struct run right) {
    static char line[] = "out of memory\n";
    return it.status == 3 && is_start(it.out, right.out) && is_same(it.error, (struct text){line, sizeof line - 1});
}

static void end(int status) {
    fflush(stdout);
    _exit(status);
}

__attribute__((constructor)) static void refuse_each(void) {
    const int files[2] = {made("out"), made("error")};
    const struct run right = right_run();
    for (long number = 1;; number++)
        for (int alone = 0; alone < 2; alone++) {
            struct run it;
            if (begins_run(number, alone, files, &it))
                return;
            int right_one = is_right(it, right), refused = is_out_of_memory(it, right);
            forget(it.out);
            forget(it.error);
            if (right_one && !alone) {
                printf("%ld\n", number - 1);
                end(0);
            }
            if (!right_one && !refused) {
                printf("status %d with %s %ld%s refused\n", it.status, alone ? "allocation" : "the allocations from",
                       number, alone ? "" : " on");
                end(1);
            }
        }
}

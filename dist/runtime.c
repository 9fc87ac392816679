/* What the command `noise` asks of its surroundings beside the C library. Its text has `noise_main` in the place of `main` (noise.S). */
#include <errno.h>
#include <stddef.h>
#include <stdlib.h>
#include <string.h>
#ifdef _WIN32
#include <fcntl.h>
#include <io.h>
#include <windows.h>
#include <shellapi.h>
#else
#include <unistd.h>
#endif

int noise_main(void);

/* malloc aligns for all types of C, and no type of the command wants more. */
void *noise_alloc(size_t size, size_t align) {
    return malloc(size ? size : align);
}

void *noise_realloc(void *at, size_t old_size, size_t size, size_t align) {
    (void)old_size;
    return realloc(at, size ? size : align);
}

void rattle_dealloc(void *at) {
    free(at);
}

#ifndef _WIN32
/* A place for memory: 1 and where it is, or 0 where there is none. (On Windows noise.S has these two calls.) */
typedef struct {
    size_t some;
    void *at;
} place;

static place given(void *at) {
    return (place){at != NULL, at};
}

place rattle_alloc(size_t size, size_t align) {
    return given(noise_alloc(size, align));
}

place rattle_realloc(void *at, size_t old_size, size_t size, size_t align) {
    return given(noise_realloc(at, old_size, size, align));
}
#endif

static int count;
static char **words;

/* The length of an argument, whose bytes are written to out; -1 if there is none of this number, -2 if there isn't room for it. */
ptrdiff_t rattle_arg(size_t number, char *out, size_t room) {
    size_t len;
    if (number >= (size_t)count || !words[number]) return -1;
    len = strlen(words[number]);
    if (len > room) return -2;
    memcpy(out, words[number], len);
    return (ptrdiff_t)len;
}

#if defined(__linux__)
int rattle_errno(void) {
    return errno;
}

void rattle_set_errno(int number) {
    errno = number;
}
#else
/* The command knows the numbers of Linux alone. */
static int error;

int rattle_errno(void) {
    return error;
}

void rattle_set_errno(int number) {
    error = number;
}

/* A result, and the error if it is negative. The first 34 numbers are the same everywhere, but for EAGAIN. */
static ptrdiff_t result(ptrdiff_t got) {
    if (got < 0) error = errno == EAGAIN ? 11 : errno == ENAMETOOLONG ? 36 : errno;
    return got;
}
#endif

#if defined(__linux__) && !defined(__GLIBC__)
/* Two names of glibc's own, for other C libraries such as musl. */
#include <signal.h>

typedef void (*handler)(int);

ssize_t __write(int fd, const void *from, size_t len) {
    return write(fd, from, len);
}

handler __sysv_signal(int number, handler called) {
    return signal(number, called);
}
#elif defined(__APPLE__)
/* The calls of the system: `open` is for reading, and the file is closed in a program that is started. SIGPIPE has the number of Linux. */
#include <fcntl.h>
#include <signal.h>

void (*__sysv_signal(int number, void (*called)(int)))(int) {
    return signal(number, called);
}

int noise_open(const char *name, int flags) {
    (void)flags;
    return (int)result(open(name, O_RDONLY | O_NOCTTY | O_CLOEXEC));
}

int noise_close(int fd) {
    return (int)result(close(fd));
}

ptrdiff_t noise_read(int fd, void *to, size_t len) {
    return result(read(fd, to, len));
}

ptrdiff_t noise_write(int fd, const void *from, size_t len) {
    return result(write(fd, from, len));
}
#elif defined(_WIN32)
/* Windows has no signals for pipes; names and words are UTF-16; a call reads or writes less than 2 GiB. */
void *__sysv_signal(int number, void *called) {
    (void)number;
    (void)called;
    return NULL;
}

int noise_open(const char *name, int flags) {
    wchar_t wide[32768];
    (void)flags;
    if (!MultiByteToWideChar(CP_UTF8, MB_ERR_INVALID_CHARS, name, -1, wide, 32768)) {
        errno = ENOENT;
        return (int)result(-1);
    }
    return (int)result(_wopen(wide, _O_RDONLY | _O_BINARY | _O_NOINHERIT));
}

int noise_close(int fd) {
    return (int)result(_close(fd));
}

ptrdiff_t noise_read(int fd, void *to, size_t len) {
    return result(_read(fd, to, len < 1 << 30 ? (unsigned)len : 1u << 30));
}

ptrdiff_t noise_write(int fd, const void *from, size_t len) {
    return result(_write(fd, from, len < 1 << 30 ? (unsigned)len : 1u << 30));
}

/* A word as UTF-8; one that isn't Unicode is a byte that isn't UTF-8, of which the command says so. */
static char *utf8(const wchar_t *word) {
    int size = WideCharToMultiByte(CP_UTF8, WC_ERR_INVALID_CHARS, word, -1, NULL, 0, NULL, NULL);
    char *made = malloc(size ? (size_t)size : 2);
    if (made && !size) memcpy(made, "\xff", 2);
    if (made && size) WideCharToMultiByte(CP_UTF8, WC_ERR_INVALID_CHARS, word, -1, made, size, NULL, NULL);
    return made;
}

/* The words of the command line as they were typed: those that main is given are of one code page, and `*` in them is expanded. */
static void take_words(void) {
    int i, all = 0;
    wchar_t **wide = CommandLineToArgvW(GetCommandLineW(), &all);
    words = wide ? malloc((size_t)all * sizeof *words) : NULL;
    count = words ? all : 0;
    for (i = 0; i < count; i++) words[i] = utf8(wide[i]);
    for (i = 0; i < 3; i++) _setmode(i, _O_BINARY);
}
#endif

int main(int argc, char **argv) {
    count = argc;
    words = argv;
#ifdef _WIN32
    take_words();
#endif
    return noise_main();
}

/* See errno.h. */
#define O_RDONLY 0
#define O_NOCTTY 0x20000
#define O_CLOEXEC 0x1000000
int open(const char *, int, ...);

/* As much of the headers of macOS as dist/runtime.c takes, with the numbers there: no SDK is here. */
extern int *__error(void);
#define errno (*__error())
#define ENAMETOOLONG 63
#define EAGAIN 35

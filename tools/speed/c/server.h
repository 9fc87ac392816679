/* The loop of a program that is measured: a line `OPERATION BYTES COUNT` of standard input runs the operation COUNT
   times, and is answered by the nanoseconds of processor time that it took; `list` is answered by the operations. */
#ifndef SERVER_H
#define SERVER_H
#include <inttypes.h>
#include <stdint.h>
#include <stdio.h>
#include <stdlib.h>
#include <string.h>
#include <time.h>

#define ROOM 70000

extern uint8_t buffer[ROOM], other[ROOM];

struct operation {
    const char *name;
    void (*run)(size_t len);
    void (*prepare)(size_t len);
};

void fail(const char *what);
int serve(const struct operation *operations, size_t count);
#endif

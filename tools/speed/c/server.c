#include "server.h"

uint8_t buffer[ROOM], other[ROOM];

void fail(const char *what) {
    fprintf(stderr, "speed: %s failed\n", what);
    exit(1);
}

static uint64_t now(void) {
    struct timespec t;
    clock_gettime(CLOCK_PROCESS_CPUTIME_ID, &t);
    return (uint64_t)t.tv_sec * 1000000000u + (uint64_t)t.tv_nsec;
}

static const struct operation *find(const struct operation *operations, size_t count, const char *name) {
    for (size_t i = 0; i < count; i++)
        if (strcmp(operations[i].name, name) == 0)
            return &operations[i];
    fail(name);
    return NULL;
}

static uint64_t timed(const struct operation *it, size_t len, size_t times) {
    for (size_t i = 0; i < ROOM; i++)
        buffer[i] = (uint8_t)(i * 7 + 1);
    it->prepare(len);
    uint64_t begun = now();
    for (size_t i = 0; i < times; i++)
        it->run(len);
    return now() - begun;
}

int serve(const struct operation *operations, size_t count) {
    char line[256], name[128];
    while (fgets(line, sizeof line, stdin)) {
        size_t len, times;
        if (strcmp(line, "list\n") == 0) {
            for (size_t i = 0; i < count; i++)
                printf("%s ", operations[i].name);
            printf("\n");
        } else if (sscanf(line, "%127s %zu %zu", name, &len, &times) == 3 && len <= 65519) {
            printf("%" PRIu64 "\n", timed(find(operations, count, name), len, times));
        } else {
            fail(line);
        }
        fflush(stdout);
    }
    return 0;
}

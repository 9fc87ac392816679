/* Prints the level of the processor that the library has found. */
#include <stdint.h>
#include <stdio.h>

uint32_t found_level(void);

int main(void) {
    printf("%u\n", (unsigned)found_level());
    return 0;
}

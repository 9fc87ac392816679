/* For checks alone: the level of the processor that the static library here has found, and a lower one where the
   environment has NOISE_LEVEL, which is 1, 3 or 4, as in the names x86-64, x86-64-v3 and x86-64-v4. The word is hidden
   from what a shared library is linked with. */
#include <noise.h>
#include <stdint.h>
#include <stdio.h>
#include <stdlib.h>
#include <string.h>

extern uint32_t noise_processor_level;

/* The first hash lets the library find the level. */
uint32_t found_level(void) {
    static const char name[] = "Noise_NN_25519_ChaChaPoly_SHA256";
    noise_handshake h;
    noise_setup setup = {0};
    setup.e.present = 1;
    setup.e.bytes[0] = 1;
    if (noise_start(&h, (const uint8_t *)name, strlen(name), NULL, 0, &setup) != NOISE_OK)
        exit(2);
    return noise_processor_level;
}

void use_level(uint32_t level) {
    if (level > found_level() || (level != 1 && level != 3 && level != 4)) {
        fprintf(stderr, "level: this processor has no level %u\n", (unsigned)level);
        exit(2);
    }
    noise_processor_level = level;
}

__attribute__((constructor)) static void use_level_of_environment(void) {
    const char *wanted = getenv("NOISE_LEVEL");
    if (wanted)
        use_level((uint32_t)atoi(wanted));
}

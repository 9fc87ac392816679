/* Crashes in a call of the library: the buffer of noise_write isn't the program's. A debugger has to show who called
   whom (checks/dist/run). */
#include <noise.h>

int main(void) {
    static const char name[] = "Noise_NN_25519_ChaChaPoly_SHA256";
    noise_handshake handshake;
    noise_setup setup = {0};
    noise_result result;
    setup.e.present = 1;
    if (noise_start(&handshake, (const uint8_t *)name, sizeof name - 1, NULL, 0, &setup) != NOISE_OK) return 1;
    return (int)noise_write(&handshake, NULL, 0, (uint8_t *)64, 4096, &result);
}

// Package cloop calls the library from a loop in C: what a message costs without Go.
package cloop

// #cgo CFLAGS: -O2 -I${SRCDIR}/../../../../include
// #include "noise.h"
//
// static noise_sender sending, not_sending;
// static noise_receiver receiving, not_receiving;
// static unsigned char payload[NOISE_MAX_MESSAGE], message[NOISE_MAX_MESSAGE];
//
// // The result of X25519 is a constant: what a message costs doesn't depend on it.
// static uint32_t passed(noise_handshake *h, int writes, size_t *len) {
//     static const uint8_t answer[32] = {1};
//     noise_result result;
//     for (;;) {
//         uint32_t code = writes ? noise_write(h, payload, 0, message, sizeof message, &result)
//             : noise_read(h, message, *len, &result);
//         if (code == NOISE_OK && writes) *len = result.len;
//         if (code != NOISE_WANTED) return code;
//         noise_answer(h, result.of_static, result.remote, answer);
//     }
// }
//
// static int start(void) {
//     static const char name[] = "Noise_NN_25519_ChaChaPoly_SHA256";
//     noise_handshake h[2];
//     size_t len = 0;
//     for (uint8_t i = 0; i < 2; i++) {
//         noise_setup setup = {0};
//         setup.responder = i;
//         setup.e.present = 1;
//         setup.e.bytes[0] = (uint8_t)(i + 2);
//         if (noise_start(&h[i], (const uint8_t *)name, sizeof name - 1, payload, 0, &setup) != NOISE_OK) return 0;
//     }
//     for (int i = 0; i < 2; i++)
//         if (passed(&h[i], 1, &len) != NOISE_OK || passed(&h[!i], 0, &len) != NOISE_OK) return 0;
//     return noise_finish(&h[0], 0, &sending, &not_receiving) == NOISE_OK &&
//         noise_finish(&h[1], 0, &not_sending, &receiving) == NOISE_OK;
// }
//
// static int run(size_t count, size_t size) {
//     noise_result result;
//     for (size_t i = 0; i < count; i++)
//         if (noise_seal(&sending, payload, size, message, size + NOISE_TAG_LEN, &result) != NOISE_OK ||
//             noise_open(&receiving, message, size + NOISE_TAG_LEN, &result) != NOISE_OK) return 0;
//     return 1;
// }
import "C"

import _ "example.org/yulimosar/noise" // the library

// Start passes a handshake at both parties.
func Start() bool { return C.start() != 0 }

// Run seals and opens so many messages of a size.
func Run(count, size int) bool { return C.run(C.size_t(count), C.size_t(size)) != 0 }

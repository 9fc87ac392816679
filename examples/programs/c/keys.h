// X25519 and random bytes by OpenSSL, and files with keys.
#ifndef KEYS_H
#define KEYS_H

#include "noise.h"
#include <openssl/evp.h>

typedef struct {
    EVP_PKEY *secret;
    uint8_t public[32];
} key_pair;

// Prints why, and ends the program with status 1.
_Noreturn void die(const char *why);

// A new key pair; and the one whose secret key is in a file, which is made, for its owner alone, if it isn't there.
key_pair draw_pair(void);
key_pair pair_in(const char *file);
void forget_pair(key_pair *pair);

// A public key in a file. Whoever can change the file chooses whom the other party talks to.
void save_public(const char *file, const uint8_t key[32]);
void load_public(const char *file, uint8_t key[32]);

// Starts a handshake of a pattern ("XX" or "IK") with this static key pair and a new ephemeral one. `remote` is the
// other party's static public key where it has to be known beforehand, else NULL.
void start(noise_handshake *h, const char *pattern, uint8_t responder, const key_pair *ephemeral, const key_pair *own,
           const uint8_t *remote);

// noise_write, noise_read and noise_try_read, with each result of X25519 that they ask for. They return the
// code of the last call: NOISE_WANTED where there is no such result, since the other party's public key is one
// that no honest party has.
uint32_t write_message(noise_handshake *h, const key_pair *ephemeral, const key_pair *own, uint8_t *out, size_t out_len,
                       noise_result *result);
uint32_t read_message(noise_handshake *h, const key_pair *ephemeral, const key_pair *own, uint8_t *message, size_t len,
                      noise_result *result);
uint32_t try_message(noise_handshake *h, const key_pair *ephemeral, const key_pair *own, uint8_t *message, size_t len,
                     noise_result *result);

// Seconds by a clock that nobody sets.
double now(void);

#endif

// X25519 and random bytes by OpenSSL, and files with keys.
#include "keys.h"
#include <fcntl.h>
#include <stdbool.h>
#include <stdio.h>
#include <stdlib.h>
#include <string.h>
#include <time.h>
#include <unistd.h>

void die(const char *why) {
    fprintf(stderr, "channel: %s\n", why);
    exit(1);
}

double now(void) {
    struct timespec at;
    clock_gettime(CLOCK_MONOTONIC, &at);
    return (double)at.tv_sec + (double)at.tv_nsec / 1e9;
}

static void public_of(key_pair *pair) {
    size_t len = 32;
    if (!pair->secret || EVP_PKEY_get_raw_public_key(pair->secret, pair->public, &len) != 1) die("no key pair");
}

key_pair draw_pair(void) {
    key_pair pair = {.secret = EVP_PKEY_Q_keygen(NULL, NULL, "X25519")};
    public_of(&pair);
    return pair;
}

void forget_pair(key_pair *pair) {
    EVP_PKEY_free(pair->secret);                         // OpenSSL overwrites it
    pair->secret = NULL;
}

// Makes a file that only its owner can read. It must not be there yet.
static void save_secret(const char *file, const key_pair *pair) {
    uint8_t bytes[32];
    size_t len = 32;
    int it = open(file, O_WRONLY | O_CREAT | O_EXCL, 0600);
    if (it < 0 || EVP_PKEY_get_raw_private_key(pair->secret, bytes, &len) != 1) die(file);
    if (write(it, bytes, 32) != 32 || fsync(it) || close(it)) die(file);
    noise_wipe(bytes, sizeof bytes);
}

key_pair pair_in(const char *file) {
    uint8_t bytes[33];
    int it = open(file, O_RDONLY);
    if (it < 0) {
        key_pair pair = draw_pair();
        save_secret(file, &pair);
        return pair;
    }
    if (read(it, bytes, sizeof bytes) != 32 || close(it)) die(file);
    key_pair pair = {.secret = EVP_PKEY_new_raw_private_key(EVP_PKEY_X25519, NULL, bytes, 32)};
    public_of(&pair);
    noise_wipe(bytes, sizeof bytes);
    return pair;
}

void save_public(const char *file, const uint8_t key[32]) {
    char other[200];
    snprintf(other, sizeof other, "%s.%ld", file, (long)getpid());
    FILE *it = fopen(other, "wb");
    // It gets its name last, so that nobody reads half of it; and two servers that start at once write two files.
    if (!it || fwrite(key, 1, 32, it) != 32 || fclose(it) || rename(other, file)) die(file);
}

void load_public(const char *file, uint8_t key[32]) {
    FILE *it = fopen(file, "rb");
    if (!it || fread(key, 1, 32, it) != 32 || fclose(it)) die(file);
}

void start(noise_handshake *h, const char *pattern, uint8_t responder, const key_pair *ephemeral, const key_pair *own,
           const uint8_t *remote) {
    static const char prologue[] = "example channel 1";  // what both parties have to have the same
    char name[80];
    noise_setup setup = {.responder = responder, .e.present = 1, .s.present = 1, .remote_s.present = remote != NULL};
    memcpy(setup.e.bytes, ephemeral->public, 32);
    memcpy(setup.s.bytes, own->public, 32);
    if (remote) memcpy(setup.remote_s.bytes, remote, 32);
    snprintf(name, sizeof name, "Noise_%s_25519_ChaChaPoly_SHA256", pattern);
    uint32_t code = noise_start(h, (const uint8_t *)name, strlen(name), (const uint8_t *)prologue, strlen(prologue),
        &setup);
    if (code != NOISE_OK) die(noise_text(code));
}

typedef struct {
    const key_pair *ephemeral, *own;
} pairs;

// X25519 for the calls of a handshake. There is no result where OpenSSL refuses zeros, which come of a public key
// that no honest party has.
static int dh(void *context, uint8_t of_static, const uint8_t remote[32], uint8_t result[32]) {
    const pairs *p = context;
    size_t len = 32;
    EVP_PKEY *other = EVP_PKEY_new_raw_public_key(EVP_PKEY_X25519, NULL, remote, 32);
    EVP_PKEY_CTX *it = EVP_PKEY_CTX_new(of_static ? p->own->secret : p->ephemeral->secret, NULL);
    if (!other || !it || EVP_PKEY_derive_init(it) != 1 || EVP_PKEY_derive_set_peer(it, other) != 1) die("no X25519");
    bool is_one = EVP_PKEY_derive(it, result, &len) == 1;
    EVP_PKEY_CTX_free(it);
    EVP_PKEY_free(other);
    return is_one;
}

uint32_t write_message(noise_handshake *h, const key_pair *ephemeral, const key_pair *own, uint8_t *out, size_t out_len,
                       noise_result *result) {
    pairs p = {ephemeral, own};
    return noise_write_with(h, NULL, 0, out, out_len, result, dh, &p);
}

uint32_t read_message(noise_handshake *h, const key_pair *ephemeral, const key_pair *own, uint8_t *message, size_t len,
                      noise_result *result) {
    pairs p = {ephemeral, own};
    return noise_read_with(h, message, len, result, dh, &p);
}

uint32_t try_message(noise_handshake *h, const key_pair *ephemeral, const key_pair *own, uint8_t *message, size_t len,
                     noise_result *result) {
    pairs p = {ephemeral, own};
    return noise_try_read_with(h, message, len, result, dh, &p);
}

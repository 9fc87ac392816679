// The library of this repository, with X25519 by OpenSSL. Copy this file, and have it call your implementation.
#define PARTY_ONLY
#include "runner.c"
#include <noise.h>
#include <openssl/evp.h>
#include <stdlib.h>
#include <string.h>

struct party {
    noise_handshake handshake;
    noise_cipher ciphers[2]; // to send, to receive
    EVP_PKEY *own[2];        // ephemeral, static
    noise_key remote;
    uint8_t hash[32];
    int is_open, token;
};

static EVP_PKEY *key_of(const uint8_t secret[32], noise_key *public) {
    EVP_PKEY *key = EVP_PKEY_new_raw_private_key(EVP_PKEY_X25519, NULL, secret, 32);
    size_t len = 32;
    public->present = 1;
    EVP_PKEY_get_raw_public_key(key, public->bytes, &len);
    return key;
}

static void known(noise_key *at, int present, const uint8_t key[32]) {
    at->present = (uint8_t)present;
    memcpy(at->bytes, key, 32);
}

int party_start(const party_setup *from, party **made) {
    static const char suite[] = "_25519_ChaChaPoly_SHA256";
    const size_t len = strlen(from->protocol), own = sizeof suite - 1;
    if (strcmp(from->what, "name") && (len < own || strcmp(from->protocol + len - own, suite)))
        return PARTY_NOT_SUPPORTED;
    party *p = calloc(1, sizeof *p);
    const char *pattern = strcmp(from->what, "name") ? from->pattern : from->protocol;
    noise_setup setup = {.responder = (uint8_t)from->responder, .psk_count = (uint8_t)from->psk_count};
    if (!p) abort();
    if (from->keys.has_e) p->own[0] = key_of(from->keys.e, &setup.e);
    if (from->keys.has_s) p->own[1] = key_of(from->keys.s, &setup.s);
    known(&setup.remote_e, from->keys.has_re, from->keys.re);
    known(&setup.remote_s, from->keys.has_rs, from->keys.rs);
    memcpy(setup.psks, from->psks, sizeof setup.psks);
    uint32_t code = noise_start(&p->handshake, (const uint8_t *)pattern, strlen(pattern), from->prologue,
        from->prologue_len, &setup);
    if (code == NOISE_OK) *made = p;
    else party_end(p);
    return code == NOISE_OK ? PARTY_OK : PARTY_REFUSED;
}

void party_end(party *p) {
    EVP_PKEY_free(p->own[0]);
    EVP_PKEY_free(p->own[1]);
    noise_wipe(p, sizeof *p);
    free(p);
}

// Hands in the result of X25519 that a call has asked for; 0 if there is none.
static int answer(party *p, const noise_result *result) {
    uint8_t agreed[32];
    size_t len = sizeof agreed;
    EVP_PKEY *remote = EVP_PKEY_new_raw_public_key(EVP_PKEY_X25519, NULL, result->remote, 32);
    EVP_PKEY_CTX *context = EVP_PKEY_CTX_new(p->own[result->of_static], NULL);
    int done = EVP_PKEY_derive_init(context) == 1 && EVP_PKEY_derive_set_peer(context, remote) == 1
        && EVP_PKEY_derive(context, agreed, &len) == 1;
    EVP_PKEY_CTX_free(context);
    EVP_PKEY_free(remote);
    return done && noise_answer(&p->handshake, result->of_static, result->remote, agreed) == NOISE_OK;
}

// After the last message: the hash and the cipher states.
static void passed(party *p) {
    noise_stage_result stage;
    if (noise_stage(&p->handshake, &stage) != NOISE_OK || stage.passed != stage.messages) return;
    // (without a static key of the other party, `remote` says so)
    if (noise_hash(&p->handshake, p->hash) != NOISE_OK || noise_remote_static(&p->handshake, &p->remote) != NOISE_OK)
        return;
    p->is_open = noise_finish_ciphers(&p->handshake, &p->ciphers[0], &p->ciphers[1]) == NOISE_OK;
}

int party_write(party *p, const uint8_t *payload, size_t len, uint8_t *out, size_t *out_len) {
    noise_result result;
    uint32_t code;
    p->token = -1;
    if (p->is_open) {
        if (len > PARTY_ROOM - 16) return PARTY_REFUSED;
        memcpy(out, payload, len);
        code = noise_cipher_encrypt(&p->ciphers[0], NULL, 0, out, PARTY_ROOM, len, &result);
    } else {
        while ((code = noise_write(&p->handshake, payload, len, out, PARTY_ROOM, &result)) == NOISE_WANTED
            && answer(p, &result))
            continue;
        if (code == NOISE_OK) passed(p);
    }
    if (code != NOISE_OK) return PARTY_REFUSED;
    *out_len = result.len;
    return PARTY_OK;
}

int party_read(party *p, const uint8_t *message, size_t len, uint8_t *out, size_t *out_len) {
    noise_result result;
    uint32_t code;
    p->token = -1;
    memcpy(out, message, len);
    if (p->is_open) {
        code = noise_cipher_decrypt(&p->ciphers[1], NULL, 0, out, len, &result);
    } else {
        while ((code = noise_read(&p->handshake, out, len, &result)) == NOISE_WANTED && answer(p, &result)) continue;
        if (code == NOISE_SHORT || code == NOISE_TAG) p->token = result.token;
        if (code == NOISE_OK) passed(p);
    }
    if (code != NOISE_OK) return PARTY_REFUSED;
    memmove(out, out + result.from, result.len);
    *out_len = result.len;
    return PARTY_OK;
}

int party_rekey(party *p, int receive) {
    return noise_cipher_rekey(&p->ciphers[receive]) == NOISE_OK ? PARTY_OK : PARTY_REFUSED;
}

int party_set_nonce(party *p, int receive, uint64_t nonce) {
    return noise_cipher_set_nonce(&p->ciphers[receive], nonce) == NOISE_OK ? PARTY_OK : PARTY_REFUSED;
}

int party_hash(party *p, uint8_t hash[32]) {
    memcpy(hash, p->hash, 32);
    return PARTY_OK;
}

int party_remote_static(party *p, uint8_t key[32]) {
    memcpy(key, p->remote.bytes, 32);
    return PARTY_OK;
}

int party_token(const party *p) { return p->token; }

int party_frame(const uint8_t *message, size_t len, uint8_t *out, size_t *out_len) {
    noise_stream_result result;
    memcpy(out + 2, message, len);
    if (noise_frame_message(out, PARTY_ROOM, len, &result) != NOISE_OK) return PARTY_REFUSED;
    *out_len = result.len;
    return PARTY_OK;
}

int party_unframe(const uint8_t *bytes, size_t len, size_t *from, long *message_len) {
    noise_stream_result result;
    *message_len = -1;
    if (noise_frame_find(bytes, len, &result) == NOISE_OK) {
        *from = result.from;
        *message_len = (long)result.len;
    }
    return PARTY_OK;
}

void party_sha256(const uint8_t *data, size_t len, uint8_t digest[32]) {
    EVP_Digest(data, len, digest, NULL, EVP_sha256(), NULL);
}

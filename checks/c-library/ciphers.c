// Cipher states: beside the transport of the same handshake, with associated data, with named
// nonces, and what is refused.
#include "ends.h"

enum { ROOM = 120, ROUNDS = 20 };

static uint8_t first[NOISE_MAX_MESSAGE + 20], second[NOISE_MAX_MESSAGE + 20], payload[NOISE_MAX_MESSAGE + 20];

static void open_pair(const char *pattern, uint64_t interval, noise_cipher send[2], noise_cipher receive[2],
                      transport t[2]) {
    plan p = plan_of(pattern, -1);
    end ends[2] = {begin(&p, 0), begin(&p, 1)};
    pass_all(&p, ends);
    for (unsigned role = 0; role < 2; role++) {
        noise_handshake old = ends[role].h;
        MUST(finish_cipher_states(&ends[role].h, &send[role], &receive[role]) == NOISE_OK);
        MUST(!memcmp(&old, &ends[role].h, sizeof old));
        MUST(finish(&ends[role].h, interval, &t[role]) == NOISE_OK);
    }
}

static void must_be_at(const noise_cipher *c, uint64_t nonce) {
    uint64_t at;
    MUST(noise_cipher_nonce(c, &at) == NOISE_OK && at == nonce);
}

// Without associated data a message is the transport message of its nonce; a rekey after each `interval`
// messages is the transport's.
static void check_beside_transport(uint64_t interval) {
    noise_cipher send[2], receive[2];
    transport t[2];
    noise_result result;
    open_pair("XX", interval, send, receive, t);
    for (unsigned n = 0; n < ROUNDS; n++)
        for (unsigned role = 0; role < 2; role++) {
            size_t len = n % 50;
            fill(payload, len, n);
            must_be_at(&send[role], n);
            memcpy(first, payload, len);
            memset(first + len, 0x55, ROOM - len);
            MUST(noise_cipher_encrypt(&send[role], NULL, 0, first, ROOM, len, &result) == NOISE_OK && result.from == 0
                && result.len == len + 16);
            MUST(first[len + 16] == 0x55);
            MUST(noise_seal(&t[role].s, payload, len, second, ROOM, &result) == NOISE_OK
                && !memcmp(first, second, len + 16));
            MUST(noise_cipher_decrypt(&receive[!role], NULL, 0, first, len + 16, &result) == NOISE_OK
                && result.from == 0 && result.len == len);
            MUST(!memcmp(first, payload, len));
            if (interval && (n + 1) % interval == 0) {
                MUST(noise_cipher_rekey(&send[role]) == NOISE_OK && noise_cipher_rekey(&receive[!role]) == NOISE_OK);
                must_be_at(&send[role], n + 1);
            }
        }
}

static void must_not_decrypt(noise_cipher *c, const uint8_t *ad, size_t ad_len, const uint8_t *message, size_t len,
                             uint32_t code) {
    noise_cipher old = *c;
    noise_result result;
    memcpy(second, message, len);
    MUST(noise_cipher_decrypt(c, ad, ad_len, second, len, &result) == code && !memcmp(&old, c, sizeof old)
        && !memcmp(second, message, len));
}

static void must_not_encrypt(noise_cipher *c, const uint8_t *ad, size_t ad_len, size_t room, size_t len,
                             uint32_t code) {
    noise_cipher old = *c;
    noise_result result;
    memset(second, 0x33, sizeof second);
    MUST(noise_cipher_encrypt(c, ad, ad_len, second, room, len, &result) == code && !memcmp(&old, c, sizeof old));
    for (size_t i = 0; i < sizeof second; i++) MUST(second[i] == 0x33);
}

// The associated data and each byte of the message count; nonces are set in any order.
static void check_data(void) {
    static const uint8_t head[] = "a header of a packet";
    noise_cipher send[2], receive[2];
    transport t[2];
    noise_result result;
    uint8_t sealed[4][ROOM];
    open_pair("IK", 0, send, receive, t);
    for (unsigned n = 0; n < 4; n++) {
        fill(payload, 30, n);
        memcpy(sealed[n], payload, 30);
        MUST(noise_cipher_encrypt(&send[0], head, sizeof head, sealed[n], ROOM, 30, &result) == NOISE_OK
            && result.len == 46);
    }
    must_not_decrypt(&receive[1], head, sizeof head - 1, sealed[0], 46, NOISE_TAG);
    must_not_decrypt(&receive[1], NULL, 0, sealed[0], 46, NOISE_TAG);
    must_not_decrypt(&receive[1], head, sizeof head, sealed[1], 46, NOISE_TAG);
    for (size_t len = 0; len < 46; len++)
        must_not_decrypt(&receive[1], head, sizeof head, sealed[0], len, len < 16 ? NOISE_SHORT : NOISE_TAG);
    for (size_t i = 0; i < 46; i++) {
        sealed[0][i] ^= 1;
        must_not_decrypt(&receive[1], head, sizeof head, sealed[0], 46, NOISE_TAG);
        sealed[0][i] ^= 1;
    }
    for (unsigned i = 4; i; i--) {
        fill(payload, 30, i - 1);
        MUST(noise_cipher_set_nonce(&receive[1], i - 1) == NOISE_OK);
        MUST(noise_cipher_decrypt(&receive[1], head, sizeof head, sealed[i - 1], 46, &result) == NOISE_OK
            && result.len == 30);
        MUST(!memcmp(sealed[i - 1], payload, 30));
        must_be_at(&receive[1], i);
    }
}

// The lengths that are too great, the last nonce, and the other direction's struct.
static void check_refusals_of_ciphers(void) {
    static const uint8_t head[NOISE_MAX_MESSAGE + 1];
    noise_cipher send[2], receive[2];
    transport t[2];
    noise_result result;
    open_pair("NN", 0, send, receive, t);
    for (size_t room = 0; room < 26; room++) must_not_encrypt(&send[0], NULL, 0, room, 10, NOISE_ROOM);
    must_not_encrypt(&send[0], NULL, 0, 0, SIZE_MAX, NOISE_ROOM);
    must_not_encrypt(&send[0], NULL, 0, sizeof second, NOISE_MAX_MESSAGE - 15, NOISE_TOO_LONG);
    must_not_encrypt(&send[0], head, sizeof head, sizeof second, 10, NOISE_LENGTH);
    must_not_encrypt(&receive[0], NULL, 0, sizeof second, 10, NOISE_STRUCT);
    MUST(noise_cipher_encrypt(&send[0], head, NOISE_MAX_MESSAGE, first, sizeof first, NOISE_MAX_MESSAGE - 16, &result)
        == NOISE_OK);
    MUST(result.len == NOISE_MAX_MESSAGE);
    must_not_decrypt(&receive[1], head, NOISE_MAX_MESSAGE, first, NOISE_MAX_MESSAGE + 1, NOISE_TOO_LONG);
    must_not_decrypt(&receive[1], head, sizeof head, first, NOISE_MAX_MESSAGE, NOISE_LENGTH);
    must_not_decrypt(&send[1], head, NOISE_MAX_MESSAGE, first, NOISE_MAX_MESSAGE, NOISE_STRUCT);
    must_not_decrypt(&receive[0], head, NOISE_MAX_MESSAGE, first, NOISE_MAX_MESSAGE, NOISE_TAG);
    MUST(noise_cipher_decrypt(&receive[1], head, NOISE_MAX_MESSAGE, first, NOISE_MAX_MESSAGE, &result) == NOISE_OK
        && result.len == NOISE_MAX_MESSAGE - 16);
    MUST(noise_cipher_set_nonce(&send[0], UINT64_MAX) == NOISE_OK
        && noise_cipher_set_nonce(&receive[1], UINT64_MAX) == NOISE_OK);
    must_not_encrypt(&send[0], NULL, 0, sizeof second, 10, NOISE_EXHAUSTED);
    must_not_decrypt(&receive[1], NULL, 0, first, 30, NOISE_EXHAUSTED);
    MUST(noise_cipher_set_nonce(&send[0], UINT64_MAX - 1) == NOISE_OK);
    MUST(noise_cipher_encrypt(&send[0], NULL, 0, first, ROOM, 10, &result) == NOISE_OK);
    must_not_encrypt(&send[0], NULL, 0, sizeof second, 10, NOISE_EXHAUSTED);
}

// Of a one-way pattern the responder's cipher state has no key, and no call goes on with it.
static void check_one_way(void) {
    for (unsigned i = 0; i < 3; i++) {
        noise_cipher send[2], receive[2];
        transport t[2];
        noise_result result;
        uint64_t nonce = 77;
        open_pair(patterns[i], 0, send, receive, t);
        noise_cipher *discarded[2] = {&send[1], &receive[0]};
        must_not_encrypt(&send[1], NULL, 0, sizeof second, 10, NOISE_ONE_WAY);
        must_not_decrypt(&receive[0], NULL, 0, first, 30, NOISE_ONE_WAY);
        for (unsigned n = 0; n < 2; n++) {
            noise_cipher old = *discarded[n];
            unsigned set = 0;
            for (size_t at = 8; at < sizeof old; at++) set += old.opaque[at] != 0;
            MUST(set == 0);
            MUST(noise_cipher_rekey(discarded[n]) == NOISE_ONE_WAY
                && noise_cipher_set_nonce(discarded[n], 5) == NOISE_ONE_WAY);
            MUST(noise_cipher_nonce(discarded[n], &nonce) == NOISE_ONE_WAY && nonce == 77
                && !memcmp(&old, discarded[n], sizeof old));
        }
        MUST(noise_cipher_encrypt(&send[0], NULL, 0, first, ROOM, 10, &result) == NOISE_OK);
        MUST(noise_cipher_decrypt(&receive[1], NULL, 0, first, 26, &result) == NOISE_OK);
    }
}

// A struct of which one byte of the mark differs holds nothing, nor does one of zeros.
static void check_marks(void) {
    noise_cipher send[2], receive[2];
    transport t[2];
    uint64_t nonce;
    open_pair("XX", 0, send, receive, t);
    for (unsigned i = 0; i < 4; i++)
        for (unsigned change = 1; change < 256; change++) {
            noise_cipher sends = send[0], receives = receive[0];
            sends.opaque[i] ^= (uint8_t)change, receives.opaque[i] ^= (uint8_t)change;
            if (!memcmp(sends.opaque, receive[0].opaque, 4) || !memcmp(receives.opaque, send[0].opaque, 4)) continue;
            must_not_encrypt(&sends, NULL, 0, sizeof second, 10, NOISE_STRUCT);
            must_not_decrypt(&receives, NULL, 0, first, 30, NOISE_STRUCT);
            MUST(noise_cipher_nonce(&sends, &nonce) == NOISE_STRUCT
                && noise_cipher_set_nonce(&receives, 3) == NOISE_STRUCT);
            MUST(noise_cipher_rekey(&sends) == NOISE_STRUCT);
        }
    noise_cipher zeros = {{0}};
    must_not_encrypt(&zeros, NULL, 0, sizeof second, 10, NOISE_STRUCT);
    must_not_decrypt(&zeros, NULL, 0, first, 30, NOISE_STRUCT);
    memcpy(&zeros, &t[0].s, sizeof zeros);
    must_not_encrypt(&zeros, NULL, 0, sizeof second, 10, NOISE_STRUCT);
}

void check_ciphers(void) {
    check_beside_transport(0);
    check_beside_transport(3);
    check_data();
    check_refusals_of_ciphers();
    check_one_way();
    check_marks();
}

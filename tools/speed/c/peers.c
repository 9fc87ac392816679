/* What a program in C would seal with otherwise, with a key and a nonce, in place: libsodium, OpenSSL and nettle. */
#include "server.h"
#include <nettle/chacha-poly1305.h>
#include <openssl/evp.h>
#include <sodium.h>

static uint8_t key[32] = {1, 2, 3}, tag[16], nonce[12] = {7};
static EVP_CIPHER_CTX *sealing;

static void prepare(size_t len) {
    (void)len;
    if (!sealing) {
        sealing = EVP_CIPHER_CTX_new();
        if (!EVP_EncryptInit_ex(sealing, EVP_chacha20_poly1305(), NULL, key, nonce))
            fail("EVP_EncryptInit_ex");
    }
}

static void sodium_seal(size_t len) {
    unsigned long long got;
    crypto_aead_chacha20poly1305_ietf_encrypt_detached(buffer, tag, &got, buffer, len, NULL, 0, NULL, nonce, key);
}

static void sodium_transport(size_t len) {
    sodium_seal(len);
    if (crypto_aead_chacha20poly1305_ietf_decrypt_detached(buffer, NULL, buffer, len, tag, NULL, 0, nonce, key))
        fail("libsodium");
}

static void openssl_seal(size_t len) {
    int got;
    if (!EVP_EncryptInit_ex(sealing, NULL, NULL, NULL, nonce) ||
        !EVP_EncryptUpdate(sealing, buffer, &got, buffer, (int)len) ||
        !EVP_EncryptFinal_ex(sealing, buffer + len, &got) ||
        !EVP_CIPHER_CTX_ctrl(sealing, EVP_CTRL_AEAD_GET_TAG, 16, tag))
        fail("OpenSSL");
}

static void nettle_seal(size_t len) {
    struct chacha_poly1305_ctx context;
    chacha_poly1305_set_key(&context, key);
    chacha_poly1305_set_nonce(&context, nonce);
    chacha_poly1305_encrypt(&context, len, buffer, buffer);
    chacha_poly1305_digest(&context, 16, tag);
}

int main(void) {
    if (sodium_init() < 0)    /* it chooses its code for this processor */
        fail("sodium_init");
    static const struct operation operations[] = {
        {"libsodium.seal", sodium_seal, prepare},
        {"libsodium.transport", sodium_transport, prepare},
        {"OpenSSL.seal", openssl_seal, prepare},
        {"nettle.seal", nettle_seal, prepare},
    };
    return serve(operations, sizeof operations / sizeof *operations);
}

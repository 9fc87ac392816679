/* The installed library, through its header. X25519 costs nothing here: each result is the same 32 bytes. */
#include "server.h"
#include <noise.h>

static noise_sender sender;
static noise_receiver receiver;
static noise_stream_sender stream_sender;
static noise_stream_receiver stream_receiver;
static const uint8_t agreed[32] = {9, 8, 7};

static void must(uint32_t code, const char *what) {
    if (code != NOISE_OK)
        fail(what);
}

static void pass(noise_handshake *writer, noise_handshake *reader) {
    uint8_t message[256];
    noise_result written, read;
    uint32_t code;
    while ((code = noise_write(writer, NULL, 0, message, sizeof message, &written)) == NOISE_WANTED)
        noise_answer(writer, written.of_static, written.remote, agreed);
    must(code, "noise_write");
    while ((code = noise_read(reader, message, written.len, &read)) == NOISE_WANTED)
        noise_answer(reader, read.of_static, read.remote, agreed);
    must(code, "noise_read");
}

static void start(noise_handshake *h, const char *name, uint8_t responder, uint8_t has_static) {
    noise_setup setup = {0};
    setup.responder = responder;
    setup.e.present = 1;
    setup.s.present = has_static;
    for (int i = 0; i < 32; i++) {
        setup.e.bytes[i] = (uint8_t)(i + 1);
        setup.s.bytes[i] = (uint8_t)(i + 2);
    }
    must(noise_start(h, (const uint8_t *)name, strlen(name), NULL, 0, &setup), "noise_start");
}

static void shake(noise_handshake *client, noise_handshake *server, const char *name, int messages,
                  uint8_t has_static) {
    start(client, name, 0, has_static);
    start(server, name, 1, has_static);
    for (int i = 0; i < messages; i++)
        pass(i % 2 ? server : client, i % 2 ? client : server);
}

static void whole(const char *name, int messages, uint8_t has_static) {
    noise_handshake client, server;
    noise_receiver unused;
    noise_sender other_sender;
    shake(&client, &server, name, messages, has_static);
    must(noise_finish(&client, 0, &sender, &unused), "noise_finish");
    must(noise_finish(&server, 0, &other_sender, &receiver), "noise_finish");
}

static void run_nn(size_t len) {
    (void)len;
    whole("Noise_NN_25519_ChaChaPoly_SHA256", 2, 0);
}

static void run_xx(size_t len) {
    (void)len;
    whole("Noise_XX_25519_ChaChaPoly_SHA256", 3, 1);
}

static void prepare_streams(size_t len) {
    noise_handshake client, server;
    noise_stream_sender other_sender;
    noise_stream_receiver unused;
    (void)len;
    shake(&client, &server, "Noise_NN_25519_ChaChaPoly_SHA256", 2, 0);
    must(noise_finish_stream(&client, 0, &stream_sender, &unused), "noise_finish_stream");
    must(noise_finish_stream(&server, 0, &other_sender, &stream_receiver), "noise_finish_stream");
}

static void run_seal(size_t len) {
    noise_result result;
    must(noise_seal_in_place(&sender, buffer, len + 16, len, &result), "noise_seal_in_place");
}

static void run_transport(size_t len) {
    noise_result result;
    run_seal(len);
    must(noise_open(&receiver, buffer, len + 16, &result), "noise_open");
}

static void run_stream(size_t len) {
    noise_stream_result result;
    must(noise_stream_write(&stream_sender, buffer, len, other, len + 18, &result), "noise_stream_write");
    must(noise_stream_read(&stream_receiver, other, len + 18, &result), "noise_stream_read");
}

int main(void) {
    static const struct operation operations[] = {
        {"seal", run_seal, run_nn},
        {"transport", run_transport, run_nn},
        {"stream", run_stream, prepare_streams},
        {"NN", run_nn, run_nn},
        {"XX", run_xx, run_xx},
    };
    return serve(operations, sizeof operations / sizeof *operations);
}

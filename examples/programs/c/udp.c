// A channel of datagrams over UDP on 127.0.0.1, port 4042 if no other is given: udp server [PORT]; or udp client TEXT
// [PORT], which sends the text, and the server sends it back.
//
// The network may lose a message, and anybody may send one. So each party sends again what isn't answered, and a
// message that is refused leaves its handshake as it was.
#include "keys.h"
#include <arpa/inet.h>
#include <poll.h>
#include <stdbool.h>
#include <stdio.h>
#include <stdlib.h>
#include <string.h>
#include <sys/socket.h>
#include <unistd.h>

enum { LONGEST = 1200, RESEND_MS = 300 };
static const double SECONDS = 10;

typedef struct {
    noise_datagram_sender sender;
    noise_datagram_receiver receiver;
} network;

// The next datagram, or 0 where none comes in time.
static size_t receive_one(int socket, uint8_t bytes[LONGEST], int ms) {
    struct pollfd it = {.fd = socket, .events = POLLIN};
    if (poll(&it, 1, ms) <= 0) return 0;
    ssize_t len = recv(socket, bytes, LONGEST, 0);
    return len > 0 ? (size_t)len : 0;
}

static void finish(noise_handshake *h, key_pair *ephemeral, network *n) {
    uint32_t code = noise_finish_datagrams(h, 64, &n->sender, &n->receiver);
    if (code != NOISE_OK) die(noise_text(code));
    forget_pair(ephemeral);
    noise_wipe(h, sizeof *h);
    noise_wipe_stack();
}

static void send_text(int socket, network *n, const uint8_t *text, size_t len) {
    uint8_t out[LONGEST];
    noise_result result;
    uint32_t code = noise_datagram_seal(&n->sender, text, len, out, sizeof out, &result);
    if (code != NOISE_OK) die(noise_text(code));
    send(socket, out, result.len, 0);                      // it may be lost
}

// Opens a datagram, if it is one of the other party that wasn't opened before. Any other one is dropped.
static bool take_text(network *n, uint8_t *datagram, size_t len, noise_result *result) {
    return noise_datagram_open(&n->receiver, datagram, len, result) == NOISE_OK;
}

static void run_client(int socket, const char *text) {
    noise_handshake h;
    noise_result result, read;
    network n;
    uint8_t expected[32], first[LONGEST], bytes[LONGEST];
    double deadline = now() + SECONDS;
    key_pair own = pair_in("client.secret"), ephemeral = draw_pair();
    load_public("server.public", expected);
    start(&h, "IK", 0, &ephemeral, &own, expected);      // with IK only the server that has the expected key can answer
    if (write_message(&h, &ephemeral, &own, first, sizeof first, &result) != NOISE_OK) die("no first message");
    size_t len;
    do {
        if (now() > deadline) die("no answer");
        send(socket, first, result.len, 0);
        len = receive_one(socket, bytes, RESEND_MS);
    } while (!len || try_message(&h, &ephemeral, &own, bytes, len, &read) != NOISE_OK);
    finish(&h, &ephemeral, &n);
    do {
        if (now() > deadline) die("no answer");
        send_text(socket, &n, (const uint8_t *)text, strlen(text));
        len = receive_one(socket, bytes, RESEND_MS);
    } while (!len || !take_text(&n, bytes, len, &result));
    printf("client: the server says: %.*s\n", (int)result.len, (const char *)bytes + result.from);
    noise_wipe(&n, sizeof n);
    forget_pair(&own);
}

// Waits for a first message, and answers it. A wrong one is dropped, with the handshake that it was tried on.
static size_t answer_client(int socket, const key_pair *own, network *n, uint8_t first[LONGEST], size_t *first_len,
                            uint8_t second[LONGEST]) {
    for (;;) {
        struct sockaddr_in from;
        socklen_t size = sizeof from;
        noise_handshake h;
        noise_result result;
        uint8_t message[LONGEST];
        ssize_t len = recvfrom(socket, first, LONGEST, 0, (struct sockaddr *)&from, &size);
        if (len < 0) die("no datagram");
        key_pair ephemeral = draw_pair();
        start(&h, "IK", 1, &ephemeral, own, NULL);
        memcpy(message, first, (size_t)len);             // reading changes it
        if (read_message(&h, &ephemeral, own, message, (size_t)len, &result) != NOISE_OK) {
            forget_pair(&ephemeral);
            continue;
        }
        if (write_message(&h, &ephemeral, own, second, LONGEST, &result) != NOISE_OK) die("no second message");
        finish(&h, &ephemeral, n);
        if (connect(socket, (struct sockaddr *)&from, sizeof from)) die("no way back");
        *first_len = (size_t)len;
        return result.len;
    }
}

static void run_server(int socket) {
    network n;
    uint8_t first[LONGEST], second[LONGEST], bytes[LONGEST];
    size_t first_len, len;
    noise_result result;
    key_pair own = pair_in("server.secret");
    save_public("server.public", own.public);
    size_t second_len = answer_client(socket, &own, &n, first, &first_len, second);
    double deadline = now() + SECONDS;
    send(socket, second, second_len, 0);
    do {
        if (now() > deadline) die("no text");
        len = receive_one(socket, bytes, RESEND_MS);
        // The client sends its first message again where the second was lost: so the server does too.
        if (len == first_len && !memcmp(bytes, first, len)) send(socket, second, second_len, 0);
    } while (!len || !take_text(&n, bytes, len, &result));
    printf("server: a client says: %.*s\n", (int)result.len, (const char *)bytes + result.from);
    // Until the client is content, which it doesn't say: so for a second after its last datagram.
    uint8_t text[LONGEST];
    size_t text_len = result.len;
    memcpy(text, bytes + result.from, text_len);
    do {
        send_text(socket, &n, text, text_len);
        do len = receive_one(socket, bytes, 1000);
        while (len && !take_text(&n, bytes, len, &result));
    } while (len);
    noise_wipe(&n, sizeof n);
    forget_pair(&own);
}

int main(int count, char **words) {
    bool is_server = count >= 2 && count <= 3 && !strcmp(words[1], "server"),
         is_client = count >= 3 && count <= 4 && !strcmp(words[1], "client");
    if (!is_server && !is_client) die("usage: udp server [PORT], or udp client TEXT [PORT]");
    int places = is_server ? 2 : 3;                      // of the words in front of the port
    if (is_client && strlen(words[2]) > LONGEST - NOISE_DATAGRAM_OVERHEAD) die("the text is too long");
    struct sockaddr_in at = {.sin_family = AF_INET, .sin_addr.s_addr = htonl(INADDR_LOOPBACK)};
    at.sin_port = htons(count > places ? (uint16_t)atoi(words[places]) : 4042);
    int it = socket(AF_INET, SOCK_DGRAM, 0);
    if (it < 0) die("no socket");
    if (is_server ? bind(it, (struct sockaddr *)&at, sizeof at) : connect(it, (struct sockaddr *)&at, sizeof at))
        die("the port isn't free");
    if (is_server)
        run_server(it);
    else
        run_client(it, words[2]);
    close(it);
    return 0;
}

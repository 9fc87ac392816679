// A secure channel over a TCP connection, on the library.
#include "channel.h"
#include <errno.h>
#include <poll.h>
#include <string.h>
#include <sys/socket.h>
#include <unistd.h>

enum { PART = 16384 };                                   // a frame has at most so many bytes of ours
static const double HANDSHAKE_SECONDS = 10, NO_DEADLINE = -1;

// Waits until the socket can be read or written.
static void wait_for(int socket, short event, double deadline) {
    struct pollfd it = {.fd = socket, .events = event};
    for (;;) {
        double seconds = deadline - now();
        if (deadline != NO_DEADLINE && seconds <= 0) die("the handshake took too long");
        int ready = poll(&it, 1, deadline == NO_DEADLINE ? -1 : (int)(seconds * 1000) + 1);
        if (ready > 0) return;
        if (ready < 0 && errno != EINTR) die("poll fails");
    }
}

static void send_all(int socket, const uint8_t *at, size_t len, double deadline) {
    while (len) {
        wait_for(socket, POLLOUT, deadline);
        ssize_t some = send(socket, at, len, MSG_NOSIGNAL | MSG_DONTWAIT);
        if (some < 0 && errno != EAGAIN && errno != EINTR) die("the connection broke off");
        if (some > 0) at += some, len -= (size_t)some;
    }
}

// Receives some bytes after those that are held. False at the end of the connection.
static bool receive_some(channel *c, double deadline) {
    for (;;) {
        wait_for(c->socket, POLLIN, deadline);
        ssize_t some = recv(c->socket, c->buffer + c->held, sizeof c->buffer - c->held, MSG_DONTWAIT);
        if (some < 0 && errno != EAGAIN && errno != EINTR) die("the connection broke off");
        if (some < 0) continue;
        c->held += (size_t)some;
        return some > 0;
    }
}

// Drops the first bytes of what is held.
static void drop(channel *c, size_t count) {
    c->held -= count;
    memmove(c->buffer, c->buffer + count, c->held);
}

static void pass_message(channel *c, noise_handshake *h, bool writes, const key_pair *ephemeral, const key_pair *own,
                         double deadline) {
    noise_result result;
    noise_stream_result frame;
    uint32_t code;
    if (writes) {
        static uint8_t out[NOISE_MAX_FRAME];
        code = write_message(h, ephemeral, own, out + 2, sizeof out - 2, &result);
        if (code == NOISE_OK) code = noise_frame_message(out, sizeof out, result.len, &frame);
        if (code == NOISE_OK) send_all(c->socket, out, frame.len, deadline);
    } else {
        while (noise_frame_find(c->buffer, c->held, &frame) == NOISE_MORE)
            if (!receive_some(c, deadline)) die("the connection ended in the handshake");
        code = read_message(h, ephemeral, own, c->buffer + frame.from, frame.len, &result);
        drop(c, frame.used);
    }
    if (code != NOISE_OK) die("the handshake was refused");  // tell nobody else why
}

void open_channel(channel *c, int socket, const char *pattern, uint8_t responder, const key_pair *own,
                  const uint8_t *remote, noise_key *remote_key) {
    noise_handshake h;
    noise_stage_result stage;
    double deadline = now() + HANDSHAKE_SECONDS;
    key_pair ephemeral = draw_pair();                    // a new one for each handshake
    *c = (channel){.socket = socket};
    start(&h, pattern, responder, &ephemeral, own, remote);
    while (noise_stage(&h, &stage) == NOISE_OK && stage.passed < stage.messages)
        pass_message(c, &h, stage.writes_next, &ephemeral, own, deadline);
    if (noise_remote_static(&h, remote_key) != NOISE_OK) die("no key");
    // New keys after each 1000 frames.
    if (noise_finish_stream(&h, 1000, &c->sender, &c->receiver) != NOISE_OK) die("the handshake isn't done");
    forget_pair(&ephemeral);
    noise_wipe(&h, sizeof h);                            // it has the results of X25519
    noise_wipe_stack();
}

void send_bytes(channel *c, const void *bytes, size_t len) {
    uint8_t out[PART + NOISE_STREAM_OVERHEAD];
    const uint8_t *at = bytes;
    noise_stream_result result;
    while (len) {
        uint32_t code = noise_stream_write(&c->sender, at, len < PART ? len : PART, out, sizeof out, &result);
        if (code != NOISE_OK) die(noise_text(code));
        send_all(c->socket, out, result.len, NO_DEADLINE);
        at += result.used, len -= result.used;
    }
}

void end_bytes(channel *c) {
    uint8_t out[NOISE_STREAM_OVERHEAD];
    noise_stream_result result;
    uint32_t code = noise_stream_end(&c->sender, out, sizeof out, &result);
    if (code != NOISE_OK) die(noise_text(code));
    send_all(c->socket, out, result.len, NO_DEADLINE);
}

// Opens the next payload. False at the end of the other party's bytes.
static bool open_next(channel *c) {
    noise_stream_result result;
    for (;;) {
        uint32_t code = noise_stream_read(&c->receiver, c->buffer, c->held, &result);
        if (code == NOISE_OK) {
            c->from = result.from, c->left = result.len, c->used = result.used;
            return true;
        }
        if (code == NOISE_CLOSED) return false;          // the end came at an earlier call
        if (code == NOISE_END) {
            drop(c, result.used);
            return false;
        }
        // Then nothing more is read or sent: no end either.
        if (code != NOISE_MORE) die("a message was changed, or came twice");
        if (!receive_some(c, NO_DEADLINE)) die("the connection was cut: more was to come");
    }
}

size_t receive_bytes(channel *c, void *bytes, size_t len) {
    if (!c->left && !open_next(c)) return 0;
    size_t some = len < c->left ? len : c->left;
    memcpy(bytes, c->buffer + c->from, some);
    c->from += some, c->left -= some;
    if (!c->left) drop(c, c->used);
    return some;
}

void close_channel(channel *c) {
    close(c->socket);
    noise_wipe(c, sizeof *c);
}

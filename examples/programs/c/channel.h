// A secure channel over a TCP connection, on the library: what client.c and server.c have in common.
#ifndef CHANNEL_H
#define CHANNEL_H

#include "keys.h"
#include <stdbool.h>

typedef struct {
    int socket;
    noise_stream_sender sender;
    noise_stream_receiver receiver;
    uint8_t buffer[NOISE_MAX_FRAME];                     // what came and isn't used yet: `held` bytes
    size_t held;
    size_t from, left;                                   // where the payload's next byte is, and how many are left
    size_t used;                                         // the buffer's first bytes, which that payload's frame takes
} channel;

// Runs the handshake of a pattern, all of it within 10 seconds, and leaves the channel in *c and the other party's
// static key in *remote_key. The program ends if it fails. `remote` is as for start.
void open_channel(channel *c, int socket, const char *pattern, uint8_t responder, const key_pair *own,
                  const uint8_t *remote, noise_key *remote_key);

// Sends bytes; and ends them: the other party knows then that it has all. Nothing can be sent after that.
void send_bytes(channel *c, const void *bytes, size_t len);
void end_bytes(channel *c);

// Receives up to `len` bytes, at least one; 0 where the other party has ended its bytes, and all of them came. A
// connection that ends before that, and a message that was changed on the way, end the program.
size_t receive_bytes(channel *c, void *bytes, size_t len);

// Closes the connection, and overwrites the keys.
void close_channel(channel *c);

#endif

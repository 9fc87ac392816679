/* The Noise Protocol Framework, revision 34, with 25519, ChaChaPoly and SHA256. For C (C11), C++
   (C++11) and any language that calls C. docs/C.md, the page noise_c(3), explains it with listings;
   examples/programs/c has programs; each call has a page of its own, as noise_write(3).

   The library runs a handshake pattern message by message, and then encrypts and decrypts. It has
   no X25519, draws no random bytes, opens no socket and allocates no memory. The caller supplies
   public keys, computes X25519 where a call asks for it, and keeps the state in structs, the opaque
   structs. All lengths are in bytes. "Noise, 5.3" is section 5.3 of the standard.

   noise_start begins a handshake. Then the parties write and read its messages in turn, the
   initiator first: noise_write, noise_read. Where these return WANTED, call noise_answer; at
   WANTED_PSK noise_set_psk; then call again. At the end compare noise_remote_static with the key
   that you expect, and make one of noise_finish_stream, noise_finish, noise_finish_datagrams and
   noise_finish_ciphers: that uses the handshake up, and gives two structs, one to send and one to
   receive; a thread may have either. In a one-way pattern (N, K, X) the responder can't send, and
   the initiator can't receive: ONE_WAY (Noise, 7.4). At last noise_wipe overwrites each struct.

   A call returns a code for each wrong value. No length and no content of an opaque struct makes a
   call stop the process, or access memory that it wasn't given, beside constants of the library
   and, on x86-64, one word of it (dist/README.md). An opaque struct begins with a mark of its type
   and layout: a call returns STRUCT at zeros, at another type, and at another build's layout.

   WHAT THE CALLER MUST ENSURE, since no call can check it; docs/C.md says why
   - A pointer that has a count may be NULL if the count is 0, and no other may. Each leads to as
     many bytes as its count or its type says. An opaque struct's address is a multiple of 8.
   - The bytes at a pointer that isn't const overlap those of no other pointer of the call. OVERLAP
     says so of the buffers alone, and only through this header.
   - No copy of a struct writes or encrypts beside the original, as one from a file or a forked
     process's; the nonce of a cipher state for sending isn't set back. A struct may be moved.
   - Each handshake has a new ephemeral key pair.
   - Calls that take an opaque struct as const may run at once, on any number of threads; any other
     call has the struct for itself. Different structs need no lock. */
#ifndef NOISE_H
#define NOISE_H

#include <stddef.h>
#include <stdint.h>

#define NOISE_VERSION_MAJOR 1
#define NOISE_VERSION_MINOR 0
#define NOISE_VERSION_PATCH 0
#define NOISE_VERSION (65536u*NOISE_VERSION_MAJOR + 256u*NOISE_VERSION_MINOR + NOISE_VERSION_PATCH)

#ifdef __cplusplus
#define NOISE_ALIGNED alignas(8)
extern "C" {
#else
#define NOISE_ALIGNED _Alignas(8)
#endif

/* gcc and clang warn of NULL at these arguments, and of a code that nobody looks at. */
#ifdef __GNUC__
#define NOISE_NONNULL(...) __attribute__((nonnull(__VA_ARGS__)))
#define NOISE_CHECKED(...) __attribute__((warn_unused_result)) NOISE_NONNULL(__VA_ARGS__)
#else
#define NOISE_NONNULL(...)
#define NOISE_CHECKED(...)
#endif

/* What a call returns; noise_text says what each code means. A call's comment ends with its
   codes but OK. If several apply, the call returns the first. None returns AGREEMENT. After any
   code but OK everything except `result` is as it was, but:
   - SHORT and TAG of noise_read end the handshake.
   - END of noise_stream_read, and its refusals, end the stream. */
enum noise_code {
    NOISE_OK = 0, NOISE_NAME = 1, NOISE_PATTERN = 2, NOISE_EPHEMERAL_MISSING = 4,
    NOISE_STATIC_MISSING = 5, NOISE_REMOTE_MISSING = 6, NOISE_REMOTE_UNEXPECTED = 7,
    NOISE_PSK_COUNT = 8, NOISE_NOT_YOUR_TURN = 10, NOISE_TOO_LONG = 11, NOISE_DONE = 12,
    NOISE_ENDED = 13, NOISE_AGREEMENT = 14, NOISE_SHORT = 15, NOISE_TAG = 16, NOISE_EXHAUSTED = 17,
    NOISE_ROOM = 18, NOISE_NOT_DONE = 19, NOISE_WANTED = 20, NOISE_ONE_WAY = 22, NOISE_STRUCT = 23,
    NOISE_LENGTH = 24, NOISE_WINDOW = 25, NOISE_RESERVED = 26, NOISE_OLD = 27, NOISE_REPEATED = 28,
    NOISE_NOT_DUE = 29, NOISE_HEADING = 30, NOISE_ARROW = 31, NOISE_TOKEN = 32,
    NOISE_PRE_MESSAGE = 33, NOISE_TURN = 34, NOISE_PSK_PLACE = 35, NOISE_NAME_TAKEN = 36,
    NOISE_LIMIT = 37, NOISE_ENDING = 38, NOISE_RULE = 39, NOISE_WANTED_PSK = 40, NOISE_END = 41,
    NOISE_MORE = 42, NOISE_CLOSED = 43, NOISE_CUT = 44, NOISE_OVERLAP = 45
};

enum {
    NOISE_KEY_LEN = 32,           /* a public key, a result of X25519, a psk, a handshake hash */
    NOISE_TAG_LEN = 16,           /* a message has so many bytes more than its payload, */
    NOISE_STREAM_OVERHEAD = 18,   /* a frame of a stream: 2 of its length, 16 of the tag, */
    NOISE_DATAGRAM_OVERHEAD = 24, /* a datagram: 8 of the nonce, 16 of the tag */
    NOISE_MAX_MESSAGE = 65535,    /* so a payload has at most 65519 (Noise, 3) */
    NOISE_MAX_FRAME = 65537, NOISE_MAX_DATAGRAM = 65543, NOISE_MAX_PROLOGUE = 65535,
    NOISE_MAX_PSKS = 9
};

/* The opaque structs: the caller provides the memory, and only the library uses the content. */
typedef struct { NOISE_ALIGNED unsigned char opaque[1472]; } noise_handshake;
typedef struct { NOISE_ALIGNED unsigned char opaque[64]; } noise_stream_sender;
typedef struct { NOISE_ALIGNED unsigned char opaque[64]; } noise_stream_receiver;
typedef struct { NOISE_ALIGNED unsigned char opaque[56]; } noise_sender;
typedef struct { NOISE_ALIGNED unsigned char opaque[56]; } noise_receiver;
typedef struct { NOISE_ALIGNED unsigned char opaque[48]; } noise_datagram_sender;
typedef struct { NOISE_ALIGNED unsigned char opaque[192]; } noise_datagram_receiver;
typedef struct { NOISE_ALIGNED unsigned char opaque[48]; } noise_cipher;

/* A public key, or none if present is 0. */
typedef struct { uint8_t present; uint8_t bytes[32]; } noise_key;

/* What a party starts a handshake with: {0} is the initiator, without keys or psks. */
typedef struct {
    uint8_t responder;            /* 0: the initiator; any other value: the responder */
    noise_key e, s;               /* this party's: each for which it has a token in the pattern */
    noise_key remote_e, remote_s; /* those of the other's pre-message, as the responder's s in IK */
    uint8_t psk_count;            /* how many psks, at most 9; at later psk tokens: WANTED_PSK */
    uint8_t psks[9][32];
} noise_setup;

/* What a call reports. A field is set at the codes that are named here; at others it stays. */
typedef struct {
    size_t from;          /* OK: where the payload that was read begins; 0 of calls that write */
    size_t len;           /* OK: its length, or that of the message that was written. ROOM of
                             noise_write: the length that the message would have */
    uint8_t token;        /* SHORT, TAG of noise_read, noise_try_read: at which token, from 0 */
    uint8_t of_static;    /* WANTED: which key pair of this party: 0 ephemeral, 1 static, */
    uint8_t remote[32];   /* and which public key. WANTED_PSK: the other's static key, or zeros */
    uint8_t remote_known; /* WANTED_PSK: 1 if that key is known before the psk token, else 0 */
} noise_result;

typedef struct {
    size_t from;   /* OK of noise_stream_read, noise_frame_find: where payload or message begins, */
    size_t len;    /* and its length. OK of the calls that write: how many bytes to send */
    size_t used;   /* OK, END of noise_stream_read, noise_frame_find: how many first bytes of the
                      buffer, and OK of noise_stream_write: of the payload, are done with */
    size_t wanted; /* MORE: so many bytes are missing; exact once the frame's first 2 are there */
} noise_stream_result;

typedef struct {
    uint8_t messages;    /* how many messages the pattern has, 1 to 8 */
    uint8_t passed;      /* how many of them have been written or read */
    uint8_t ended;       /* 1 if a refused message or a call that finishes has ended it */
    uint8_t writes_next; /* 1 if this party writes next, else 0; says nothing after the last */
} noise_stage_result;

typedef struct {
    size_t line;      /* the codes 30 to 38: the line, counted from 1 */
    uint8_t rule;     /* RULE: the lowest rule, 1 to 5, broken at the first place where any is */
    uint8_t message;  /* RULE: the message, from 1; the transport counts as one more */
    uint8_t token;    /* RULE: the token, from 0; in the transport the party: 1 is the responder */
    uint8_t messages; /* OK: how many messages the pattern has */
} noise_pattern_result;

/* The numbers of the tokens; the payload is in a layout alone. 0 is none. */
enum noise_token {
    NOISE_TOKEN_E = 1, NOISE_TOKEN_S = 2, NOISE_TOKEN_EE = 3, NOISE_TOKEN_ES = 4,
    NOISE_TOKEN_SE = 5, NOISE_TOKEN_SS = 6, NOISE_TOKEN_PSK = 7, NOISE_TOKEN_PAYLOAD = 8
};

/* 1 for each key of noise_setup that a party must pass to noise_start, else 0; a remote key must
   not be there then. */
typedef struct { uint8_t e, s, remote_e, remote_s; } noise_keys_needed;

typedef struct {
    uint8_t messages;            /* 1 to 8; the initiator writes the first, then they take turns */
    uint8_t one_way;             /* 1 if only the initiator sends afterwards (Noise, 7.4), else 0 */
    uint8_t psks;                /* how many psk tokens */
    noise_keys_needed needed[2]; /* of the initiator, of the responder */
    uint8_t pre_messages[2][2];  /* the tokens of their pre-messages, 0 after the last */
    uint8_t tokens[8][10];       /* the tokens of each message, 0 after the last */
} noise_pattern_info;

/* A piece of a message: len bytes from `from` on, of which the last 16 are a tag if encrypted is 1.
   A key has 32 bytes without the tag; ee, es, se, ss and psk have none. */
typedef struct { uint8_t token; uint8_t encrypted; uint32_t from; uint32_t len; } noise_piece;

typedef struct {
    uint8_t count;          /* how many pieces: those of the tokens in order, and the payload */
    uint32_t len;           /* the length of the message */
    noise_piece pieces[11]; /* zeros after the last */
} noise_message_layout;

/* Report the library's version (docs/VERSIONS.md) and its sizes of the opaque structs: compare them
   with NOISE_VERSION and sizeof. */
uint32_t noise_version(void);
size_t noise_handshake_size(void), noise_cipher_size(void), noise_stream_sender_size(void);
size_t noise_stream_receiver_size(void), noise_sender_size(void), noise_receiver_size(void);
size_t noise_datagram_sender_size(void), noise_datagram_receiver_size(void);

/* Gives a static text, a sentence that says what a code means, and returns its length. */
size_t noise_sentence(uint32_t code, const char **sentence) NOISE_NONNULL(2);

/* HANDSHAKES, by the HandshakeState of Noise, 5.3. */

/* Starts a handshake in *h, which may hold anything before (Initialize). pattern is a protocol
   name, as Noise_XXpsk3_25519_ChaChaPoly_SHA256, without a zero byte at the end. Or it is the text
   of your own pattern, at most 413 bytes, in which each line ends with a line feed, as
   "NK1:\n  <- s\n  ...\n  -> e\n  <- e, ee, es\n". prologue is what the parties have agreed on
   before, the same bytes at both (Noise, 6).
   Codes: NAME · PATTERN · LENGTH (prologue_len is above 65535) · PSK_COUNT (psk_count is above 9) ·
   EPHEMERAL_MISSING · STATIC_MISSING · REMOTE_MISSING · REMOTE_UNEXPECTED · PSK_COUNT. */
uint32_t noise_start(noise_handshake *h, const uint8_t *pattern, size_t pattern_len,
    const uint8_t *prologue, size_t prologue_len, const noise_setup *setup) NOISE_CHECKED(1, 6);

/* Supplies the result of X25519 (Noise, 12.1) on one of this party's secret keys and a public key
   of the other party: after WANTED those of result. of_static is 0 for the ephemeral key, else the
   static one. There is room for eight, twice what a message wants: the oldest gives way to a ninth.
   Codes: STRUCT (it isn't a handshake's struct). */
uint32_t noise_answer(noise_handshake *h, uint8_t of_static, const uint8_t remote[32],
    const uint8_t dh_result[32]) NOISE_CHECKED(1, 3, 4);

/* Supplies the psk of the first psk token that lacks one (Noise, 9.2); then all is as if
   noise_start had been given it. At WANTED_PSK the other party has proved neither its static key
   nor the psk. Use result->remote to choose the psk, and for nothing else until a message that was
   encrypted after the psk has been accepted.
   Codes: STRUCT · PSK_COUNT (no psk token that is still to come lacks one). */
uint32_t noise_set_psk(noise_handshake *h, const uint8_t psk[32]) NOISE_CHECKED(1, 2);

/* Takes back the last psk that no message has used yet, if there is one: that which was set for a
   message that noise_try_read then refused.
   Codes: STRUCT. */
uint32_t noise_unset_psk(noise_handshake *h) NOISE_CHECKED(1);

/* Writes the next message, with this payload, to the start of out (WriteMessage). The bytes after
   it are unchanged. Noise, 7.7 says how well each payload is protected: at first not at all.
   Codes: STRUCT · ENDED · DONE · NOT_YOUR_TURN · TOO_LONG (it would have more than 65535 bytes) ·
   OVERLAP · ROOM (out_len is below result->len) · WANTED · WANTED_PSK. */
uint32_t noise_write(noise_handshake *h, const uint8_t *payload, size_t payload_len, uint8_t *out,
    size_t out_len, noise_result *result) NOISE_CHECKED(1, 6);

/* Reads the next message, in place (ReadMessage). After WANTED and WANTED_PSK call again with the
   same message. After SHORT and TAG close the connection, and tell nobody why. These four are
   looked for token by token.
   Codes: STRUCT · LENGTH (message_len is above 65535) · ENDED · DONE · NOT_YOUR_TURN · WANTED ·
   WANTED_PSK · SHORT · TAG. */
uint32_t noise_read(noise_handshake *h, uint8_t *message, size_t message_len, noise_result *result)
    NOISE_CHECKED(1, 4);

/* Reads as noise_read does, but SHORT and TAG leave the handshake as it was, and the message: for
   messages that a stranger can send, as datagrams. Drop such a message, and wait for another; call
   noise_unset_psk first for each psk that was set for it.
   Codes: those of noise_read. */
uint32_t noise_try_read(noise_handshake *h, uint8_t *message, size_t message_len,
    noise_result *result) NOISE_CHECKED(1, 4);

/* Reports the length of the next message with a payload of this length.
   Codes: STRUCT · NOT_DUE (noise_write would return ENDED, DONE, NOT_YOUR_TURN or TOO_LONG). */
uint32_t noise_message_len(const noise_handshake *h, size_t payload_len, size_t *len)
    NOISE_CHECKED(1, 3);

/* Reports the handshake hash so far. After the last message it is the same at both parties, and
   only if nobody has changed anything: sign it to bind something to this session (Noise, 11.2).
   Codes: STRUCT. */
uint32_t noise_hash(const noise_handshake *h, uint8_t hash[32]) NOISE_CHECKED(1, 2);

/* Reports the other party's static public key; key->present is 0 if it isn't known (yet). No call
   compares it: compare it with the one that you expect, or look it up, before you send anything
   that matters (Noise, 14).
   Codes: STRUCT. */
uint32_t noise_remote_static(const noise_handshake *h, noise_key *key) NOISE_CHECKED(1, 2);

/* Reports how far the handshake is. Codes: STRUCT. */
uint32_t noise_stage(const noise_handshake *h, noise_stage_result *result) NOISE_CHECKED(1, 2);

/* Checks the text of a pattern, as noise_start does (Noise, 7.3, 9.3): docs/PATTERNS.md has the
   five rules. A valid pattern isn't necessarily a secure one.
   Codes: HEADING to ENDING · RULE. */
uint32_t noise_check_pattern(const uint8_t *text, size_t text_len, noise_pattern_result *result)
    NOISE_CHECKED(3);

/* Reports what a valid pattern has, of its protocol name or its text as for noise_start;
   result->messages is set too. HEADING to ENDING and RULE set result as noise_check_pattern does.
   Codes: NAME · HEADING to ENDING · RULE. */
uint32_t noise_pattern(const uint8_t *pattern, size_t pattern_len, noise_pattern_info *info,
    noise_pattern_result *result) NOISE_CHECKED(3, 4);

/* Reports where the pieces of a message stand with a payload of this length. Messages count from 1.
   Codes: NAME · PATTERN · NOT_DUE (there is no such message, or it would have more than 65535
   bytes). */
uint32_t noise_layout(const uint8_t *pattern, size_t pattern_len, uint8_t message,
    size_t payload_len, noise_message_layout *layout) NOISE_CHECKED(5);

/* FRAMES, for the messages of a handshake over a stream: the length in 2 bytes, the higher first,
   and the message (Noise, 13). */

/* Puts the length in front of a message that noise_write has written to buffer + 2.
   Codes: LENGTH (message_len is above 65535) · ROOM (buffer_len is below message_len + 2). */
uint32_t noise_frame_message(uint8_t *buffer, size_t buffer_len, size_t message_len,
    noise_stream_result *result) NOISE_CHECKED(4);

/* Looks for the message of the frame at the start of a buffer. Codes: MORE. */
uint32_t noise_frame_find(const uint8_t *buffer, size_t buffer_len, noise_stream_result *result)
    NOISE_CHECKED(3);

/* STREAMS: bytes in order, with an end, in frames. A reader that gets END has got all that the
   other party wrote before noise_stream_end, unless a message was forged. */

/* Makes the two structs of a handshake whose messages have all passed (Noise, 5.2), and uses it
   up: its keys, psks and results of X25519 are zeros, and it has ended. noise_hash and
   noise_remote_static go on. Each direction is rekeyed after `interval` of its frames (Noise,
   11.3), the same number at both parties; 0 means never.
   Codes: STRUCT · NOT_DONE · ENDED. */
uint32_t noise_finish_stream(noise_handshake *h, uint64_t interval, noise_stream_sender *sender,
    noise_stream_receiver *receiver) NOISE_CHECKED(1, 3, 4);

/* Writes the frame of the first bytes of payload, of at most 65519, to the start of out: send it,
   and then write the rest. Of no bytes it makes none.
   Codes: OVERLAP · STRUCT · ROOM (out_len is below those bytes + 18) · CLOSED · ONE_WAY · EXHAUSTED
   (only the end can be written). */
uint32_t noise_stream_write(noise_stream_sender *s, const uint8_t *payload, size_t payload_len,
    uint8_t *out, size_t out_len, noise_stream_result *result) NOISE_CHECKED(1, 6);

/* Writes the end, a frame of 18 bytes: send it after the last, and only if nothing went wrong.
   Codes: STRUCT · ROOM (out_len is below 18) · CLOSED · ONE_WAY. */
uint32_t noise_stream_end(noise_stream_sender *s, uint8_t *out, size_t out_len,
    noise_stream_result *result) NOISE_CHECKED(1, 4);

/* Opens the frame at the start of the buffer, in place. The buffer begins with the first byte that
   isn't used yet, and can hold 65537 bytes. OK gives a payload of 1 byte or more. At MORE receive
   more, at most result->wanted at a time if there is no room for others, and call again. ONE_WAY,
   EXHAUSTED, SHORT and TAG break the stream: close the connection, and don't end your own stream.
   Codes: STRUCT · CLOSED · MORE · ONE_WAY · EXHAUSTED · SHORT · TAG · END. */
uint32_t noise_stream_read(noise_stream_receiver *r, uint8_t *buffer, size_t buffer_len,
    noise_stream_result *result) NOISE_CHECKED(1, 4);

/* Says whether the stream was truncated, once the connection has ended; `left` bytes of the buffer
   are unused. OK, which is 0: the other party had ended the stream, and nothing is left.
   Codes: STRUCT · CUT. */
uint32_t noise_stream_is_cut(const noise_stream_receiver *r, size_t left) NOISE_CHECKED(1);

/* MESSAGES IN ORDER, each 16 bytes longer than its payload, for frames of your own. */

/* Makes the two structs for messages, as noise_finish_stream does; `interval` counts messages.
   Codes: STRUCT · NOT_DONE · ENDED. */
uint32_t noise_finish(noise_handshake *h, uint64_t interval, noise_sender *sender,
    noise_receiver *receiver) NOISE_CHECKED(1, 3, 4);

/* Seals a payload as the next message, at the start of out; or in place: the payload is the first
   payload_len bytes of buffer. The bytes after the message are unchanged.
   Codes: OVERLAP (of noise_seal alone) · STRUCT · ROOM (out_len or buffer_len is below
   payload_len + 16) · ONE_WAY · TOO_LONG (payload_len is above 65519) · EXHAUSTED. */
uint32_t noise_seal(noise_sender *s, const uint8_t *payload, size_t payload_len, uint8_t *out,
    size_t out_len, noise_result *result) NOISE_CHECKED(1, 6);
uint32_t noise_seal_in_place(noise_sender *s, uint8_t *buffer, size_t buffer_len,
    size_t payload_len, noise_result *result) NOISE_CHECKED(1, 5);

/* Opens the next message of the other party, in place. If a message was lost or changed, all later
   ones give TAG: close the connection at the first.
   Codes: STRUCT · LENGTH (message_len is above 65535) · ONE_WAY · EXHAUSTED · SHORT (below 16) ·
   TAG. */
uint32_t noise_open(noise_receiver *r, uint8_t *message, size_t message_len, noise_result *result)
    NOISE_CHECKED(1, 4);

/* Report the nonce of the next message: how many were sealed, or opened. Codes: STRUCT. */
uint32_t noise_sender_nonce(const noise_sender *s, uint64_t *nonce) NOISE_CHECKED(1, 2);
uint32_t noise_receiver_nonce(const noise_receiver *r, uint64_t *nonce) NOISE_CHECKED(1, 2);

/* DATAGRAMS, for a network that loses, repeats and reorders (Noise, 11.4); the handshake itself
   needs its messages in order, each once. A datagram begins with its nonce, in 8 bytes, the highest
   first, and is 24 bytes longer than its payload. */

/* Makes the two structs for datagrams, as noise_finish_stream does, but their keys are never
   rekeyed. `window` is 64, 256 or 1024: a datagram may come after others whose nonces are less than
   `window` greater.
   Codes: WINDOW · STRUCT · NOT_DONE · ENDED. */
uint32_t noise_finish_datagrams(noise_handshake *h, uint32_t window, noise_datagram_sender *sender,
    noise_datagram_receiver *receiver) NOISE_CHECKED(1, 3, 4);

/* Seals a payload as the next datagram, as noise_seal; in place the payload is the payload_len
   bytes of buffer from the ninth on.
   Codes: OVERLAP (of noise_datagram_seal alone) · STRUCT · ROOM (out_len or buffer_len is below
   payload_len + 24) · ONE_WAY · TOO_LONG (payload_len is above 65519) · EXHAUSTED. */
uint32_t noise_datagram_seal(noise_datagram_sender *s, const uint8_t *payload, size_t payload_len,
    uint8_t *out, size_t out_len, noise_result *result) NOISE_CHECKED(1, 6);
uint32_t noise_datagram_seal_in_place(noise_datagram_sender *s, uint8_t *buffer, size_t buffer_len,
    size_t payload_len, noise_result *result) NOISE_CHECKED(1, 5);

/* Opens a datagram of the other party, in place: the payload begins at its ninth byte. No other
   datagram of this nonce will be opened. At any code but OK drop the datagram, and go on.
   Codes: STRUCT · ONE_WAY · SHORT (datagram_len is below 24) · TOO_LONG (above 65543) · RESERVED ·
   OLD · REPEATED · TAG. */
uint32_t noise_datagram_open(noise_datagram_receiver *r, uint8_t *datagram, size_t datagram_len,
    noise_result *result) NOISE_CHECKED(1, 4);

/* Reports the nonce of the next datagram. Codes: STRUCT. */
uint32_t noise_datagram_sender_nonce(const noise_datagram_sender *s, uint64_t *nonce)
    NOISE_CHECKED(1, 2);

/* CIPHER STATES (Noise, 5.1), for a protocol whose packets have associated data, name their nonces
   or have a form of their own. */

/* Makes the two cipher states of a handshake whose messages have all passed, both at nonce 0
   (Split: Noise, 5.2). In a one-way pattern the one for the responder's messages has no key, and
   each call with it returns ONE_WAY (Noise, 7.4).
   Codes: STRUCT · NOT_DONE · ENDED. */
uint32_t noise_finish_ciphers(noise_handshake *h, noise_cipher *send, noise_cipher *receive)
    NOISE_CHECKED(1, 2, 3);

/* Encrypts the first text_len bytes of buffer in place, with associated data (EncryptWithAd). The
   message is result->len bytes, 16 more; neither the data nor the nonce is in it. The next nonce is
   one greater.
   Codes: OVERLAP · STRUCT (also of the one for receiving) · ONE_WAY · LENGTH (ad_len is above
   65535) · ROOM (buffer_len is below text_len + 16) · EXHAUSTED · TOO_LONG (above 65519). */
uint32_t noise_cipher_encrypt(noise_cipher *c, const uint8_t *ad, size_t ad_len, uint8_t *buffer,
    size_t buffer_len, size_t text_len, noise_result *result) NOISE_CHECKED(1, 7);

/* Decrypts a message in place (DecryptWithAd).
   Codes: OVERLAP · STRUCT (also of the one for sending) · ONE_WAY · LENGTH (ad_len is above 65535)
   · EXHAUSTED · TOO_LONG (message_len is above 65535) · SHORT (below 16) · TAG. */
uint32_t noise_cipher_decrypt(noise_cipher *c, const uint8_t *ad, size_t ad_len, uint8_t *message,
    size_t message_len, noise_result *result) NOISE_CHECKED(1, 6);

/* Replaces the key by the one that follows from it, and keeps the nonce (Rekey: Noise, 11.3).
   Codes: STRUCT · ONE_WAY. */
uint32_t noise_cipher_rekey(noise_cipher *c) NOISE_CHECKED(1);

/* Reports the nonce of the next message, or sets it (Noise, 11.4): a receiver that sets it refuses
   itself what it has received before.
   Codes: STRUCT · ONE_WAY. */
uint32_t noise_cipher_nonce(const noise_cipher *c, uint64_t *nonce) NOISE_CHECKED(1, 2);
uint32_t noise_cipher_set_nonce(noise_cipher *c, uint64_t nonce) NOISE_CHECKED(1);

/* Overwrites bytes with zeros; the compiler can't remove the writes. */
static inline void noise_wipe(void *at, size_t len);

#ifdef __GNUC__
/* Overwrites 16 KB of stack below the caller's frame, more than calls use (at most 14 KB): call it
   from the function that last called with a secret. */
__attribute__((noinline, unused)) static void noise_wipe_stack(void);
#endif

/* Returns the sentence of noise_sentence. */
static inline const char *noise_text(uint32_t code);

/* Computes X25519 of one of this party's secret keys, the static one unless of_static is 0, and a
   public key of the other party; 0 if there is no result, as for all zeros (Noise, 12.1). */
typedef int noise_dh(void *context, uint8_t of_static, const uint8_t remote[32],
    uint8_t result[32]);

/* Write or read as noise_write, noise_read and noise_try_read do, with a function for X25519. It is
   called as often as a result is wanted, four times at most for a message. WANTED is returned only
   where that function gives none. */
static inline uint32_t noise_write_with(noise_handshake *h, const uint8_t *payload,
    size_t payload_len, uint8_t *out, size_t out_len, noise_result *result, noise_dh *dh,
    void *context) NOISE_CHECKED(1, 6, 7);
static inline uint32_t noise_read_with(noise_handshake *h, uint8_t *message, size_t message_len,
    noise_result *result, noise_dh *dh, void *context) NOISE_CHECKED(1, 4, 5);
static inline uint32_t noise_try_read_with(noise_handshake *h, uint8_t *message, size_t message_len,
    noise_result *result, noise_dh *dh, void *context) NOISE_CHECKED(1, 4, 5);

/* The inline functions; and NULL with a count of 0, which the library itself doesn't take: each
   call with bytes and their count is also a macro for an inline function that passes an address. A
   call that doesn't use this header, as by dlsym or from another language, must not pass NULL. */
#include "noise_inline.h"

#ifdef __cplusplus
}
#endif
#endif

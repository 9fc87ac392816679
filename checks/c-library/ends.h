// Two parties of one handshake in one process, with a toy in the place of X25519: the DH result of two public keys is
// their xor, as in vector files with `xor` keys.
#ifndef ENDS_H
#define ENDS_H

#include "noise.h"
#include <stdbool.h>
#include <stdio.h>
#include <string.h>

// Ends the check where this isn't so, and counts it where it is.
#define MUST(what) ((what) ? (void)comparisons++ : fail(__FILE__, __LINE__, #what))
extern _Thread_local unsigned long comparisons;
_Noreturn void fail(const char *file, int line, const char *what);

// Of the cases that are tried at each byte, each `every`-th is, and is_due says whether the next one is.
extern unsigned every;
bool is_due(void);

// A set of codes, and whether a code is in it.
#define CODE(code) (UINT64_C(1) << (code))
bool is_in(uint32_t code, uint64_t codes);

enum { LONGEST = NOISE_MAX_DATAGRAM + 1 };

// What two parties start from.
typedef struct {
    char name[80];                        // the protocol name
    char text[420];                       // the pattern's text, of a handshake that is begun by it; else empty
    bool is_own;                          // the base isn't that of a fundamental pattern
    bool one_way;
    unsigned messages;
    bool has_e[2], has_s[2];              // by 0 the initiator, 1 the responder
    bool is_known[2];                     // its s is in its pre-message
    unsigned psks;
    uint64_t interval;
    size_t prologue_len;
} plan;

// The halves of a party.
typedef struct {
    noise_sender s;
    noise_receiver r;
} transport;

typedef struct {
    noise_datagram_sender s;
    noise_datagram_receiver r;
} datagrams;

typedef struct {
    noise_stream_sender s;
    noise_stream_receiver r;
} stream;

typedef struct {
    unsigned role;                        // 0 the initiator, 1 the responder
    noise_handshake h;
    unsigned answers;                     // how many DH results were supplied
} end;

enum { PATTERNS = 15 };
extern const char *const patterns[PATTERNS];

// The plan of a fundamental pattern; psk_place: none where it is less than 0.
plan plan_of(const char *base, int psk_place);
// A plan of a pattern's text; `like` is a fundamental pattern with the same keys, messages and directions.
plan plan_of_text(const char *text, const char *like, unsigned psks, bool is_own);

const uint8_t *public_key(unsigned role, bool of_static);
const uint8_t *secret(unsigned number);
const uint8_t *prologue(void);
noise_setup setup_of(const plan *p, unsigned role);
uint32_t start_with(noise_handshake *h, const plan *p, const noise_setup *setup);
end begin(const plan *p, unsigned role);
void hand_in(end *x, const noise_result *result);
// Writes and reads, with each DH result that is wanted.
uint32_t write_on(end *x, const uint8_t *payload, size_t payload_len, uint8_t *out, size_t out_len,
                  noise_result *result);
uint32_t read_on(end *x, uint8_t *message, size_t message_len, noise_result *result);
// A payload whose bytes depend on the number; and a length by number, the same in each run.
void fill(uint8_t *payload, size_t len, unsigned number);
size_t length_of(unsigned number);
// Passes all messages between the two parties.
void pass_all(const plan *p, end ends[2]);
// Each finishes a copy, so that a test can have several pairs of one handshake.
uint32_t finish(const noise_handshake *h, uint64_t interval, transport *t);
uint32_t finish_datagrams(const noise_handshake *h, uint32_t window, datagrams *d);
uint32_t finish_stream(const noise_handshake *h, uint64_t interval, stream *x);
uint32_t finish_cipher_states(const noise_handshake *h, noise_cipher *send, noise_cipher *receive);

// A place for `size` bytes; no byte after it may be touched.
uint8_t *place_at_edge(size_t size);

void check_vectors(const char *folder);
void check_texts(const char *folder);
void check_null(void);
void check_refusals(void);
void check_transport(void);
void check_datagrams(void);
void check_halves(void);
void check_datagram_halves(void);
void check_ciphers(void);
void check_streams(void);
void check_changed_structs(void);
void check_late_psks(void);
void check_once(void);
void check_patterns(void);
void check_overlaps(void);

#endif

// NULL with a count of 0, for every pointer that has a count: each call returns what it returns for an empty place that
// isn't NULL, and leaves the same struct.
#include "ends.h"

// What a call has left: the struct, and what it returns.
typedef struct {
    union {
        noise_handshake h;
        noise_sender s;
        noise_receiver r;
        noise_datagram_sender ds;
        noise_datagram_receiver dr;
        noise_cipher c;
    } object;
    noise_result result;
    uint32_t code;
} left;

static const left blank;

static void must_be_same(const left *a, const left *b, uint32_t code) {
    MUST(a->code == code && b->code == code);
    MUST(!memcmp(&a->object, &b->object, sizeof a->object));
    MUST(a->result.from == b->result.from && a->result.len == b->result.len && a->result.token == b->result.token
        && a->result.of_static == b->result.of_static);
    MUST(!memcmp(a->result.remote, b->result.remote, 32));
}

static void check_start(void) {
    static uint8_t empty;
    plan p = plan_of("NN", -1);
    noise_setup setup = setup_of(&p, 0);
    const uint8_t *name = (const uint8_t *)p.name;
    size_t len = strlen(p.name);
    left a = blank, b = blank;
    a.code = noise_start(&a.object.h, name, len, NULL, 0, &setup);
    b.code = noise_start(&b.object.h, name, len, &empty, 0, &setup);
    must_be_same(&a, &b, NOISE_OK);
    a.code = noise_start(&a.object.h, NULL, 0, NULL, 0, &setup);
    b.code = noise_start(&b.object.h, &empty, 0, &empty, 0, &setup);
    must_be_same(&a, &b, NOISE_NAME);
    noise_pattern_result result = {0};
    MUST(noise_check_pattern(NULL, 0, &result) == noise_check_pattern(&empty, 0, &result));
    noise_pattern_info info;
    noise_message_layout layout;
    MUST(noise_pattern(NULL, 0, &info, &result) == NOISE_NAME && noise_layout(NULL, 0, 1, 0, &layout) == NOISE_NAME);
}

// An empty payload, an empty place for the message, and both.
static void check_handshake(void) {
    static uint8_t empty, some[200], other[200];
    plan p = plan_of("NN", -1);
    left first = {.object.h = begin(&p, 0).h}, second = {.object.h = begin(&p, 1).h};
    left a = first, b = first;
    a.code = noise_write(&a.object.h, NULL, 0, NULL, 0, &a.result);
    b.code = noise_write(&b.object.h, &empty, 0, &empty, 0, &b.result);
    must_be_same(&a, &b, NOISE_ROOM);
    a.code = noise_write(&a.object.h, some, 5, NULL, 0, &a.result);
    b.code = noise_write(&b.object.h, some, 5, &empty, 0, &b.result);
    must_be_same(&a, &b, NOISE_ROOM);
    a.code = noise_write(&a.object.h, NULL, 0, some, sizeof some, &a.result);
    b.code = noise_write(&b.object.h, &empty, 0, other, sizeof other, &b.result);
    must_be_same(&a, &b, NOISE_OK);
    MUST(a.result.len == 32 && !memcmp(some, other, sizeof some));
    a = b = second;
    a.code = noise_read(&a.object.h, NULL, 0, &a.result);
    b.code = noise_read(&b.object.h, &empty, 0, &b.result);
    must_be_same(&a, &b, NOISE_SHORT);
}

static void check_transport_calls(end ends[2]) {
    static uint8_t empty, some[16], other[16];
    transport t;
    MUST(finish(&ends[0].h, 0, &t) == NOISE_OK);
    left a = {.object.s = t.s}, b = a;
    a.code = noise_seal(&a.object.s, NULL, 0, NULL, 0, &a.result);
    b.code = noise_seal(&b.object.s, &empty, 0, &empty, 0, &b.result);
    must_be_same(&a, &b, NOISE_ROOM);
    a.code = noise_seal_in_place(&a.object.s, NULL, 0, 0, &a.result);
    b.code = noise_seal_in_place(&b.object.s, &empty, 0, 0, &b.result);
    must_be_same(&a, &b, NOISE_ROOM);
    a.code = noise_seal(&a.object.s, NULL, 0, some, sizeof some, &a.result);
    b.code = noise_seal(&b.object.s, &empty, 0, other, sizeof other, &b.result);
    must_be_same(&a, &b, NOISE_OK);
    MUST(a.result.len == 16 && !memcmp(some, other, sizeof some));
    a = b = (left){.object.r = t.r};
    a.code = noise_open(&a.object.r, NULL, 0, &a.result);
    b.code = noise_open(&b.object.r, &empty, 0, &b.result);
    must_be_same(&a, &b, NOISE_SHORT);
}

static void check_datagram_calls(end ends[2]) {
    static uint8_t empty, some[24], other[24];
    datagrams d;
    MUST(finish_datagrams(&ends[0].h, 64, &d) == NOISE_OK);
    left a = {.object.ds = d.s}, b = a;
    a.code = noise_datagram_seal(&a.object.ds, NULL, 0, NULL, 0, &a.result);
    b.code = noise_datagram_seal(&b.object.ds, &empty, 0, &empty, 0, &b.result);
    must_be_same(&a, &b, NOISE_ROOM);
    a.code = noise_datagram_seal_in_place(&a.object.ds, NULL, 0, 0, &a.result);
    b.code = noise_datagram_seal_in_place(&b.object.ds, &empty, 0, 0, &b.result);
    must_be_same(&a, &b, NOISE_ROOM);
    a.code = noise_datagram_seal(&a.object.ds, NULL, 0, some, sizeof some, &a.result);
    b.code = noise_datagram_seal(&b.object.ds, &empty, 0, other, sizeof other, &b.result);
    must_be_same(&a, &b, NOISE_OK);
    MUST(a.result.len == 24 && !memcmp(some, other, sizeof some));
    a = b = (left){.object.dr = d.r};
    a.code = noise_datagram_open(&a.object.dr, NULL, 0, &a.result);
    b.code = noise_datagram_open(&b.object.dr, &empty, 0, &b.result);
    must_be_same(&a, &b, NOISE_SHORT);
}

static void check_stream_calls(end ends[2]) {
    static uint8_t empty;
    stream a, b;
    noise_stream_result result, other;
    MUST(finish_stream(&ends[0].h, 0, &a) == NOISE_OK);
    b = a;
    MUST(noise_stream_write(&a.s, NULL, 0, NULL, 0, &result) == NOISE_OK
        && noise_stream_write(&b.s, &empty, 0, &empty, 0, &other) == NOISE_OK);
    MUST(result.used == 0 && result.len == 0 && other.used == 0 && other.len == 0);
    MUST(noise_stream_write(&a.s, &empty, 1, NULL, 0, &result) == NOISE_ROOM
        && noise_stream_end(&a.s, NULL, 0, &result) == NOISE_ROOM);
    MUST(noise_stream_read(&a.r, NULL, 0, &result) == NOISE_MORE && result.wanted == 2);
    MUST(noise_frame_find(NULL, 0, &result) == NOISE_MORE && result.wanted == 2
        && noise_frame_message(NULL, 0, 0, &result) == NOISE_ROOM);
    MUST(!memcmp(&a, &b, sizeof a));
}

static void check_cipher_calls(end ends[2]) {
    static uint8_t empty, some[16], other[16];
    noise_cipher send, receive;
    MUST(finish_cipher_states(&ends[0].h, &send, &receive) == NOISE_OK);
    left a = {.object.c = send}, b = a;
    a.code = noise_cipher_encrypt(&a.object.c, NULL, 0, NULL, 0, 0, &a.result);
    b.code = noise_cipher_encrypt(&b.object.c, &empty, 0, &empty, 0, 0, &b.result);
    must_be_same(&a, &b, NOISE_ROOM);
    a.code = noise_cipher_encrypt(&a.object.c, NULL, 0, some, sizeof some, 0, &a.result);
    b.code = noise_cipher_encrypt(&b.object.c, &empty, 0, other, sizeof other, 0, &b.result);
    must_be_same(&a, &b, NOISE_OK);
    MUST(a.result.len == 16 && !memcmp(some, other, sizeof some));
    a = b = (left){.object.c = receive};
    a.code = noise_cipher_decrypt(&a.object.c, NULL, 0, NULL, 0, &a.result);
    b.code = noise_cipher_decrypt(&b.object.c, &empty, 0, &empty, 0, &b.result);
    must_be_same(&a, &b, NOISE_SHORT);
}

// A macro is an object: so its name may be a pointer to a function, and its arguments may have commas of their own.
static void check_macros(void) {
    uint32_t (*check)(const uint8_t *, size_t, noise_pattern_result *) = noise_check_pattern;
    noise_pattern_result result;
    MUST(check(NULL, 0, &result) == NOISE_HEADING);
    MUST(noise_check_pattern((const uint8_t[]){'N', ':', 10}, 3, &(noise_pattern_result){.line = 9}) != NOISE_OK);
    struct { int noise_open; } a = {.noise_open = 3};
    MUST(a.noise_open == 3);
}

void check_null(void) {
    plan p = plan_of("NN", -1);
    end ends[2] = {begin(&p, 0), begin(&p, 1)};
    check_start();
    check_handshake();
    pass_all(&p, ends);
    check_transport_calls(ends);
    check_datagram_calls(ends);
    check_stream_calls(ends);
    check_cipher_calls(ends);
    check_macros();
}

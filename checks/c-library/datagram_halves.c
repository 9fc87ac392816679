// The halves of datagrams: sealing in place, and structs that hold no half: with another mark, or with a window that
// no opened datagrams leave.
#include "ends.h"

enum { ROOM = 100, COUNT = 72 };

// Where a noise_datagram_receiver keeps the greatest nonce that it has opened, and the words of its window.
enum { GREATEST_AT = 48, WORDS_AT = 56 };

static uint8_t payload[ROOM], first[ROOM], second[ROOM];
static uint8_t sealed[COUNT][ROOM];

static void open_pair(const char *pattern, uint32_t window, datagrams d[2]) {
    plan p = plan_of(pattern, -1);
    end ends[2] = {begin(&p, 0), begin(&p, 1)};
    pass_all(&p, ends);
    for (unsigned role = 0; role < 2; role++) MUST(finish_datagrams(&ends[role].h, window, &d[role]) == NOISE_OK);
}

static void check_in_place(void) {
    datagrams d[2], other;
    noise_result result;
    open_pair("IK", 64, d);
    other = d[0];
    for (unsigned n = 0; n < 60; n++) {
        size_t len = n;
        fill(payload, len, n);
        memset(first, 0x55, ROOM);
        memset(second, 0x55, ROOM);
        memcpy(first + 8, payload, len);
        MUST(noise_datagram_seal_in_place(&d[0].s, first, ROOM, len, &result) == NOISE_OK && result.from == 0
            && result.len == len + 24);
        MUST(noise_datagram_seal(&other.s, payload, len, second, ROOM, &result) == NOISE_OK
            && !memcmp(first, second, ROOM));
        MUST(!memcmp(&d[0], &other, sizeof other));
    }
    for (size_t room = 0; room < 34; room++) {
        memcpy(second, first, ROOM);
        MUST(noise_datagram_seal_in_place(&d[0].s, first, room, 10, &result) == NOISE_ROOM
            && !memcmp(first, second, ROOM));
    }
    MUST(noise_datagram_seal_in_place(&d[0].s, first, ROOM, SIZE_MAX, &result) == NOISE_ROOM);
    MUST(noise_datagram_seal_in_place(&d[0].s, NULL, 0, 0, &result) == NOISE_ROOM);
    MUST(!memcmp(&d[0], &other, sizeof other));
}

// A half of which one byte of the mark differs holds nothing.
static void check_marks(void) {
    datagrams d[2];
    noise_result result;
    open_pair("XX", 256, d);
    for (unsigned i = 0; i < 4; i++)
        for (unsigned change = 1; change < 256; change++) {
            uint8_t by = (uint8_t)change;
            d[0].s.opaque[i] ^= by, d[0].r.opaque[i] ^= by;
            MUST(noise_datagram_seal(&d[0].s, payload, 5, first, ROOM, &result) == NOISE_STRUCT);
            MUST(noise_datagram_open(&d[0].r, first, 30, &result) == NOISE_STRUCT);
            d[0].s.opaque[i] ^= by, d[0].r.opaque[i] ^= by;
        }
    MUST(noise_datagram_seal(&d[0].s, payload, 5, first, ROOM, &result) == NOISE_OK);
    MUST(noise_datagram_open(&d[0].r, first, 30, &result) == NOISE_TAG);
}

static uint64_t word_at(const noise_datagram_receiver *r, size_t at) {
    uint64_t word;
    memcpy(&word, r->opaque + at, sizeof word);
    return word;
}

// Opens a datagram of one's own with a half whose word at this place is another one: STRUCT where no opened nonces
// leave it, TAG where some do.
static void must_return(noise_datagram_receiver r, size_t at, uint64_t word, uint32_t code) {
    noise_result result;
    memcpy(r.opaque + at, &word, sizeof word);
    memcpy(second, first, ROOM);
    MUST(noise_datagram_open(&r, second, 29, &result) == code);
}

// With 70 and 71 opened the greatest nonce is 71, and its word has the bits 6 and 7. The window of 64 uses two words.
static void check_windows(void) {
    datagrams d[2];
    noise_result result;
    open_pair("XX", 64, d);
    noise_datagram_receiver receiver = d[0].r;
    for (unsigned n = 0; n < 72; n++)
        MUST(noise_datagram_seal(&d[1].s, payload, 5, sealed[n], ROOM, &result) == NOISE_OK);
    for (unsigned n = 0; n < 80; n++) MUST(noise_datagram_seal(&d[0].s, payload, 5, first, ROOM, &result) == NOISE_OK);
    must_return(receiver, WORDS_AT, 0, NOISE_TAG);
    must_return(receiver, WORDS_AT, 1, NOISE_TAG);
    must_return(receiver, WORDS_AT, 2, NOISE_STRUCT);
    must_return(receiver, WORDS_AT + 8, 1, NOISE_STRUCT);
    must_return(receiver, GREATEST_AT, 1, NOISE_STRUCT);
    MUST(noise_datagram_open(&receiver, sealed[70], 29, &result) == NOISE_OK);
    MUST(noise_datagram_open(&receiver, sealed[71], 29, &result) == NOISE_OK);
    MUST(word_at(&receiver, GREATEST_AT) == 71 && word_at(&receiver, WORDS_AT) == 0
        && word_at(&receiver, WORDS_AT + 8) == 0xc0);
    must_return(receiver, WORDS_AT + 8, 0, NOISE_STRUCT);
    must_return(receiver, WORDS_AT + 8, 0x40, NOISE_STRUCT);
    must_return(receiver, WORDS_AT + 8, 0x80, NOISE_TAG);
    must_return(receiver, WORDS_AT + 8, 0x180, NOISE_STRUCT);
    must_return(receiver, WORDS_AT, UINT64_MAX, NOISE_TAG);
    must_return(receiver, WORDS_AT + 16, 1, NOISE_STRUCT);
    must_return(receiver, GREATEST_AT, 70, NOISE_STRUCT);
    must_return(receiver, GREATEST_AT, 72, NOISE_STRUCT);
    must_return(receiver, GREATEST_AT, UINT64_MAX, NOISE_STRUCT);
}

void check_datagram_halves(void) {
    check_in_place();
    check_marks();
    check_windows();
}

// Transport messages: sizes, refusals, what a refusal leaves, rekeying, one-way sessions, the last nonce.
#include "ends.h"

static uint8_t message[NOISE_MAX_MESSAGE + 1], before[NOISE_MAX_MESSAGE + 1], payload[NOISE_MAX_MESSAGE + 1];

static void open_pair(const plan *p, uint64_t interval, transport t[2]) {
    end ends[2] = {begin(p, 0), begin(p, 1)};
    pass_all(p, ends);
    for (unsigned role = 0; role < 2; role++) {
        noise_handshake old = ends[role].h;
        MUST(finish(&ends[role].h, interval, &t[role]) == NOISE_OK);
        MUST(!memcmp(&old, &ends[role].h, sizeof old));
    }
}

static void must_be_at(const transport *t, uint64_t send, uint64_t receive) {
    uint64_t sends, receives;
    MUST(noise_sender_nonce(&t->s, &sends) == NOISE_OK && noise_receiver_nonce(&t->r, &receives) == NOISE_OK);
    MUST(sends == send && receives == receive);
}

static size_t seal(transport *t, size_t len, unsigned number) {
    noise_result result;
    fill(payload, len, number);
    MUST(noise_seal(&t->s, payload, len, message, sizeof message, &result) == NOISE_OK && result.len == len + 16);
    return result.len;
}

static void open_next(transport *t, size_t message_len, unsigned number) {
    noise_result result;
    fill(payload, message_len - 16, number);
    MUST(noise_open(&t->r, message, message_len, &result) == NOISE_OK && result.len == message_len - 16);
    MUST(!memcmp(message + result.from, payload, result.len));
}

static void must_not_open(transport *t, size_t len, uint32_t code) {
    noise_result result;
    transport old = *t;
    memcpy(before, message, len);
    MUST(noise_open(&t->r, message, len, &result) == code);
    MUST(!memcmp(&old, t, sizeof old) && !memcmp(before, message, len));
}

static void must_not_seal(transport *t, size_t len, size_t room, uint32_t code) {
    noise_result result;
    transport old = *t;
    memset(message, 0x33, sizeof message);
    memset(before, 0x33, sizeof before);
    MUST(noise_seal(&t->s, payload, len, message, room, &result) == code);
    MUST(!memcmp(&old, t, sizeof old) && !memcmp(before, message, sizeof before));
}

static void check_sizes(void) {
    plan p = plan_of("XX", -1);
    transport t[2];
    noise_result result;
    open_pair(&p, 0, t);
    must_not_seal(&t[0], NOISE_MAX_MESSAGE - 15, sizeof message, NOISE_TOO_LONG);
    must_not_seal(&t[0], NOISE_MAX_MESSAGE + 1, sizeof message, NOISE_ROOM);         // looked for first
    for (size_t room = 0; room < 26; room++) must_not_seal(&t[0], 10, room, NOISE_ROOM);
    must_be_at(&t[0], 0, 0);
    memset(message, 0x33, sizeof message);
    MUST(noise_seal(&t[0].s, payload, 10, message, 26, &result) == NOISE_OK && result.len == 26 && message[26] == 0x33);
    must_be_at(&t[0], 1, 0);
    for (size_t len = 0; len < 26; len++) must_not_open(&t[1], len, len < 16 ? NOISE_SHORT : NOISE_TAG);
    must_not_open(&t[1], 27, NOISE_TAG);
    must_not_open(&t[1], NOISE_MAX_MESSAGE, NOISE_TAG);
    must_not_open(&t[1], NOISE_MAX_MESSAGE + 1, NOISE_LENGTH);
    for (size_t i = 0; i < 26; i++) {
        message[i] ^= 1;
        must_not_open(&t[1], 26, NOISE_TAG);
        message[i] ^= 1;
    }
    must_not_open(&t[0], 26, NOISE_TAG);                 // one's own
    must_be_at(&t[1], 0, 0);
    MUST(noise_open(&t[1].r, message, 26, &result) == NOISE_OK && result.len == 10
        && !memcmp(message + result.from, payload, 10));
    must_be_at(&t[1], 0, 1);
    open_next(&t[1], seal(&t[0], NOISE_MAX_MESSAGE - 16, 4), 4);
    open_next(&t[0], seal(&t[1], 0, 5), 5);
    must_be_at(&t[0], 2, 1);
}

// A message that is lost: all later ones are refused, until it comes.
static void check_lost(void) {
    plan p = plan_of("NN", -1);
    transport t[2];
    open_pair(&p, 0, t);
    uint8_t first[40];
    seal(&t[1], 24, 1);
    memcpy(first, message, 40);
    for (unsigned i = 0; i < 3; i++) must_not_open(&t[0], seal(&t[1], 24, i), NOISE_TAG);
    memcpy(message, first, 40);
    open_next(&t[0], 40, 1);
    memcpy(message, first, 40);
    must_not_open(&t[0], 40, NOISE_TAG);
    must_be_at(&t[0], 0, 1);
    must_be_at(&t[1], 4, 0);
}

// With each interval both directions go on; with two different ones up to the first rekey.
static void check_intervals(void) {
    plan p = plan_of("IK", 2);
    static const uint64_t intervals[] = {1, 2, 3, 7, UINT64_MAX};
    for (unsigned i = 0; i < 5; i++) {
        transport t[2], never[2];
        open_pair(&p, intervals[i], t);
        open_pair(&p, 0, never);
        for (unsigned n = 0; n < 12; n++) {
            uint8_t other[40];
            seal(&never[0], 24, n);
            memcpy(other, message, 40);
            size_t len = seal(&t[0], 24, n);
            MUST((memcmp(other, message, 40) == 0) == (n < intervals[i]));
            if (n < intervals[i])
                open_next(&never[1], len, n);
            else
                must_not_open(&never[1], len, NOISE_TAG);
            if (n < intervals[i]) memcpy(message, other, 40);
            open_next(&t[1], len, n);
            if (n % 3 == 0) open_next(&t[0], seal(&t[1], n, n), n);
        }
        must_be_at(&t[0], 12, 4);
        must_be_at(&t[1], 4, 12);
    }
}

static void check_one_way(void) {
    for (unsigned i = 0; i < 3; i++) {
        plan p = plan_of(patterns[i], 1);
        transport t[2];
        open_pair(&p, 2, t);
        must_not_seal(&t[1], 5, sizeof message, NOISE_ONE_WAY);
        for (unsigned n = 0; n < 5; n++) open_next(&t[1], seal(&t[0], n, n), n);
        seal(&t[0], 3, 3);
        must_not_open(&t[0], 19, NOISE_ONE_WAY);
    }
}

// The place in a struct of 8 bytes that count up: the one that differs between the two.
static size_t counter(const uint8_t *earlier, const uint8_t *later, size_t size) {
    size_t at = size;
    for (size_t i = 0; i < size; i++)
        if (earlier[i] != later[i]) {
            MUST(at == size && later[i] == earlier[i] + 1);
            at = i;
        }
    MUST(at % 8 == 0 && at < size);
    return at;
}

// At the nonce 2^64 - 1 nothing is sealed and nothing is opened. A struct's nonce is set to it
// here, which no program does.
static void check_exhausted(void) {
    plan p = plan_of("NN", -1);
    transport t[2], old[2];
    open_pair(&p, 0, t);
    memcpy(old, t, sizeof old);
    open_next(&t[1], seal(&t[0], 9, 1), 1);
    size_t sending = counter(old[0].s.opaque, t[0].s.opaque, sizeof t[0].s),
           receiving = counter(old[1].r.opaque, t[1].r.opaque, sizeof t[1].r);
    memset(t[0].s.opaque + sending, 0xff, 8);
    memset(t[1].r.opaque + receiving, 0xff, 8);
    must_be_at(&t[0], UINT64_MAX, 0);
    must_be_at(&t[1], 0, UINT64_MAX);
    must_not_seal(&t[0], 9, sizeof message, NOISE_EXHAUSTED);
    must_not_open(&t[1], 30, NOISE_EXHAUSTED);
    t[0].s.opaque[sending] = t[1].r.opaque[receiving] = 0xfe;    // the last message there is
    open_next(&t[1], seal(&t[0], 9, 1), 1);
    must_not_seal(&t[0], 9, sizeof message, NOISE_EXHAUSTED);
    must_not_open(&t[1], 30, NOISE_EXHAUSTED);
}

void check_transport(void) {
    check_sizes();
    check_lost();
    check_intervals();
    check_one_way();
    check_exhausted();
}

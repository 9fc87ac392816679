// Datagrams: in order, late, repeated, too late, changed, of both directions; and against the transport
// messages of the same handshake.
#include "ends.h"

enum { ROOM = NOISE_MAX_DATAGRAM + 1, COUNT = 3100 };

static uint8_t message[ROOM], before[ROOM], payload[ROOM];
static uint8_t sealed[COUNT][40];                        // datagrams with payloads of 16 bytes

static void open_pair(const plan *p, uint32_t window, datagrams d[2], transport t[2]) {
    end ends[2] = {begin(p, 0), begin(p, 1)};
    pass_all(p, ends);
    for (unsigned role = 0; role < 2; role++) {
        MUST(finish_datagrams(&ends[role].h, window, &d[role]) == NOISE_OK);
        MUST(finish(&ends[role].h, 0, &t[role]) == NOISE_OK);
    }
}

static uint64_t nonce_of(const uint8_t *datagram) {
    uint64_t nonce = 0;
    for (unsigned i = 0; i < 8; i++) nonce = nonce << 8 | datagram[i];
    return nonce;
}

static void seal_some(datagrams *d, unsigned from, unsigned to) {
    noise_result result;
    uint64_t send;
    for (unsigned n = from; n < to; n++) {
        fill(payload, 16, n);
        MUST(noise_datagram_sender_nonce(&d->s, &send) == NOISE_OK && send == n);
        MUST(noise_datagram_seal(&d->s, payload, 16, sealed[n], 40, &result) == NOISE_OK && result.len == 40);
        MUST(nonce_of(sealed[n]) == n);
    }
}

static uint32_t open_it(datagrams *d, const uint8_t *datagram, size_t len, noise_result *result) {
    datagrams old = *d;
    memcpy(message, datagram, len);
    uint32_t code = noise_datagram_open(&d->r, message, len, result);
    if (code != NOISE_OK) MUST(!memcmp(&old, d, sizeof old) && !memcmp(message, datagram, len));
    return code;
}

static void must_open(datagrams *d, unsigned n, uint32_t code) {
    noise_result result;
    MUST(open_it(d, sealed[n], 40, &result) == code);
    if (code != NOISE_OK) return;
    fill(payload, 16, n);
    MUST(result.from == 8 && result.len == 16 && !memcmp(message + 8, payload, 16));
}

static void check_windows(void) {
    static const uint32_t windows[] = {64, 256, 1024};
    plan p = plan_of("XX", -1);
    datagrams d[2];
    transport t[2];
    for (unsigned i = 0; i < 3; i++) {
        unsigned w = windows[i];
        open_pair(&p, w, d, t);
        seal_some(&d[0], 0, COUNT);
        for (unsigned n = 0; n < 10; n++) must_open(&d[1], n, NOISE_OK);
        for (unsigned n = 0; n < 10; n++) must_open(&d[1], n, NOISE_REPEATED);
        must_open(&d[1], 9 + w, NOISE_OK);               // the window is now 10 to 9 + w
        must_open(&d[1], 9, NOISE_OLD);
        must_open(&d[1], 10, NOISE_OK);
        for (unsigned n = 8 + w; n > 10; n -= 3) must_open(&d[1], n, NOISE_OK);
        for (unsigned n = 8 + w; n > 10; n--) must_open(&d[1], n, (8 + w - n) % 3 ? NOISE_OK : NOISE_REPEATED);
        for (unsigned n = 10; n < 10 + w; n++) must_open(&d[1], n, NOISE_REPEATED);
        must_open(&d[1], 2000 + w - 1, NOISE_OK);
        for (unsigned n = 0; n < 2000; n++) must_open(&d[1], n, NOISE_OLD);
        for (unsigned n = 2000; n < 2000 + w - 1; n++) must_open(&d[1], n, NOISE_OK);
        must_open(&d[1], 2000 + w - 1, NOISE_REPEATED);
    }
}

// A datagram of nonce n is n, and the transport message number n of keys that are never rekeyed.
static void check_against_transport(void) {
    for (unsigned i = 0; i < PATTERNS; i++) {
        plan p = plan_of(patterns[i], 0);
        datagrams d[2];
        transport t[2];
        noise_result result;
        open_pair(&p, 256, d, t);
        for (unsigned role = 0; role < (p.one_way ? 1 : 2); role++)
            for (unsigned n = 0; n < 5; n++) {
                size_t len = length_of(n + role);
                fill(payload, len, n);
                MUST(noise_datagram_seal(&d[role].s, payload, len, before, sizeof before, &result) == NOISE_OK
                    && result.len == len + 24);
                MUST(noise_seal(&t[role].s, payload, len, message, sizeof message, &result) == NOISE_OK
                    && result.len == len + 16);
                MUST(nonce_of(before) == n && !memcmp(before + 8, message, len + 16));
                MUST(open_it(&d[!role], before, len + 24, &result) == NOISE_OK && result.len == len
                    && !memcmp(message + result.from, payload, len));
            }
    }
}

static void check_sizes(void) {
    plan p = plan_of("IK", -1);
    datagrams d[2], old;
    transport t[2];
    noise_result result;
    open_pair(&p, 64, d, t);
    old = d[0];
    memset(message, 0x44, sizeof message);
    MUST(noise_datagram_seal(&d[0].s, payload, NOISE_MAX_DATAGRAM - 23, message, sizeof message, &result)
        == NOISE_TOO_LONG);
    MUST(noise_datagram_seal(&d[0].s, payload, sizeof payload, message, sizeof message, &result) == NOISE_ROOM);
    for (size_t room = 0; room < 34; room++)
        MUST(noise_datagram_seal(&d[0].s, payload, 10, message, room, &result) == NOISE_ROOM);
    MUST(!memcmp(&old, &d[0], sizeof old));
    for (size_t i = 0; i < sizeof message; i++) MUST(message[i] == 0x44);
    MUST(noise_datagram_seal(&d[0].s, payload, 10, message, 34, &result) == NOISE_OK && result.len == 34
        && message[34] == 0x44);
    MUST(noise_datagram_open(&d[1].r, message, 34, &result) == NOISE_OK && result.from == 8 && result.len == 10);
    fill(payload, NOISE_MAX_DATAGRAM - 24, 8);
    MUST(noise_datagram_seal(&d[0].s, payload, NOISE_MAX_DATAGRAM - 24, before, NOISE_MAX_DATAGRAM, &result)
        == NOISE_OK);
    MUST(result.len == NOISE_MAX_DATAGRAM);
    MUST(open_it(&d[1], before, ROOM, &result) == NOISE_TOO_LONG);
    MUST(open_it(&d[1], before, NOISE_MAX_DATAGRAM - 1, &result) == NOISE_TAG);
    MUST(open_it(&d[1], before, NOISE_MAX_DATAGRAM, &result) == NOISE_OK && result.len == NOISE_MAX_DATAGRAM - 24);
    MUST(!memcmp(message + result.from, payload, result.len));
    for (size_t len = 0; len < 24; len++) MUST(open_it(&d[1], before, len, &result) == NOISE_SHORT);
}

static void check_changed(void) {
    plan p = plan_of("KK", 0);
    datagrams d[2];
    transport t[2];
    noise_result result;
    open_pair(&p, 64, d, t);
    seal_some(&d[0], 0, 200);
    must_open(&d[1], 100, NOISE_OK);
    for (unsigned i = 0; i < 40; i++)                    // a changed nonce may also be below the window
        for (unsigned bit = 0; bit < 8; bit++) {
            memcpy(before, sealed[90], 40);
            before[i] ^= (uint8_t)(1 << bit);
            uint32_t code = open_it(&d[1], before, 40, &result);
            MUST(code == NOISE_TAG || (i == 7 && is_in(code, CODE(NOISE_OLD) | CODE(NOISE_REPEATED))));
        }
    must_open(&d[1], 90, NOISE_OK);
    MUST(open_it(&d[0], sealed[91], 40, &result) == NOISE_TAG);       // one's own
    memcpy(before, sealed[91], 40);
    memset(before, 0xff, 8);
    MUST(open_it(&d[1], before, 40, &result) == NOISE_RESERVED);
    before[7] = 0xfe;
    MUST(open_it(&d[1], before, 40, &result) == NOISE_TAG);           // which doesn't move the window
    must_open(&d[1], 91, NOISE_OK);
    must_open(&d[1], 101, NOISE_OK);
}

static void check_one_way(void) {
    for (unsigned i = 0; i < 3; i++) {
        plan p = plan_of(patterns[i], -1);
        datagrams d[2];
        transport t[2];
        noise_result result;
        open_pair(&p, 64, d, t);
        MUST(noise_datagram_seal(&d[1].s, payload, 5, message, sizeof message, &result) == NOISE_ONE_WAY);
        seal_some(&d[0], 0, 5);
        must_open(&d[1], 3, NOISE_OK);
        MUST(open_it(&d[0], sealed[1], 40, &result) == NOISE_ONE_WAY);
    }
}

// At the nonce 2^64 - 1 nothing is sealed. The struct's nonce is set to it here, which no program does.
static void check_exhausted(void) {
    plan p = plan_of("NN", -1);
    datagrams d[2], old;
    transport t[2];
    noise_result result;
    uint64_t send;
    open_pair(&p, 64, d, t);
    old = d[0];
    seal_some(&d[0], 0, 1);
    size_t at = 0;
    while (at < sizeof old.s && old.s.opaque[at] == d[0].s.opaque[at]) at++;
    MUST(at % 8 == 0 && at < sizeof old.s);
    memset(d[0].s.opaque + at, 0xff, 8);
    MUST(noise_datagram_sender_nonce(&d[0].s, &send) == NOISE_OK && send == UINT64_MAX);
    old = d[0];
    MUST(noise_datagram_seal(&d[0].s, payload, 5, message, sizeof message, &result) == NOISE_EXHAUSTED
        && !memcmp(&old, &d[0], sizeof old));
    d[0].s.opaque[at] = 0xfe;
    MUST(noise_datagram_seal(&d[0].s, payload, 16, before, 40, &result) == NOISE_OK
        && nonce_of(before) == UINT64_MAX - 1);
    MUST(open_it(&d[1], before, 40, &result) == NOISE_OK);
    MUST(open_it(&d[1], before, 40, &result) == NOISE_REPEATED);
    must_open(&d[1], 0, NOISE_OLD);
    MUST(noise_datagram_seal(&d[0].s, payload, 5, message, sizeof message, &result) == NOISE_EXHAUSTED);
}

void check_datagrams(void) {
    check_windows();
    check_against_transport();
    check_sizes();
    check_changed();
    check_one_way();
    check_exhausted();
}

// The halves of a session: sealing in place, their kinds and marks; and codes in words.
#include "ends.h"

enum { ROOM = 100, ROUNDS = 40 };

static uint8_t payload[ROOM], first[ROOM], second[ROOM];

static void open_pair(const char *pattern, uint64_t interval, transport t[2]) {
    plan p = plan_of(pattern, -1);
    end ends[2] = {begin(&p, 0), begin(&p, 1)};
    pass_all(&p, ends);
    for (unsigned role = 0; role < 2; role++) MUST(finish(&ends[role].h, interval, &t[role]) == NOISE_OK);
}

// A struct of each kind is answered by STRUCT in the calls of each other kind.
static void check_kinds(void) {
    plan p = plan_of("NN", -1);
    end ends[2] = {begin(&p, 0), begin(&p, 1)};
    transport t;
    datagrams d;
    stream x;
    noise_cipher send, receive;
    noise_result result;
    noise_stream_result stream_result;
    uint64_t nonce;
    pass_all(&p, ends);
    MUST(finish(&ends[0].h, 0, &t) == NOISE_OK && finish_datagrams(&ends[0].h, 64, &d) == NOISE_OK);
    MUST(finish_cipher_states(&ends[0].h, &send, &receive) == NOISE_OK && finish_stream(&ends[0].h, 0, &x) == NOISE_OK);
    const void *const kinds[] = {&t.s, &t.r, &d.s, &d.r, &send, &receive, &ends[0].h, &x.s, &x.r};
    const size_t sizes[] = {sizeof t.s, sizeof t.r, sizeof d.s, sizeof d.r, sizeof send, sizeof receive,
        sizeof ends[0].h, sizeof x.s, sizeof x.r};
    for (unsigned i = 0; i < sizeof kinds / sizeof *kinds; i++) {
        // A copy of each kind in a place of each other kind, at its front.
        union {
            noise_handshake h;
            noise_sender s;
            noise_receiver r;
            noise_datagram_sender ds;
            noise_datagram_receiver dr;
            noise_stream_sender xs;
            noise_stream_receiver xr;
            noise_cipher c;
        } any;
        noise_stage_result stage;
#define COPIED (memset(&any, 0, sizeof any), memcpy(&any, kinds[i], sizes[i]))
#define IF(kind) (i == (kind) ? NOISE_OK : NOISE_STRUCT)
        COPIED, MUST(noise_seal(&any.s, payload, 5, first, ROOM, &result) == IF(0));
        COPIED, MUST(noise_seal_in_place(&any.s, first, ROOM, 5, &result) == IF(0));
        COPIED, MUST(noise_sender_nonce(&any.s, &nonce) == IF(0));
        COPIED, MUST(noise_open(&any.r, first, 30, &result) == (i == 1 ? NOISE_TAG : NOISE_STRUCT));
        COPIED, MUST(noise_receiver_nonce(&any.r, &nonce) == IF(1));
        COPIED, MUST(noise_datagram_seal(&any.ds, payload, 5, first, ROOM, &result) == IF(2));
        COPIED, MUST(noise_datagram_seal_in_place(&any.ds, first, ROOM, 5, &result) == IF(2));
        COPIED, MUST(noise_datagram_sender_nonce(&any.ds, &nonce) == IF(2));
        memset(first, 0, ROOM);
        COPIED, MUST(noise_datagram_open(&any.dr, first, 30, &result) == (i == 3 ? NOISE_TAG : NOISE_STRUCT));
        COPIED, MUST(noise_cipher_encrypt(&any.c, NULL, 0, first, ROOM, 5, &result) == IF(4));
        COPIED, MUST(noise_cipher_decrypt(&any.c, NULL, 0, first, 30, &result) == (i == 5 ? NOISE_TAG : NOISE_STRUCT));
        COPIED, MUST(noise_cipher_nonce(&any.c, &nonce) == (i == 4 || i == 5 ? NOISE_OK : NOISE_STRUCT));
        COPIED, MUST(noise_stage(&any.h, &stage) == IF(6));
        COPIED, MUST(noise_stream_write(&any.xs, payload, 5, first, ROOM, &stream_result) == IF(7));
        COPIED, MUST(noise_stream_end(&any.xs, first, ROOM, &stream_result) == IF(7));
        COPIED, MUST(noise_stream_read(&any.xr, first, 1, &stream_result) == (i == 8 ? NOISE_MORE : NOISE_STRUCT));
        COPIED, MUST(noise_stream_is_cut(&any.xr, 0) == (i == 8 ? NOISE_CUT : NOISE_STRUCT));
#undef COPIED
#undef IF
    }
}

static void check_in_place(void) {
    transport t[2], other;
    noise_result result;
    open_pair("IK", 3, t);
    other = t[0];
    for (unsigned n = 0; n < ROUNDS; n++) {
        size_t len = n;
        fill(payload, len, n);
        memset(first, 0x55, ROOM);
        memset(second, 0x55, ROOM);
        memcpy(first, payload, len);
        MUST(noise_seal_in_place(&t[0].s, first, ROOM, len, &result) == NOISE_OK && result.from == 0
            && result.len == len + 16);
        MUST(noise_seal(&other.s, payload, len, second, ROOM, &result) == NOISE_OK && !memcmp(first, second, ROOM));
        MUST(!memcmp(&t[0], &other, sizeof other));
        MUST(noise_open(&t[1].r, first, len + 16, &result) == NOISE_OK && result.len == len
            && !memcmp(first, payload, len));
    }
    for (size_t room = 0; room < 26; room++) {
        memcpy(second, first, ROOM);
        MUST(noise_seal_in_place(&t[0].s, first, room, 10, &result) == NOISE_ROOM && !memcmp(first, second, ROOM));
    }
    MUST(noise_seal_in_place(&t[0].s, first, ROOM, SIZE_MAX, &result) == NOISE_ROOM);
    MUST(!memcmp(&t[0], &other, sizeof other));
}

// A struct of which one byte of the mark differs holds nothing.
static void check_marks(void) {
    plan p = plan_of("XX", -1);
    end ends[2] = {begin(&p, 0), begin(&p, 1)};
    transport t;
    noise_stage_result stage;
    noise_result result;
    pass_all(&p, ends);
    MUST(finish(&ends[0].h, 0, &t) == NOISE_OK);
    for (unsigned i = 0; i < 4; i++)
        for (unsigned change = 1; change < 256; change++) {
            uint8_t by = (uint8_t)change;
            ends[0].h.opaque[i] ^= by, t.s.opaque[i] ^= by, t.r.opaque[i] ^= by;
            MUST(noise_stage(&ends[0].h, &stage) == NOISE_STRUCT);
            MUST(noise_seal(&t.s, payload, 5, first, ROOM, &result) == NOISE_STRUCT);
            MUST(noise_open(&t.r, first, 30, &result) == NOISE_STRUCT);
            ends[0].h.opaque[i] ^= by, t.s.opaque[i] ^= by, t.r.opaque[i] ^= by;
        }
    MUST(noise_stage(&ends[0].h, &stage) == NOISE_OK && noise_seal(&t.s, payload, 5, first, ROOM, &result) == NOISE_OK);
    MUST(noise_open(&t.r, first, 30, &result) == NOISE_TAG);
}

static void check_words(void) {
    const char *none = noise_text(1000);
    unsigned count = 0;
    for (uint32_t code = 0; code < 64; code++) {
        const char *text = noise_text(code);
        MUST(text[strlen(text) - 1] == '.');
        if (!strcmp(text, none)) continue;
        count++;
        for (uint32_t other = 0; other < code; other++) MUST(strcmp(noise_text(other), text));
    }
    MUST(count == 43);
}

void check_halves(void) {
    check_kinds();
    check_in_place();
    check_marks();
    check_words();
}

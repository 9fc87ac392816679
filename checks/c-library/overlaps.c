// Where the two buffers of a call may be: NOISE_OVERLAP, and nothing is changed, where the place of what is written has
// a byte of the other buffer; else just what the call does with two buffers that are apart.
#include "ends.h"

enum { IN = 16, BEFORE = 64, AREA = 512, FIRST = 65519 };

// All that a call can change but its buffers.
typedef struct {
    end x[2];
    stream streams;
    transport messages;
    datagrams datagrams;
    noise_cipher send, receive;
    noise_result result;
    noise_stream_result frame;
} state;

// A call that writes from one buffer to another: the code, and how many bytes it has written.
typedef uint32_t call(state *s, const uint8_t *in, size_t in_len, uint8_t *out, size_t out_len, size_t *len);

static uint32_t write_first(state *s, const uint8_t *in, size_t in_len, uint8_t *out, size_t out_len, size_t *len) {
    uint32_t code = write_on(&s->x[0], in, in_len, out, out_len, &s->result);
    if (code == NOISE_OK) *len = s->result.len;
    return code;
}
static uint32_t write_second(state *s, const uint8_t *in, size_t in_len, uint8_t *out, size_t out_len, size_t *len) {
    uint32_t code = write_on(&s->x[1], in, in_len, out, out_len, &s->result);
    if (code == NOISE_OK) *len = s->result.len;
    return code;
}
static int toy(void *context, uint8_t of_static, const uint8_t remote[32], uint8_t result[32]) {
    const uint8_t *own = public_key(*(unsigned *)context, of_static);
    for (unsigned i = 0; i < 32; i++) result[i] = own[i] ^ remote[i];
    return 1;
}
static uint32_t write_with(state *s, const uint8_t *in, size_t in_len, uint8_t *out, size_t out_len, size_t *len) {
    uint32_t code = noise_write_with(&s->x[1].h, in, in_len, out, out_len, &s->result, toy, &s->x[1].role);
    if (code == NOISE_OK) *len = s->result.len;
    return code;
}
static uint32_t write_stream(state *s, const uint8_t *in, size_t in_len, uint8_t *out, size_t out_len, size_t *len) {
    uint32_t code = noise_stream_write(&s->streams.s, in, in_len, out, out_len, &s->frame);
    if (code == NOISE_OK) *len = s->frame.len;
    return code;
}
static uint32_t seal(state *s, const uint8_t *in, size_t in_len, uint8_t *out, size_t out_len, size_t *len) {
    uint32_t code = noise_seal(&s->messages.s, in, in_len, out, out_len, &s->result);
    if (code == NOISE_OK) *len = s->result.len;
    return code;
}
static uint32_t seal_datagram(state *s, const uint8_t *in, size_t in_len, uint8_t *out, size_t out_len, size_t *len) {
    uint32_t code = noise_datagram_seal(&s->datagrams.s, in, in_len, out, out_len, &s->result);
    if (code == NOISE_OK) *len = s->result.len;
    return code;
}
// Of these `in` is the associated data; the text is IN bytes, and out_len those of the buffer, or of the message.
static uint32_t encrypt(state *s, const uint8_t *in, size_t in_len, uint8_t *out, size_t out_len, size_t *len) {
    uint32_t code = noise_cipher_encrypt(&s->send, in, in_len, out, out_len, IN, &s->result);
    if (code == NOISE_OK) *len = s->result.len;
    return code;
}
static uint32_t decrypt(state *s, const uint8_t *in, size_t in_len, uint8_t *out, size_t out_len, size_t *len) {
    uint32_t code = noise_cipher_decrypt(&s->receive, in, in_len, out, out_len, &s->result);
    if (code == NOISE_OK) *len = s->result.len;
    return code;
}

typedef struct {
    call *call;
    unsigned added;     // how many bytes what is written has more than a payload
} writer;

static const writer writers[] = {
    {write_first, 32},   // XX: e, and the payload
    {write_second, 96},  // e, the static key with its tag, the payload with its tag
    {write_with, 96},
    {write_stream, 18},
    {seal, 16},
    {seal_datagram, 24},
    {encrypt, 16},       // of as many bytes as the associated data has
};

static bool same(const state *a, const state *b) {
    return !memcmp(a, b, sizeof *a);
}

static void copy_state(state *to, const state *from) {
    memcpy(to, from, sizeof *to);
}

// The input begins d bytes after the output, which has `room` bytes for `size`.
static void check_position(const state *before, call *made, int d, size_t size, size_t room) {
    static state a, b;
    uint8_t area[AREA], wanted[AREA], in[IN], out[AREA];
    size_t len = 77, other = 0;
    bool overlaps = d > -IN && d < (int)size;
    fill(area, AREA, (unsigned)(d + 2 * BEFORE));
    memcpy(wanted, area, AREA);
    memcpy(in, area + BEFORE + d, IN);
    memcpy(out, area + BEFORE, AREA - BEFORE);
    copy_state(&a, before);
    copy_state(&b, before);
    uint32_t code = made(&a, area + BEFORE + d, IN, area + BEFORE, room, &len);
    if (overlaps) {
        MUST(code == NOISE_OVERLAP && len == 77 && same(&a, before));
    } else {
        MUST(code == NOISE_OK && len == size);
        MUST(made(&b, in, IN, out, room, &other) == NOISE_OK && other == size && same(&a, &b));
        memcpy(wanted + BEFORE, out, size);
    }
    MUST(!memcmp(area, wanted, AREA));
}

static unsigned check_positions(const state *before) {
    unsigned count = 0;
    for (unsigned w = 0; w < sizeof writers / sizeof *writers; w++) {
        int size = IN + (int)writers[w].added;
        for (int d = -IN - 16; d <= size + 16; d++, count++) {
            check_position(before, writers[w].call, d, (size_t)size, (size_t)size);
            check_position(before, writers[w].call, d, (size_t)size, AREA - BEFORE);
        }
    }
    return count;
}

// A message with associated data at each place, also in the message and in its tag.
static void check_decrypting(const state *before) {
    static state a;
    for (int d = -IN - 16; d <= 2 * IN + 16; d++) {
        uint8_t area[AREA], old[AREA], ad[IN], text[IN];
        size_t len = 77;
        bool overlaps = d > -IN && d < 2 * IN;
        copy_state(&a, before);
        fill(area, AREA, (unsigned)(d + 2 * BEFORE));
        memcpy(ad, area + BEFORE + d, IN);
        memcpy(text, area + BEFORE, IN);
        MUST(noise_cipher_encrypt(&a.send, ad, IN, area + BEFORE, 2 * IN, IN, &a.result) == NOISE_OK);
        memcpy(old, area, AREA);
        copy_state(&a, before);
        uint32_t code = decrypt(&a, area + BEFORE + d, IN, area + BEFORE, 2 * IN, &len);
        if (overlaps) {
            MUST(code == NOISE_OVERLAP && len == 77 && same(&a, before) && !memcmp(area, old, AREA));
        } else {
            MUST(code == NOISE_OK && len == IN);
            MUST(!memcmp(area + BEFORE + a.result.from, text, IN) && !memcmp(area, old, BEFORE));
        }
    }
}

// No byte is in two buffers where one has none; nor where a buffer is too short for what would reach the other.
static void check_short(const state *before) {
    static state a;
    for (unsigned w = 0; w < sizeof writers / sizeof *writers; w++) {
        uint8_t area[AREA];
        size_t len = 0;
        copy_state(&a, before);
        fill(area, AREA, w);
        MUST(writers[w].call(&a, area + 8, IN, area, 8, &len) == NOISE_ROOM);
        MUST(writers[w].call(&a, area, IN, area, 0, &len) == NOISE_ROOM);
        if (writers[w].call != encrypt) MUST(writers[w].call(&a, area + 4, 0, area, AREA, &len) == NOISE_OK);
    }
    uint8_t area[AREA];
    size_t len = 0;
    fill(area, AREA, 9);
    copy_state(&a, before);
    MUST(encrypt(&a, area + 4, 0, area, AREA, &len) == NOISE_OK && len == 2 * IN);
    MUST(decrypt(&a, area + 4, 0, area, len, &len) == NOISE_OK && len == IN);
}

// What a call finds before it looks at addresses: a handshake that can't write has no place for its message.
static void check_other_codes(const state *before) {
    static state a;
    static uint8_t area[AREA], large[NOISE_MAX_MESSAGE + 1];
    size_t len = 0;
    copy_state(&a, before);
    MUST(noise_write(&a.x[0].h, large, sizeof large, large, sizeof large, &a.result) == NOISE_TOO_LONG);
    MUST(write_first(&a, area, IN, area, AREA, &len) == NOISE_OVERLAP);
    MUST(write_first(&a, area, IN, area + IN, AREA - IN, &len) == NOISE_OK);
    MUST(write_first(&a, area, IN, area, AREA, &len) == NOISE_NOT_YOUR_TURN);
    memset(&a.x[0].h, 0, sizeof a.x[0].h);
    MUST(write_first(&a, area, IN, area, AREA, &len) == NOISE_STRUCT);
    MUST(noise_seal(&a.messages.s, area, SIZE_MAX, area + IN, AREA - IN, &a.result) == NOISE_OVERLAP);
}

// Of a long payload a frame has the first bytes alone, and must leave the others as they are.
static void check_long_payload(const state *before) {
    static uint8_t area[3 * (NOISE_MAX_FRAME + FIRST)], *const payload = area + NOISE_MAX_FRAME;
    const size_t payload_len = FIRST + 100, size = NOISE_MAX_FRAME;
    struct { uint8_t *out; uint32_t code; } places[] = {
        {payload - size, NOISE_OK}, {payload - size + 1, NOISE_OVERLAP}, {payload + FIRST - 1, NOISE_OVERLAP},
        {payload + FIRST, NOISE_OVERLAP}, {payload + payload_len - 1, NOISE_OVERLAP},
        {payload + payload_len, NOISE_OK},
    };
    for (unsigned i = 0; i < sizeof places / sizeof *places; i++) {
        static state a;
        size_t len = 0;
        for (size_t more = 0; more <= 200; more += 200) {
            copy_state(&a, before);
            MUST(write_stream(&a, payload, payload_len, places[i].out, size + more, &len) == places[i].code);
            MUST(places[i].code != NOISE_OK || (len == size && a.frame.used == FIRST));
        }
    }
}

void check_overlaps(void) {
    static state before;
    static uint8_t message[AREA];
    plan p = plan_of("XX", -1);
    end ends[2] = {begin(&p, 0), begin(&p, 1)}, passed[2] = {begin(&p, 0), begin(&p, 1)};
    before.x[0] = ends[0];
    MUST(write_on(&ends[0], NULL, 0, message, sizeof message, &before.result) == NOISE_OK);
    MUST(read_on(&ends[1], message, before.result.len, &before.result) == NOISE_OK);
    before.x[1] = ends[1];
    pass_all(&p, passed);
    transport other;
    noise_cipher none;
    MUST(finish_stream(&passed[0].h, 0, &before.streams) == NOISE_OK);
    MUST(finish(&passed[0].h, 0, &before.messages) == NOISE_OK && finish(&passed[1].h, 0, &other) == NOISE_OK);
    MUST(finish_datagrams(&passed[0].h, 64, &before.datagrams) == NOISE_OK);
    MUST(finish_cipher_states(&passed[0].h, &before.send, &none) == NOISE_OK);
    MUST(finish_cipher_states(&passed[1].h, &none, &before.receive) == NOISE_OK);
    printf("c-library: %u places of two buffers\n", check_positions(&before));
    check_decrypting(&before);
    check_short(&before);
    check_other_codes(&before);
    check_long_payload(&before);
}

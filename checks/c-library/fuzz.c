// Calls of the library on random values, for so many seconds, and at least 20 rounds: fuzz SECONDS [SEED]. What a call
// gets as const is on pages that can't be written, every place ends before a page that can't be touched or begins after
// one, and what a refusal leaves is compared byte by byte. Genuine messages have to be taken and changed ones refused;
// of structs with changed bytes each call has to answer one of its codes. The seed is printed: with it the run is the
// same again, as far as it goes.
#define _GNU_SOURCE
#include "ends.h"
#include <inttypes.h>
#include <stdlib.h>
#include <sys/mman.h>
#include <time.h>
#include <unistd.h>

enum { ROOM = 17 * 4096, MARGIN = 64, MARK = 0xc3, MOST_DATAGRAMS = 200 };

// Pages between two that can't be touched, and the bytes of them that a call is handed.
typedef struct {
    uint8_t *pages, *at;
    size_t len;
    bool is_const;
} place;

typedef uint32_t writing(void *object, const uint8_t *payload, size_t payload_len, uint8_t *out, size_t out_len,
                         noise_result *result);
typedef uint32_t opening(void *object, uint8_t *message, size_t message_len, noise_result *result);

static place struct_place, first_place, second_place, out_place, result_place;
static uint8_t payload[ROOM], message[ROOM], before[ROOM], datagrams_sealed[MOST_DATAGRAMS][400];
static size_t datagram_lens[MOST_DATAGRAMS];
static uint64_t state;
static unsigned long calls, went_well, rounds;

static const uint64_t begun = CODE(NOISE_OK) | CODE(NOISE_STRUCT);
static const uint64_t write_codes = CODE(NOISE_OK) | CODE(NOISE_NOT_YOUR_TURN) | CODE(NOISE_TOO_LONG) | CODE(NOISE_DONE)
    | CODE(NOISE_ENDED) | CODE(NOISE_AGREEMENT) | CODE(NOISE_ROOM) | CODE(NOISE_WANTED) | CODE(NOISE_WANTED_PSK)
    | CODE(NOISE_STRUCT);
static const uint64_t read_codes = CODE(NOISE_OK) | CODE(NOISE_NOT_YOUR_TURN) | CODE(NOISE_DONE) | CODE(NOISE_ENDED)
    | CODE(NOISE_AGREEMENT) | CODE(NOISE_SHORT) | CODE(NOISE_TAG) | CODE(NOISE_WANTED) | CODE(NOISE_WANTED_PSK)
    | CODE(NOISE_STRUCT) | CODE(NOISE_LENGTH);
static const uint64_t psk_codes = CODE(NOISE_OK) | CODE(NOISE_STRUCT) | CODE(NOISE_PSK_COUNT);
static const uint64_t seal_codes = CODE(NOISE_OK) | CODE(NOISE_STRUCT) | CODE(NOISE_ROOM) | CODE(NOISE_ONE_WAY)
    | CODE(NOISE_TOO_LONG) | CODE(NOISE_EXHAUSTED);
static const uint64_t open_codes = CODE(NOISE_OK) | CODE(NOISE_STRUCT) | CODE(NOISE_LENGTH) | CODE(NOISE_ONE_WAY)
    | CODE(NOISE_EXHAUSTED) | CODE(NOISE_SHORT) | CODE(NOISE_TAG);
static const uint64_t datagram_codes = CODE(NOISE_OK) | CODE(NOISE_STRUCT) | CODE(NOISE_ONE_WAY) | CODE(NOISE_SHORT)
    | CODE(NOISE_TOO_LONG) | CODE(NOISE_RESERVED) | CODE(NOISE_OLD) | CODE(NOISE_REPEATED) | CODE(NOISE_TAG);
static const uint64_t cipher_codes = CODE(NOISE_OK) | CODE(NOISE_STRUCT) | CODE(NOISE_ONE_WAY) | CODE(NOISE_LENGTH)
    | CODE(NOISE_ROOM) | CODE(NOISE_EXHAUSTED) | CODE(NOISE_TOO_LONG) | CODE(NOISE_SHORT) | CODE(NOISE_TAG);
static const uint64_t start_codes = CODE(NOISE_OK) | CODE(NOISE_NAME) | CODE(NOISE_PATTERN)
    | CODE(NOISE_EPHEMERAL_MISSING) | CODE(NOISE_STATIC_MISSING) | CODE(NOISE_REMOTE_MISSING)
    | CODE(NOISE_REMOTE_UNEXPECTED) | CODE(NOISE_PSK_COUNT) | CODE(NOISE_LENGTH);

static uint32_t random_number(void) {
    state = state * 6364136223846793005u + 1442695040888963407u;
    return (uint32_t)(state >> 33);
}

static size_t below(size_t limit) {
    return random_number() % limit;
}

static bool one_in(size_t n) {
    return below(n) == 0;
}

// Mostly short, now and then next to the greatest.
static size_t random_len(void) {
    if (one_in(40)) return NOISE_MAX_MESSAGE - 60 + below(90);
    return one_in(8) ? below(5000) : below(200);
}

static void make_place(place *p) {
    size_t page = (size_t)sysconf(_SC_PAGESIZE);
    MUST(ROOM % page == 0);
    uint8_t *at = mmap(0, ROOM + 2 * page, PROT_NONE, MAP_PRIVATE | MAP_ANONYMOUS, -1, 0);
    MUST(at != MAP_FAILED && mprotect(at + page, ROOM, PROT_READ | PROT_WRITE) == 0);
    p->pages = at + page;
}

// Puts these bytes, or a filling where there are none, at one of the two edges, with marked bytes on the other side.
static void *put(place *p, const void *bytes, size_t len, bool is_const) {
    MUST(len + MARGIN <= ROOM);
    if (p->is_const) MUST(mprotect(p->pages, ROOM, PROT_READ | PROT_WRITE) == 0);
    bool at_end = !one_in(3);
    p->at = at_end ? p->pages + ROOM - len : p->pages;
    p->len = len;
    p->is_const = is_const;
    memset(at_end ? p->at - MARGIN : p->at + len, MARK, MARGIN);
    if (bytes)
        memcpy(p->at, bytes, len);
    else
        memset(p->at, 0x5e, len);
    if (is_const) MUST(mprotect(p->pages, ROOM, PROT_READ) == 0);
    return p->at;
}

// Bytes that have a count: of none, now and then NULL.
static uint8_t *put_bytes(place *p, const void *bytes, size_t len, bool is_const) {
    uint8_t *at = put(p, bytes, len, is_const);
    return len == 0 && one_in(2) ? NULL : at;
}

static void must_be_marked(const place *p) {
    const uint8_t *margin = p->at == p->pages ? p->at + p->len : p->at - MARGIN;
    for (unsigned i = 0; i < MARGIN; i++) MUST(margin[i] == MARK);
}

static uint32_t counted(uint32_t code, uint64_t codes) {
    calls++;
    went_well += code == NOISE_OK;
    MUST(is_in(code, codes));
    must_be_marked(&struct_place);
    must_be_marked(&first_place);
    must_be_marked(&second_place);
    must_be_marked(&out_place);
    must_be_marked(&result_place);
    return code;
}

static uint32_t write_handshake(void *object, const uint8_t *bytes, size_t len, uint8_t *out, size_t out_len,
                                noise_result *result) {
    return noise_write((noise_handshake *)object, bytes, len, out, out_len, result);
}

static uint32_t seal_next(void *object, const uint8_t *bytes, size_t len, uint8_t *out, size_t out_len,
                          noise_result *result) {
    return noise_seal((noise_sender *)object, bytes, len, out, out_len, result);
}

static uint32_t seal_datagram(void *object, const uint8_t *bytes, size_t len, uint8_t *out, size_t out_len,
                              noise_result *result) {
    return noise_datagram_seal((noise_datagram_sender *)object, bytes, len, out, out_len, result);
}

// Puts the payload into the buffer from `from` on, as far as there is room, and at a refusal the filling again:
// call_writing compares that.
static void put_payload(uint8_t *out, size_t out_len, size_t from, const uint8_t *bytes, size_t len) {
    size_t room = out_len > from ? out_len - from : 0, some = len < room ? len : room;
    if (some) memcpy(out + from, bytes, some);
}

static void take_payload(uint8_t *out, size_t out_len, size_t from, const uint8_t *bytes, size_t len) {
    size_t room = out_len > from ? out_len - from : 0, some = len < room ? len : room;
    if (!some) return;
    MUST(!memcmp(out + from, bytes, some));
    memset(out + from, 0x5e, some);
}

static uint32_t seal_in_place(void *object, const uint8_t *bytes, size_t len, uint8_t *out, size_t out_len,
                              noise_result *result) {
    put_payload(out, out_len, 0, bytes, len);
    uint32_t code = noise_seal_in_place((noise_sender *)object, out, out_len, len, result);
    if (code != NOISE_OK) take_payload(out, out_len, 0, bytes, len);
    return code;
}

static uint32_t seal_datagram_in_place(void *object, const uint8_t *bytes, size_t len, uint8_t *out, size_t out_len,
                                       noise_result *result) {
    put_payload(out, out_len, 8, bytes, len);
    uint32_t code = noise_datagram_seal_in_place((noise_datagram_sender *)object, out, out_len, len, result);
    if (code != NOISE_OK) take_payload(out, out_len, 8, bytes, len);
    return code;
}

static uint32_t read_handshake(void *object, uint8_t *bytes, size_t len, noise_result *result) {
    return noise_read((noise_handshake *)object, bytes, len, result);
}

static uint32_t try_handshake(void *object, uint8_t *bytes, size_t len, noise_result *result) {
    return noise_try_read((noise_handshake *)object, bytes, len, result);
}

static uint32_t open_next(void *object, uint8_t *bytes, size_t len, noise_result *result) {
    return noise_open((noise_receiver *)object, bytes, len, result);
}

static uint32_t open_datagram(void *object, uint8_t *bytes, size_t len, noise_result *result) {
    return noise_datagram_open((noise_datagram_receiver *)object, bytes, len, result);
}

// The associated data of a cipher state: some bytes of the payload's place, and of each other call none.
static size_t ad_len;

static uint32_t encrypt_in_place(void *object, const uint8_t *bytes, size_t len, uint8_t *out, size_t out_len,
                                 noise_result *result) {
    put_payload(out, out_len, 0, bytes, len);
    const uint8_t *ad = put_bytes(&second_place, payload, ad_len, true);
    uint32_t code = noise_cipher_encrypt((noise_cipher *)object, ad, ad_len, out, out_len, len, result);
    if (code != NOISE_OK) take_payload(out, out_len, 0, bytes, len);
    return code;
}

static uint32_t decrypt_in_place(void *object, uint8_t *bytes, size_t len, noise_result *result) {
    const uint8_t *ad = put_bytes(&second_place, payload, ad_len, true);
    return noise_cipher_decrypt((noise_cipher *)object, ad, ad_len, bytes, len, result);
}

// A refused call of a half returns nothing but its code.
static void must_be_unreported(const noise_result *result) {
    for (size_t i = 0; i < sizeof *result; i++) MUST(((const uint8_t *)result)[i] == 0x5e);
}

// Writes or seals `len` bytes of `payload` to `message`, with room for `out_len`.
static uint32_t call_writing(writing *call, void *object, size_t size, uint64_t codes, size_t len, size_t out_len,
                             noise_result *result) {
    void *in_place = put(&struct_place, object, size, false);
    const uint8_t *bytes = put_bytes(&first_place, payload, len, true);
    uint8_t *out = put_bytes(&out_place, NULL, out_len, false);
    noise_result *result_there = put(&result_place, NULL, sizeof *result, false);
    memset(before, 0x5e, out_len);
    uint32_t code = counted(call(in_place, bytes, len, out, out_len, result_there), codes);
    *result = *result_there;
    size_t written = code == NOISE_OK ? result->len : 0;
    MUST(written <= out_len);
    if (code != NOISE_AGREEMENT) MUST(!memcmp(out_place.at + written, before, out_len - written));
    if (code != NOISE_OK) MUST(!memcmp(in_place, object, size));
    if (code != NOISE_OK && call != write_handshake) must_be_unreported(result_there);
    memcpy(object, in_place, size);
    memcpy(message, out_place.at, written);
    return code;
}

// Reads or opens these bytes. What a refused message of a handshake leaves is a struct that has ended.
static uint32_t call_opening(opening *call, void *object, size_t size, uint64_t codes, uint8_t *bytes, size_t len,
                             noise_result *result) {
    void *in_place = put(&struct_place, object, size, false);
    uint8_t *there = put_bytes(&out_place, bytes, len, false);
    noise_result *result_there = put(&result_place, NULL, sizeof *result, false);
    uint32_t code = counted(call(in_place, there, len, result_there), codes);
    *result = *result_there;
    bool may_end = call == read_handshake && is_in(code, CODE(NOISE_SHORT) | CODE(NOISE_TAG) | CODE(NOISE_AGREEMENT));
    if (code == NOISE_OK)
        MUST(result->from <= len && result->len <= len - result->from);
    else
        MUST(!memcmp(out_place.at, bytes, len));
    if (code != NOISE_OK && !may_end) MUST(!memcmp(in_place, object, size));
    if (code != NOISE_OK && call != read_handshake && call != try_handshake) must_be_unreported(result_there);
    if (is_in(code,
            CODE(NOISE_STRUCT) | CODE(NOISE_LENGTH) | CODE(NOISE_ENDED) | CODE(NOISE_DONE) | CODE(NOISE_NOT_YOUR_TURN)))
        must_be_unreported(result_there);
    memcpy(object, in_place, size);
    memcpy(bytes, out_place.at, len);
    return code;
}

static void hand_in_there(noise_handshake *h, unsigned role, const noise_result *result, uint64_t codes) {
    uint8_t answer[32];
    const uint8_t *own = public_key(role, result->of_static & 1);
    for (unsigned i = 0; i < 32; i++) answer[i] = own[i] ^ result->remote[i];
    noise_handshake *there = put(&struct_place, h, sizeof *h, false);
    uint8_t *remote_there = put(&first_place, result->remote, 32, true),
            *answer_there = put(&second_place, answer, 32, true);
    uint32_t code = counted(noise_answer(there, result->of_static, remote_there, answer_there), codes);
    if (code != NOISE_OK) MUST(!memcmp(there, h, sizeof *h));
    *h = *there;
}

// Supplies the secret of the first psk token that lacks one.
static uint32_t set_psk_there(noise_handshake *h, const uint8_t *psk, uint64_t codes) {
    noise_handshake *there = put(&struct_place, h, sizeof *h, false);
    uint32_t code = counted(noise_set_psk(there, put(&first_place, psk, 32, true)), codes);
    if (code != NOISE_OK) MUST(!memcmp(there, h, sizeof *h));
    *h = *there;
    return code;
}

static void unset_psk_there(noise_handshake *h, uint64_t codes) {
    noise_handshake *there = put(&struct_place, h, sizeof *h, false);
    uint32_t code = counted(noise_unset_psk(there), codes);
    if (code != NOISE_OK) MUST(!memcmp(there, h, sizeof *h));
    *h = *there;
}

// Supplies what a call has asked for: a psk at once, or after another one that is taken back. False if
// it has asked for nothing.
static bool supply_there(noise_handshake *h, unsigned role, unsigned *given, const noise_result *result,
                         uint32_t code) {
    if (code == NOISE_WANTED) hand_in_there(h, role, result, CODE(NOISE_OK));
    if (code == NOISE_WANTED_PSK) {
        MUST(result->remote_known <= 1);
        if (one_in(4)) {
            set_psk_there(h, secret(7), CODE(NOISE_OK));
            unset_psk_there(h, CODE(NOISE_OK));
        }
        set_psk_there(h, secret((*given)++), CODE(NOISE_OK));
    }
    return code == NOISE_WANTED || code == NOISE_WANTED_PSK;
}

static uint32_t write_there(noise_handshake *h, unsigned role, unsigned *given, size_t len, size_t out_len,
                            noise_result *result) {
    uint32_t code;
    do code = call_writing(write_handshake, h, sizeof *h, write_codes, len, out_len, result);
    while (supply_there(h, role, given, result, code));
    return code;
}

static uint32_t read_there(noise_handshake *h, unsigned role, unsigned *given, uint8_t *bytes, size_t len,
                           noise_result *result) {
    uint32_t code;
    do code = call_opening(one_in(2) ? read_handshake : try_handshake, h, sizeof *h, read_codes, bytes, len, result);
    while (supply_there(h, role, given, result, code));
    return code;
}

static void change_bytes(uint8_t *bytes, size_t len) {
    for (size_t n = 1 + below(one_in(3) ? 20 : 2); n && len; n--) bytes[below(len)] ^= (uint8_t)(1 + below(255));
}

// A call that changes no struct: at OK only what it returns.
#define ASK(object, object_type, out_size, codes, call)                               \
    do {                                                                              \
        const object_type *k = put(&struct_place, object, sizeof(object_type), true); \
        void *o = put(&out_place, NULL, out_size, false);                             \
        memset(before, 0x5e, out_size);                                               \
        if (counted(call, codes) != NOISE_OK) MUST(!memcmp(o, before, out_size));     \
    } while (0)

static void ask_handshake(const noise_handshake *h) {
    uint64_t ends_codes = begun | CODE(NOISE_NOT_DONE) | CODE(NOISE_ENDED);
    uint32_t window = (uint32_t[]){64, 256, 1024, 0, 65}[below(5)];
    ASK(h, noise_handshake, sizeof(size_t), begun | CODE(NOISE_NOT_DUE), noise_message_len(k, random_len(), o));
    ASK(h, noise_handshake, 32, begun, noise_hash(k, o));
    ASK(h, noise_handshake, sizeof(noise_key), begun, noise_remote_static(k, o));
    ASK(h, noise_handshake, sizeof(noise_stage_result), begun, noise_stage(k, o));
    // The two halves of each kind, one after the other in one place.
    ASK(h, noise_handshake, sizeof(transport), ends_codes, finish(k, random_number(), o));
    ASK(h, noise_handshake, sizeof(datagrams), ends_codes | CODE(NOISE_WINDOW), finish_datagrams(k, window, o));
    ASK(h, noise_handshake, sizeof(stream), ends_codes, finish_stream(k, random_number(), o));
    ASK(h, noise_handshake, 2 * sizeof(noise_cipher), ends_codes, finish_cipher_states(k, o, (noise_cipher *)o + 1));
}

static void ask_halves(const transport *t, const datagrams *d, const stream *x, const noise_cipher *c) {
    const noise_stream_receiver *r = put(&struct_place, &x->r, sizeof x->r, true);
    counted(noise_stream_is_cut(r, below(3)), begun | CODE(NOISE_CUT));
    ASK(&t->s, noise_sender, 8, begun, noise_sender_nonce(k, o));
    ASK(&t->r, noise_receiver, 8, begun, noise_receiver_nonce(k, o));
    ASK(&d->s, noise_datagram_sender, 8, begun, noise_datagram_sender_nonce(k, o));
    ASK(c, noise_cipher, 8, begun | CODE(NOISE_ONE_WAY), noise_cipher_nonce(k, o));
}

// All calls on a copy whose bytes may be changed, with bytes of any kind.
static void disturb_handshake(const noise_handshake *h, unsigned role) {
    static uint8_t bytes[ROOM];
    noise_handshake copy = *h;
    noise_result result = {0};
    size_t len = random_len();
    if (!one_in(3)) change_bytes(copy.opaque, sizeof copy);
    for (size_t i = 0; i < len; i++) bytes[i] = (uint8_t)random_number();
    ask_handshake(&copy);
    call_writing(write_handshake, &copy, sizeof copy, write_codes, random_len(), random_len(), &result);
    call_opening(read_handshake, &copy, sizeof copy, read_codes, bytes, len, &result);
    hand_in_there(&copy, role, &result, CODE(NOISE_OK) | CODE(NOISE_STRUCT));
    if (one_in(2)) set_psk_there(&copy, bytes, psk_codes);
    if (one_in(2)) unset_psk_there(&copy, CODE(NOISE_OK) | CODE(NOISE_STRUCT));
    call_opening(read_handshake, &copy, sizeof copy, read_codes, bytes, len, &result);
}

// All that one party has after a handshake.
typedef struct {
    transport t;
    datagrams d;
    stream x;
    noise_cipher send, receive;
} party;

static const uint64_t stream_write_codes = CODE(NOISE_OK) | CODE(NOISE_STRUCT) | CODE(NOISE_ROOM) | CODE(NOISE_CLOSED)
    | CODE(NOISE_ONE_WAY) | CODE(NOISE_EXHAUSTED);
static const uint64_t stream_read_codes = CODE(NOISE_OK) | CODE(NOISE_STRUCT) | CODE(NOISE_MORE) | CODE(NOISE_END)
    | CODE(NOISE_CLOSED) | CODE(NOISE_SHORT) | CODE(NOISE_TAG) | CODE(NOISE_EXHAUSTED) | CODE(NOISE_ONE_WAY);

// Writes a frame of `len` bytes of `payload`, or the end, to `message`, with room for `out_len`.
static uint32_t write_stream(noise_stream_sender *s, bool ends, size_t len, size_t out_len,
                             noise_stream_result *result) {
    noise_stream_sender *there = put(&struct_place, s, sizeof *s, false);
    const uint8_t *bytes = put_bytes(&first_place, payload, len, true);
    uint8_t *out = put_bytes(&out_place, NULL, out_len, false);
    noise_stream_result *result_there = put(&result_place, NULL, sizeof *result, false);
    memset(before, 0x5e, out_len > sizeof *result ? out_len : sizeof *result);
    uint32_t code = ends ? noise_stream_end(there, out, out_len, result_there)
                         : noise_stream_write(there, bytes, len, out, out_len, result_there);
    counted(code, stream_write_codes);
    *result = *result_there;
    size_t written = code == NOISE_OK ? result->len : 0;
    MUST(written <= out_len && !memcmp(out_place.at + written, before, out_len - written));
    if (code != NOISE_OK) MUST(!memcmp(there, s, sizeof *s) && !memcmp(result_there, before, sizeof *result));
    *s = *there;
    memcpy(message, out_place.at, written);
    return code;
}

// Reads a stream's frame in these bytes. What a refused one leaves is a half that is closed.
static uint32_t read_stream(noise_stream_receiver *r, uint8_t *bytes, size_t len, noise_stream_result *result) {
    noise_stream_receiver *there = put(&struct_place, r, sizeof *r, false);
    uint8_t *buffer = put_bytes(&out_place, bytes, len, false);
    noise_stream_result *result_there = put(&result_place, NULL, sizeof *result, false);
    uint32_t code = counted(noise_stream_read(there, buffer, len, result_there), stream_read_codes);
    *result = *result_there;
    if (code == NOISE_OK)
        MUST(result->used <= len && result->from + result->len + NOISE_TAG_LEN == result->used && result->len);
    if (code == NOISE_END) MUST(result->used == NOISE_STREAM_OVERHEAD && len >= result->used);
    if (code == NOISE_MORE) MUST(result->wanted && result->wanted <= NOISE_MAX_FRAME);
    if (code != NOISE_OK) MUST(!memcmp(out_place.at, bytes, len));
    if (is_in(code, CODE(NOISE_MORE) | CODE(NOISE_CLOSED) | CODE(NOISE_STRUCT))) MUST(!memcmp(there, r, sizeof *r));
    if (is_in(code, open_codes & ~begun))
        MUST(noise_stream_read(there, buffer ? buffer : message, len, result) == NOISE_CLOSED);
    *r = *there;
    memcpy(bytes, out_place.at, len);
    return code;
}

static void disturb_party(const party *of) {
    party copy = *of;
    noise_result result;
    if (!one_in(3)) change_bytes((uint8_t *)&copy, sizeof copy);
    ask_halves(&copy.t, &copy.d, &copy.x, one_in(2) ? &copy.send : &copy.receive);
    call_writing(one_in(2) ? seal_next : seal_in_place, &copy.t.s, sizeof copy.t.s, seal_codes, random_len(),
        random_len(), &result);
    call_opening(open_next, &copy.t.r, sizeof copy.t.r, open_codes, payload, random_len(), &result);
    call_writing(one_in(2) ? seal_datagram : seal_datagram_in_place, &copy.d.s, sizeof copy.d.s, seal_codes,
        random_len(), random_len(), &result);
    call_opening(open_datagram, &copy.d.r, sizeof copy.d.r, datagram_codes, payload, random_len(), &result);
    noise_stream_result place;
    write_stream(&copy.x.s, one_in(4), random_len(), random_len(), &place);
    read_stream(&copy.x.r, payload, random_len(), &place);
    ad_len = random_len();
    call_writing(encrypt_in_place, &copy.send, sizeof copy.send, cipher_codes, random_len(), random_len(), &result);
    call_opening(decrypt_in_place, &copy.receive, sizeof copy.receive, cipher_codes, payload, random_len(), &result);
    noise_cipher *there = put(&struct_place, &copy.send, sizeof copy.send, false);
    counted(one_in(2) ? noise_cipher_rekey(there) : noise_cipher_set_nonce(there, random_number()),
        begun | CODE(NOISE_ONE_WAY));
}

static uint32_t start_there(noise_handshake *h, const void *pattern, size_t len, size_t prologue_len,
                            const noise_setup *setup) {
    noise_handshake old = *h;
    noise_handshake *there = put(&struct_place, h, sizeof *h, false);
    const uint8_t *pattern_there = put_bytes(&first_place, pattern, len, true);
    const uint8_t *prologue_there = put_bytes(&second_place, prologue(), prologue_len, true);
    const noise_setup *setup_there = put(&out_place, setup, sizeof *setup, true);
    uint32_t code = noise_start(there, pattern_there, len, prologue_there, prologue_len, setup_there);
    counted(code, start_codes);
    if (code != NOISE_OK) MUST(!memcmp(there, &old, sizeof old));
    *h = *there;
    return code;
}

// Patterns, prologues and setups that are wrong in some byte, or not at all.
static void disturb_start(const plan *p, unsigned role) {
    noise_handshake h;
    uint8_t pattern[500];
    const char *right = p->text[0] ? p->text : p->name;
    size_t len = strlen(right);
    noise_setup setup = setup_of(p, role);
    memset(&h, 0x33, sizeof h);
    memcpy(pattern, right, len);
    if (one_in(2)) change_bytes(pattern, len);
    if (one_in(3)) change_bytes((uint8_t *)&setup, sizeof setup);
    if (one_in(4)) len = below(len + 1);
    size_t prologue_len = one_in(30) ? NOISE_MAX_PROLOGUE + 1 : random_len() % (NOISE_MAX_PROLOGUE + 1);
    start_there(&h, pattern, len, prologue_len, &setup);
    noise_pattern_result *result = put(&result_place, NULL, sizeof *result, false);
    counted(noise_check_pattern(put_bytes(&first_place, pattern, len, true), len, result),
        CODE(NOISE_OK) | (CODE(NOISE_RULE + 1) - CODE(NOISE_HEADING)));
    const uint8_t *at = put_bytes(&first_place, pattern, len, true);
    noise_pattern_info *info = put(&second_place, NULL, sizeof *info, false);
    counted(noise_pattern(at, len, info, result),
        CODE(NOISE_OK) | CODE(NOISE_NAME) | (CODE(NOISE_RULE + 1) - CODE(NOISE_HEADING)));
    noise_message_layout *layout = put(&second_place, NULL, sizeof *layout, false);
    counted(noise_layout(at, len, (uint8_t)below(10), random_len(), layout),
        CODE(NOISE_OK) | CODE(NOISE_NAME) | CODE(NOISE_PATTERN) | CODE(NOISE_NOT_DUE));
}

static plan random_plan(void) {
    static const char *const ours[] = {"NK1:\n  <- s\n  ...\n  -> e\n  <- e, ee, es\n",
        "XX1psk0+psk3:\n  -> psk, e\n  <- e, ee, s\n  -> es, s, se, psk\n"};
    if (one_in(6)) return plan_of_text(ours[0], "NK", 0, true);
    if (one_in(6)) return plan_of_text(ours[1], "XX", 2, true);
    const char *base = patterns[below(PATTERNS)];
    plan plain = plan_of(base, -1), p = plan_of(base, (int)below(plain.messages + 2) - 1);
    p.prologue_len = one_in(9) ? NOISE_MAX_PROLOGUE : below(100);
    return p;
}

// A changed message on a copy: it may be one that nobody can tell from a genuine one, as long as no key is agreed on.
static void try_changed(const noise_handshake *h, unsigned role, unsigned given, size_t len) {
    static uint8_t changed[ROOM];
    noise_handshake copy = *h;
    noise_result result;
    memcpy(changed, message, len);
    change_bytes(changed, len);
    if (one_in(3)) len = below(len + 1);
    uint32_t code = read_there(&copy, role, &given, changed, len, &result);
    MUST(is_in(code, CODE(NOISE_OK) | CODE(NOISE_SHORT) | CODE(NOISE_TAG)));
    if (code == NOISE_OK) return;
    // If it was only tried, it is refused again.
    uint32_t again = call_opening(read_handshake, &copy, sizeof copy, read_codes, changed, len, &result);
    MUST(again == NOISE_ENDED || again == code);
    MUST(call_opening(read_handshake, &copy, sizeof copy, read_codes, changed, len, &result) == NOISE_ENDED);
}

static void shake_hands(const plan *p, noise_handshake h[2], unsigned given[2]) {
    noise_result result;
    for (unsigned m = 0; m < p->messages; m++) {
        unsigned writer = m % 2, reader = 1 - writer;
        size_t len = random_len() % 60000, needed;
        disturb_handshake(&h[below(2)], writer);
        MUST(noise_message_len(&h[writer], len, &needed) == NOISE_OK);
        MUST(write_there(&h[writer], writer, &given[writer], len, below(needed), &result) == NOISE_ROOM
            && result.len == needed);
        size_t room = needed + (one_in(2) ? 0 : below(50));
        MUST(write_there(&h[writer], writer, &given[writer], len, room, &result) == NOISE_OK && result.len == needed);
        try_changed(&h[reader], reader, given[reader], needed);
        MUST(read_there(&h[reader], reader, &given[reader], message, needed, &result) == NOISE_OK);
        MUST(result.len == len && !memcmp(message + result.from, payload, len));
    }
}

static void use_halves(const plan *p, party parties[2]) {
    noise_result result;
    for (size_t n = below(12); n; n--) {
        unsigned sender = p->one_way ? 0 : (unsigned)below(2);
        size_t len = random_len() % (NOISE_MAX_MESSAGE - NOISE_TAG_LEN + 1), sealed = len + NOISE_TAG_LEN;
        noise_sender *s = &parties[sender].t.s;
        noise_receiver *r = &parties[!sender].t.r;
        writing *seal = one_in(2) ? seal_next : seal_in_place;
        disturb_party(&parties[below(2)]);
        MUST(call_writing(seal, s, sizeof *s, seal_codes, len, below(sealed), &result) == NOISE_ROOM);
        MUST(call_writing(seal, s, sizeof *s, seal_codes, len, sealed, &result) == NOISE_OK && result.len == sealed);
        size_t at = below(sealed);
        message[at] ^= 0x40;
        MUST(call_opening(open_next, r, sizeof *r, open_codes, message, sealed, &result) == NOISE_TAG);
        message[at] ^= 0x40;
        MUST(call_opening(open_next, r, sizeof *r, open_codes, message, sealed, &result) == NOISE_OK);
        MUST(result.len == len && !memcmp(message + result.from, payload, len));
    }
}

static void use_stream(const plan *p, party parties[2]) {
    noise_stream_result result;
    unsigned sender = p->one_way ? 0 : (unsigned)below(2);
    noise_stream_sender *s = &parties[sender].x.s;
    noise_stream_receiver *r = &parties[!sender].x.r, broken;
    for (size_t n = below(8); n; n--) {
        size_t len = 1 + random_len(), part = len < 65519 ? len : 65519, frame = part + NOISE_STREAM_OVERHEAD;
        MUST(write_stream(s, false, len, below(frame), &result) == NOISE_ROOM);
        MUST(write_stream(s, false, len, frame + below(20), &result) == NOISE_OK && result.used == part
            && result.len == frame);
        MUST(read_stream(r, message, below(frame), &result) == NOISE_MORE);
        size_t at = 2 + below(frame - 2);
        message[at] ^= 0x40, broken = *r;
        MUST(read_stream(&broken, message, frame, &result) == NOISE_TAG);
        message[at] ^= 0x40;
        MUST(read_stream(r, message, frame + below(20), &result) == NOISE_OK && result.len == part
            && result.used == frame);
        MUST(!memcmp(message + result.from, payload, part) && noise_stream_is_cut(r, 0) == NOISE_CUT);
    }
    MUST(write_stream(s, true, 0, below(18), &result) == NOISE_ROOM
        && write_stream(s, true, 0, 18, &result) == NOISE_OK);
    MUST(read_stream(r, message, 18, &result) == NOISE_END && noise_stream_is_cut(r, 0) == NOISE_OK);
    MUST(write_stream(s, one_in(2), 9, 99, &result) == NOISE_CLOSED
        && read_stream(r, message, 18, &result) == NOISE_CLOSED);
}

static void use_ciphers(const plan *p, party parties[2]) {
    noise_result result;
    for (size_t n = below(8); n; n--) {
        unsigned sender = p->one_way ? 0 : (unsigned)below(2);
        noise_cipher *s = &parties[sender].send, *r = &parties[!sender].receive;
        size_t len = random_len() % (NOISE_MAX_MESSAGE - NOISE_TAG_LEN + 1), sealed = len + NOISE_TAG_LEN,
               data = random_len() % (NOISE_MAX_MESSAGE + 1);
        ad_len = data;
        MUST(call_writing(encrypt_in_place, s, sizeof *s, cipher_codes, len, below(sealed), &result) == NOISE_ROOM);
        MUST(call_writing(encrypt_in_place, s, sizeof *s, cipher_codes, len, sealed, &result) == NOISE_OK
            && result.len == sealed);
        ad_len = data ? data - 1 : 1;
        MUST(call_opening(decrypt_in_place, r, sizeof *r, cipher_codes, message, sealed, &result) == NOISE_TAG);
        ad_len = data;
        MUST(call_opening(decrypt_in_place, r, sizeof *r, cipher_codes, message, sealed, &result) == NOISE_OK);
        MUST(result.len == len && !memcmp(message + result.from, payload, len));
        if (one_in(3)) MUST(noise_cipher_rekey(s) == NOISE_OK && noise_cipher_rekey(r) == NOISE_OK);
    }
}

// What docs/C.md says of a datagram of this nonce.
static uint32_t wanted_of(const bool *opened, size_t greatest, bool is_any, size_t nonce, size_t window) {
    if (is_any && greatest > nonce && greatest - nonce >= window) return NOISE_OLD;
    return opened[nonce] ? NOISE_REPEATED : NOISE_OK;
}

static void open_in_any_order(noise_datagram_receiver *r, size_t count, size_t window) {
    bool opened[MOST_DATAGRAMS] = {false}, is_any = false;
    size_t greatest = 0;
    noise_result result;
    for (size_t n = 2 * count; n; n--) {
        size_t nonce = below(count), len = datagram_lens[nonce];
        uint32_t wanted = wanted_of(opened, greatest, is_any, nonce, window);
        memcpy(message, datagrams_sealed[nonce], len);
        message[8 + below(len - 8)] ^= 0x11;
        MUST(call_opening(open_datagram, r, sizeof *r, datagram_codes, message, len, &result)
            == (wanted == NOISE_OK ? NOISE_TAG : wanted));
        memcpy(message, datagrams_sealed[nonce], len);
        MUST(call_opening(open_datagram, r, sizeof *r, datagram_codes, message, len, &result) == wanted);
        if (wanted != NOISE_OK) continue;
        MUST(result.len == len - NOISE_DATAGRAM_OVERHEAD && !memcmp(message + result.from, payload, result.len));
        opened[nonce] = is_any = true;
        if (nonce > greatest) greatest = nonce;
    }
}

static void use_network(const plan *p, party parties[2], uint32_t window) {
    noise_result result;
    unsigned sender = p->one_way ? 0 : (unsigned)below(2);
    noise_datagram_sender *s = &parties[sender].d.s;
    size_t count = 1 + below(one_in(2) ? MOST_DATAGRAMS : 10);
    for (size_t i = 0; i < count; i++) {
        size_t len = below(300);
        datagram_lens[i] = len + NOISE_DATAGRAM_OVERHEAD;
        writing *seal = one_in(2) ? seal_datagram : seal_datagram_in_place;
        MUST(call_writing(seal, s, sizeof *s, seal_codes, len, datagram_lens[i] + below(9), &result) == NOISE_OK
            && result.len == datagram_lens[i]);
        memcpy(datagrams_sealed[i], message, result.len);
    }
    open_in_any_order(&parties[!sender].d.r, count, window);
    for (unsigned role = 0; role < 2; role++) disturb_party(&parties[role]);
}

static void try_round(void) {
    plan p = random_plan();
    noise_handshake h[2];
    unsigned given[2];
    size_t len = strlen(p.text[0] ? p.text : p.name);
    for (unsigned role = 0; role < 2; role++) {
        noise_setup setup = setup_of(&p, role);
        given[role] = one_in(2) ? p.psks : (unsigned)below(p.psks + 1);
        setup.psk_count = (uint8_t)given[role];
        memset(&h[role], 0x44, sizeof *h);
        disturb_start(&p, role);
        MUST(start_there(&h[role], p.text[0] ? p.text : p.name, len, p.prologue_len, &setup) == NOISE_OK);
    }
    for (size_t i = 0; i < 512; i++) payload[below(sizeof payload)] = (uint8_t)random_number();
    shake_hands(&p, h, given);
    ask_handshake(&h[0]);
    party parties[2];
    uint64_t interval = below(5);
    uint32_t window = (uint32_t[]){64, 256, 1024}[below(3)];
    for (unsigned role = 0; role < 2; role++) {
        MUST(finish(&h[role], interval, &parties[role].t) == NOISE_OK
            && finish_datagrams(&h[role], window, &parties[role].d) == NOISE_OK);
        MUST(finish_cipher_states(&h[role], &parties[role].send, &parties[role].receive) == NOISE_OK);
        MUST(finish_stream(&h[role], interval, &parties[role].x) == NOISE_OK);
    }
    use_halves(&p, parties);
    use_ciphers(&p, parties);
    use_stream(&p, parties);
    use_network(&p, parties, window);
    rounds++;
}

int main(int count, char **words) {
    MUST(count == 2 || count == 3);
    time_t until = time(NULL) + strtol(words[1], NULL, 10);
    state = count == 3 ? strtoull(words[2], NULL, 10) : (uint64_t)time(NULL) * 1000003u + (uint64_t)getpid();
    printf("c-library: fuzz: seed %" PRIu64 "\n", state);
    fflush(stdout);
    place *places[] = {&struct_place, &first_place, &second_place, &out_place, &result_place};
    for (size_t i = 0; i < sizeof places / sizeof *places; i++) {
        make_place(places[i]);
        put(places[i], NULL, 0, false);
    }
    while (time(NULL) < until || rounds < 20) try_round();    // a busy machine makes few in a second
    printf("c-library: fuzz: %lu rounds, %lu calls, %lu of them went well\n", rounds, calls, went_well);
    return 0;
}

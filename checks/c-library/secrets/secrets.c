// Does a branch or an address depend on a secret? Each result of X25519, each psk and each payload is marked as
// undefined for memcheck, a tool of valgrind, which follows these bits through all that is computed of them, and
// reports each branch and each address that depends on one. What is public is marked as defined once it is out: the
// messages, the code and `result` of a call that reads or opens, and the other party's static key. A branch
// of this file on anything else that comes out of the library would be reported too. BoringSSL and
// libsodium are tested in this way.
//
// secrets: both parties of all patterns, and what follows their handshakes. secrets early-exit, secrets table: a fault
// of this file, which has to be reported.
#include "../ends.h"
#include <valgrind/memcheck.h>

enum { ROOM = 3000, INTERVAL = 2, LARGEST = 192, SKIPPED = 5 };

static unsigned handshakes, sealed, refused;

// Macros, since memcheck names the function from which a secret comes.
#define MAKE_SECRET(at, len) ((void)VALGRIND_MAKE_MEM_UNDEFINED(at, len))
#define MAKE_PUBLIC(at, len) ((void)VALGRIND_MAKE_MEM_DEFINED(at, len))

// The code of a call that reads or opens, and what it tells.
static uint32_t reported_by(uint32_t code, void *result, size_t size) {
    MAKE_PUBLIC(&code, sizeof code);
    MAKE_PUBLIC(result, size);
    return code;
}

// Whether memcheck takes all bits of these bytes for undefined.
static bool is_secret(const uint8_t *at, size_t len) {
    uint8_t bits[ROOM];
    MUST(VALGRIND_GET_VBITS(at, bits, len) == 1);
    for (size_t i = 0; i < len; i++)
        if (bits[i] != 0xff) return false;
    return true;
}

static void fill_secret(uint8_t *payload, size_t len, unsigned number) {
    fill(payload, len, number);
    MAKE_SECRET(payload, len);
}

// Whether these are the bytes of the payload with this number; they stay secret.
static bool is_payload(const uint8_t *at, size_t len, unsigned number) {
    uint8_t copy[ROOM], wanted[ROOM];
    memcpy(copy, at, len);
    MAKE_PUBLIC(copy, len);
    fill(wanted, len, number);
    return !memcmp(copy, wanted, len);
}

// HANDSHAKES

typedef struct {
    noise_handshake h;
    unsigned role, psks;                                 // psks: how many were handed in after the start
} party;

static void hand_in_answer(party *x, const noise_result *result) {
    uint8_t answer[32];
    const uint8_t *own = public_key(x->role, result->of_static);
    for (unsigned i = 0; i < 32; i++) answer[i] = own[i] ^ result->remote[i];
    MAKE_SECRET(answer, sizeof answer);
    MUST(noise_answer(&x->h, result->of_static, result->remote, answer) == NOISE_OK);
}

static void hand_in_psk(party *x) {
    uint8_t psk[32];
    memcpy(psk, secret(x->psks++), sizeof psk);
    MAKE_SECRET(psk, sizeof psk);
    MUST(noise_set_psk(&x->h, psk) == NOISE_OK);
}

// Hands in what a call has asked for; false if it has asked for nothing.
static bool hand_in_wanted(party *x, uint32_t code, const noise_result *result) {
    if (code == NOISE_WANTED)
        hand_in_answer(x, result);
    else if (code == NOISE_WANTED_PSK)
        hand_in_psk(x);
    else
        return false;
    return true;
}

// With `late` the psks are handed in when a call asks for them.
static party begin_secret(const plan *p, unsigned role, bool late) {
    party x = {.role = role};
    noise_setup setup = setup_of(p, role);
    MAKE_SECRET(setup.psks, sizeof setup.psks);
    if (late) setup.psk_count = 0;
    MUST(start_with(&x.h, p, &setup) == NOISE_OK);
    return x;
}

static size_t write_one(party *x, const uint8_t *payload, size_t len, uint8_t *out) {
    noise_result result;
    uint32_t code;
    do {
        code = noise_write(&x->h, payload, len, out, ROOM, &result);
        MAKE_PUBLIC(result.remote, sizeof result.remote);
    } while (hand_in_wanted(x, code, &result));
    MUST(code == NOISE_OK);
    MAKE_PUBLIC(out, result.len);
    return result.len;
}

static uint32_t read_one(party *x, uint8_t *message, size_t len, noise_result *result) {
    uint32_t code;
    do code = reported_by(noise_read(&x->h, message, len, result), result, sizeof *result);
    while (hand_in_wanted(x, code, result));
    return code;
}

// A copy of the party reads the message with one bit changed. Without keys a message has no tag.
static void read_changed(const party *x, const uint8_t *message, size_t len, size_t at) {
    party copy = *x;
    uint8_t changed[ROOM];
    noise_result result;
    memcpy(changed, message, len);
    changed[at] ^= 1;
    uint32_t code = read_one(&copy, changed, len, &result);
    MUST(code == NOISE_OK || code == NOISE_TAG);
    refused += code == NOISE_TAG;
}

static void pass_one(party parties[2], unsigned number, size_t len) {
    party *writer = &parties[number % 2], *reader = &parties[1 - number % 2];
    uint8_t payload[ROOM], message[ROOM];
    noise_stage_result stage;
    noise_result result;
    size_t message_len;
    MUST(noise_stage(&writer->h, &stage) == NOISE_OK && stage.writes_next && stage.passed == number);
    MUST(noise_message_len(&writer->h, len, &message_len) == NOISE_OK);
    fill_secret(payload, len, number);
    MUST(write_one(writer, payload, len, message) == message_len);
    read_changed(reader, message, message_len, message_len - 1);
    if (message_len >= 16) read_changed(reader, message, message_len, message_len - 16);
    if (message_len > len + 16) read_changed(reader, message, message_len, message_len - len - 17);  // the static key's
    MUST(read_one(reader, message, message_len, &result) == NOISE_OK);
    MUST(result.len == len && is_payload(message + result.from, len, number));
}

// Both parties have the same hash, and each has the other's static key, if there is one.
static void compare(const plan *p, const party parties[2]) {
    uint8_t hashes[2][32];
    for (unsigned role = 0; role < 2; role++) {
        noise_key key;
        MUST(noise_hash(&parties[role].h, hashes[role]) == NOISE_OK);
        MUST(noise_remote_static(&parties[role].h, &key) == NOISE_OK);
        MAKE_PUBLIC(hashes[role], 32);
        MAKE_PUBLIC(key.bytes, 32);
        MUST(key.present == p->has_s[!role] && (!key.present || !memcmp(key.bytes, public_key(!role, true), 32)));
    }
    MUST(!memcmp(hashes[0], hashes[1], 32));
}

static void shake_hands(const plan *p, bool late, party parties[2]) {
    for (unsigned role = 0; role < 2; role++) parties[role] = begin_secret(p, role, late);
    for (unsigned m = 0; m < p->messages; m++) pass_one(parties, m, m == 1 ? 0 : 40);
    compare(p, parties);
    handshakes++;
}

// WHAT FOLLOWS A HANDSHAKE: a kind has a state that seals and one that opens, at each party.

typedef struct {
    uint32_t (*finish)(const noise_handshake *h, void *sender, void *receiver);
    uint32_t (*seal)(void *sender, const uint8_t *payload, size_t len, uint8_t *out, noise_result *result);
    uint32_t (*open)(void *receiver, uint8_t *message, size_t len, noise_result *result);
} kind;

typedef struct {
    NOISE_ALIGNED uint8_t sender[LARGEST];
    NOISE_ALIGNED uint8_t receiver[LARGEST];
} halves;
_Static_assert(sizeof(noise_datagram_receiver) == LARGEST, "the largest half");

static uint32_t finish_messages(const noise_handshake *h, void *sender, void *receiver) {
    noise_handshake copy = *h;
    return noise_finish(&copy, INTERVAL, sender, receiver);
}

static uint32_t seal_message(void *sender, const uint8_t *payload, size_t len, uint8_t *out, noise_result *result) {
    return noise_seal(sender, payload, len, out, ROOM, result);
}

static uint32_t seal_message_here(void *sender, const uint8_t *payload, size_t len, uint8_t *out,
                                  noise_result *result) {
    memcpy(out, payload, len);
    return noise_seal_in_place(sender, out, ROOM, len, result);
}

static uint32_t open_message(void *receiver, uint8_t *message, size_t len, noise_result *result) {
    return noise_open(receiver, message, len, result);
}

static uint32_t finish_window_64(const noise_handshake *h, void *sender, void *receiver) {
    noise_handshake copy = *h;
    return noise_finish_datagrams(&copy, 64, sender, receiver);
}

static uint32_t finish_window_256(const noise_handshake *h, void *sender, void *receiver) {
    noise_handshake copy = *h;
    return noise_finish_datagrams(&copy, 256, sender, receiver);
}

static uint32_t finish_window_1024(const noise_handshake *h, void *sender, void *receiver) {
    noise_handshake copy = *h;
    return noise_finish_datagrams(&copy, 1024, sender, receiver);
}

static uint32_t seal_datagram(void *sender, const uint8_t *payload, size_t len, uint8_t *out, noise_result *result) {
    return noise_datagram_seal(sender, payload, len, out, ROOM, result);
}

static uint32_t seal_datagram_here(void *sender, const uint8_t *payload, size_t len, uint8_t *out,
                                   noise_result *result) {
    memcpy(out + 8, payload, len);
    return noise_datagram_seal_in_place(sender, out, ROOM, len, result);
}

static uint32_t open_datagram(void *receiver, uint8_t *message, size_t len, noise_result *result) {
    return noise_datagram_open(receiver, message, len, result);
}

static uint32_t finish_streams(const noise_handshake *h, void *sender, void *receiver) {
    noise_handshake copy = *h;
    return noise_finish_stream(&copy, INTERVAL, sender, receiver);
}

static uint32_t write_frame(void *sender, const uint8_t *payload, size_t len, uint8_t *out, noise_result *result) {
    noise_stream_result frame;
    uint32_t code = noise_stream_write(sender, payload, len, out, ROOM, &frame);
    MUST(code != NOISE_OK || frame.used == len);
    result->len = frame.len;
    return code;
}

static uint32_t read_frame(void *receiver, uint8_t *message, size_t len, noise_result *result) {
    noise_stream_result frame;
    uint32_t code = reported_by(noise_stream_read(receiver, message, len, &frame), &frame, sizeof frame);
    result->from = frame.from, result->len = frame.len;
    return code;
}

static uint32_t finish_ciphers(const noise_handshake *h, void *sender, void *receiver) {
    noise_handshake copy = *h;
    return noise_finish_ciphers(&copy, sender, receiver);
}

static uint32_t encrypt(void *sender, const uint8_t *payload, size_t len, uint8_t *out, noise_result *result) {
    uint8_t header[20];
    fill_secret(header, sizeof header, 4);
    memcpy(out, payload, len);
    return noise_cipher_encrypt(sender, header, sizeof header, out, ROOM, len, result);
}

static uint32_t decrypt(void *receiver, uint8_t *message, size_t len, noise_result *result) {
    uint8_t header[20];
    fill_secret(header, sizeof header, 4);
    return noise_cipher_decrypt(receiver, header, sizeof header, message, len, result);
}

static const kind message_kind = {finish_messages, seal_message, open_message};
static const kind message_here_kind = {finish_messages, seal_message_here, open_message};
static const kind datagram_kinds[] = {
    {finish_window_64, seal_datagram, open_datagram},
    {finish_window_256, seal_datagram_here, open_datagram},
    {finish_window_1024, seal_datagram, open_datagram},
};
static const kind stream_kind = {finish_streams, write_frame, read_frame};
static const kind cipher_kind = {finish_ciphers, encrypt, decrypt};

static size_t seal_one(const kind *k, void *sender, size_t len, unsigned number, uint8_t *out) {
    uint8_t payload[ROOM];
    noise_result result;
    fill_secret(payload, len, number);
    MUST(k->seal(sender, payload, len, out, &result) == NOISE_OK);
    MAKE_PUBLIC(out, result.len);
    sealed++;
    return result.len;
}

static uint32_t open_one(const kind *k, void *receiver, uint8_t *message, size_t len, noise_result *result) {
    return reported_by(k->open(receiver, message, len, result), result, sizeof *result);
}

// A copy of the receiving state opens the message with one bit changed.
static void open_changed(const kind *k, const void *receiver, const uint8_t *message, size_t len, size_t at) {
    NOISE_ALIGNED uint8_t copy[LARGEST];
    uint8_t changed[ROOM];
    noise_result result;
    memcpy(copy, receiver, sizeof copy);
    memcpy(changed, message, len);
    changed[at] ^= 1;
    MUST(open_one(k, copy, changed, len, &result) == NOISE_TAG);
    refused++;
}

static void pass_sealed(const kind *k, void *sender, void *receiver, size_t len, unsigned number) {
    uint8_t message[ROOM];
    noise_result result;
    size_t message_len = seal_one(k, sender, len, number, message);
    open_changed(k, receiver, message, message_len, message_len - 1);
    open_changed(k, receiver, message, message_len, message_len - 16);
    MUST(open_one(k, receiver, message, message_len, &result) == NOISE_OK && result.len == len);
    MUST(is_secret(message + result.from, len) && is_payload(message + result.from, len, number));
}

static void finish_both(const kind *k, const party parties[2], halves both[2]) {
    for (unsigned role = 0; role < 2; role++)
        MUST(k->finish(&parties[role].h, both[role].sender, both[role].receiver) == NOISE_OK);
}

// Payloads of these lengths, in each direction that there is.
static void pass_each(const kind *k, const plan *p, const party parties[2], const size_t *lens, size_t count) {
    halves both[2];
    finish_both(k, parties, both);
    for (unsigned role = 0; role < (p->one_way ? 1 : 2); role++)
        for (unsigned i = 0; i < count; i++) pass_sealed(k, both[role].sender, both[!role].receiver, lens[i], i + role);
}

// Datagrams that come late, twice, and too late for the window.
static void lose_some(const kind *k, const party parties[2], unsigned window) {
    halves both[2];
    uint8_t sealed[SKIPPED][ROOM], message[ROOM];
    size_t lens[SKIPPED];
    noise_result result;
    finish_both(k, parties, both);
    for (unsigned i = 0; i < SKIPPED; i++) lens[i] = seal_one(k, both[0].sender, 20, i, sealed[i]);
    pass_sealed(k, both[0].sender, both[1].receiver, 20, SKIPPED);
    memcpy(message, sealed[3], lens[3]);
    MUST(open_one(k, both[1].receiver, message, lens[3], &result) == NOISE_OK);
    MUST(open_one(k, both[1].receiver, sealed[3], lens[3], &result) == NOISE_REPEATED);
    for (unsigned i = 0; i < window; i++) seal_one(k, both[0].sender, 0, i, message);
    pass_sealed(k, both[0].sender, both[1].receiver, 20, 9);
    MUST(open_one(k, both[1].receiver, sealed[0], lens[0], &result) == NOISE_OLD);
}

// Streams in pieces, with an end, and broken.
static void end_streams(const party parties[2]) {
    halves both[2];
    uint8_t frame[ROOM], changed[ROOM];
    noise_stream_receiver copy;
    noise_stream_result result;
    noise_result of_payload;
    finish_both(&stream_kind, parties, both);
    size_t len = seal_one(&stream_kind, both[0].sender, 100, 1, frame);
    for (size_t some = 0; some < len; some++) {
        MUST(noise_stream_read((noise_stream_receiver *)both[1].receiver, frame, some, &result) == NOISE_MORE);
        MUST(result.wanted == (some < 2 ? 2 : len) - some);
    }
    MUST(open_one(&stream_kind, both[1].receiver, frame, len, &of_payload) == NOISE_OK);
    MUST(noise_stream_is_cut((noise_stream_receiver *)both[1].receiver, 0) == NOISE_CUT);
    MUST(noise_stream_end((noise_stream_sender *)both[0].sender, frame, ROOM, &result) == NOISE_OK);
    MAKE_PUBLIC(frame, result.len);
    len = result.len;
    memcpy(&copy, both[1].receiver, sizeof copy);
    memcpy(changed, frame, len);
    changed[len - 1] ^= 1;
    MUST(open_one(&stream_kind, &copy, changed, len, &of_payload) == NOISE_TAG);
    MUST(noise_stream_read(&copy, frame, len, &result) == NOISE_CLOSED && noise_stream_is_cut(&copy, 0) == NOISE_CUT);
    MUST(open_one(&stream_kind, both[1].receiver, frame, len, &of_payload) == NOISE_END);
    MUST(noise_stream_is_cut((noise_stream_receiver *)both[1].receiver, 0) == NOISE_OK);
}

// What is reported of the next nonces.
static void ask_nonces(const party parties[2]) {
    halves both[2];
    uint64_t nonce;
    finish_both(&message_kind, parties, both);
    pass_sealed(&message_kind, both[0].sender, both[1].receiver, 20, 1);
    MUST(noise_sender_nonce((noise_sender *)both[0].sender, &nonce) == NOISE_OK && nonce == 1);
    MUST(noise_receiver_nonce((noise_receiver *)both[1].receiver, &nonce) == NOISE_OK && nonce == 1);
    finish_both(&datagram_kinds[0], parties, both);
    pass_sealed(&datagram_kinds[0], both[0].sender, both[1].receiver, 20, 1);
    MUST(noise_datagram_sender_nonce((noise_datagram_sender *)both[0].sender, &nonce) == NOISE_OK && nonce == 1);
}

// Cipher states with another key and another nonce.
static void renew_ciphers(const party parties[2]) {
    halves both[2];
    finish_both(&cipher_kind, parties, both);
    noise_cipher *sender = (noise_cipher *)both[0].sender, *receiver = (noise_cipher *)both[1].receiver;
    uint64_t nonce;
    MUST(noise_cipher_rekey(sender) == NOISE_OK && noise_cipher_rekey(receiver) == NOISE_OK);
    MUST(noise_cipher_set_nonce(sender, 100) == NOISE_OK && noise_cipher_set_nonce(receiver, 100) == NOISE_OK);
    pass_sealed(&cipher_kind, sender, receiver, 100, 1);
    MUST(noise_cipher_nonce(sender, &nonce) == NOISE_OK && nonce == 101);
    MUST(noise_cipher_nonce(receiver, &nonce) == NOISE_OK && nonce == 101);
}

// ALL

static void run_plan(const plan *p, bool late) {
    static const size_t lens[] = {40, 100, 0};           // the empty payload comes last: a stream makes no frame of it
    party parties[2];
    shake_hands(p, late, parties);
    pass_each(&message_kind, p, parties, lens, 3);
    pass_each(&datagram_kinds[0], p, parties, lens, 3);
    pass_each(&stream_kind, p, parties, lens, 2);
    pass_each(&cipher_kind, p, parties, lens, 3);
}

// A pattern plain, with a psk at each place that it has, and with one at the first and one at the last; each psk passed
// at the start, and late.
static void run_pattern(const char *base) {
    plan p = plan_of(base, -1);
    run_plan(&p, false);
    int last = (int)p.messages;
    for (int place = 0; place <= last; place++)
        for (int late = 0; late < 2; late++) {
            p = plan_of(base, place);
            run_plan(&p, late);
        }
    p.psks = 2;
    snprintf(p.name, sizeof p.name, "Noise_%spsk0+psk%d_25519_ChaChaPoly_SHA256", base, last);
    run_plan(&p, false);
    run_plan(&p, true);
}

static void run_lengths(void) {
    static const size_t lens[] = {1, 16, 63, 64, 65, 300, 1023, 1024, 2100, 0};
    static const unsigned windows[] = {64, 256, 1024};
    enum { LENS = sizeof lens / sizeof *lens };
    plan p = plan_of("XX", -1);
    party parties[2];
    shake_hands(&p, false, parties);
    pass_each(&message_kind, &p, parties, lens, LENS);
    pass_each(&message_here_kind, &p, parties, lens, LENS);
    for (unsigned i = 0; i < 3; i++) {
        pass_each(&datagram_kinds[i], &p, parties, lens, LENS);
        lose_some(&datagram_kinds[i], parties, windows[i]);
    }
    ask_nonces(parties);
    pass_each(&stream_kind, &p, parties, lens, LENS - 1);
    end_streams(parties);
    pass_each(&cipher_kind, &p, parties, lens, LENS);
    renew_ciphers(parties);
}

// FAULTS: a comparison that ends at the first byte that differs, and a look-up in a table by a secret byte.

__attribute__((noinline)) static bool is_same_early(const uint8_t a[16], const uint8_t b[16]) {
    for (unsigned i = 0; i < 16; i++)
        if (a[i] != b[i]) return false;
    return true;
}

__attribute__((noinline)) static uint8_t looked_up(const uint8_t table[256], const uint8_t *byte) {
    return table[*byte];
}

static void commit_fault(const char *fault) {
    uint8_t computed[16], table[256];
    const uint8_t received[16] = {0};
    fill_secret(computed, sizeof computed, 3);
    fill(table, sizeof table, 5);
    if (!strcmp(fault, "early-exit")) {
        bool is_same = is_same_early(computed, received);
        MAKE_PUBLIC(&is_same, sizeof is_same);
        MUST(!is_same);
    } else {
        uint8_t entry = looked_up(table, computed);
        MAKE_PUBLIC(&entry, 1);
        MUST(entry != 1);
    }
}

int main(int count, char **words) {
    if (count == 2) {
        commit_fault(words[1]);
        return 0;
    }
    for (unsigned i = 0; i < PATTERNS; i++) run_pattern(patterns[i]);
    run_lengths();
    printf("%u handshakes, %u messages sealed, %u refused\n", handshakes, sealed, refused);
    return 0;
}

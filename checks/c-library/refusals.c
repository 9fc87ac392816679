// What noise_start and the calls of a handshake refuse, with which code, and what that leaves.
#include "ends.h"

static uint8_t message[NOISE_MAX_MESSAGE + 1], before[NOISE_MAX_MESSAGE + 1], payload[NOISE_MAX_MESSAGE + 1];

static bool is_same(const void *a, const void *b, size_t len) {
    return memcmp(a, b, len) == 0;
}

// Begins with this pattern and setup, which has to answer this code and, but at OK, to leave the struct as it was.
static void must_begin(const char *pattern, size_t prologue_len, const noise_setup *setup, uint32_t code) {
    noise_handshake h, old;
    memset(&h, 0x5a, sizeof h);
    old = h;
    MUST(noise_start(&h, (const uint8_t *)pattern, strlen(pattern), prologue(), prologue_len, setup) == code);
    MUST(code == NOISE_OK || is_same(&h, &old, sizeof h));
}

static void check_names(void) {
    plan p = plan_of("XX", -1);
    noise_setup setup = setup_of(&p, 0);
    static const char *const others[] = {
        "", "N", "XX", "Noise_XX", "Noise_XX_25519_ChaChaPoly_SHA512", "Noise_XX_448_ChaChaPoly_SHA256",
        "Noise_XX_25519_AESGCM_SHA256", "noise_XX_25519_ChaChaPoly_SHA256", "Noise_XY_25519_ChaChaPoly_SHA256",
        "Noise_NK1_25519_ChaChaPoly_SHA256", "Noise_XXpsk4_25519_ChaChaPoly_SHA256",
        "Noise_XXpsk9_25519_ChaChaPoly_SHA256", "Noise_XXpsk1+psk0_25519_ChaChaPoly_SHA256",
        "Noise_XXfallback_25519_ChaChaPoly_SHA256", "Noise_XX_25519_ChaChaPoly_SHA256 ",
        "Noise__25519_ChaChaPoly_SHA256",
    };
    for (size_t i = 0; i < sizeof others / sizeof *others; i++) must_begin(others[i], 0, &setup, NOISE_NAME);
    must_begin(p.name, 0, &setup, NOISE_OK);
    must_begin(p.name, NOISE_MAX_PROLOGUE, &setup, NOISE_OK);
    must_begin(p.name, NOISE_MAX_PROLOGUE + 1, &setup, NOISE_LENGTH);
    must_begin("A:\n  -> e, ee\n", 0, &setup, NOISE_PATTERN);
    must_begin("A:\n  -> e\n  -> e\n", 0, &setup, NOISE_PATTERN);
    must_begin("Noise_XX_25519_ChaChaPoly_SHA256\n", 0, &setup, NOISE_PATTERN);
    memset(message, 'A', sizeof message);
    message[sizeof message - 1] = 0;
    must_begin((const char *)message, 0, &setup, NOISE_NAME);
    message[sizeof message - 2] = '\n';
    must_begin((const char *)message, 0, &setup, NOISE_PATTERN);
}

static void check_setups(void) {
    plan p = plan_of("KK", 2);
    for (unsigned role = 0; role < 2; role++) {
        noise_setup right = setup_of(&p, role), s = right;
        must_begin(p.name, 9, &s, NOISE_OK);
        s.e.present = 0;
        must_begin(p.name, 9, &s, NOISE_EPHEMERAL_MISSING);
        s = right, s.s.present = 0;
        must_begin(p.name, 9, &s, NOISE_STATIC_MISSING);
        s = right, s.remote_s.present = 0;
        must_begin(p.name, 9, &s, NOISE_REMOTE_MISSING);
        s = right, s.remote_e.present = 1;
        must_begin(p.name, 9, &s, NOISE_REMOTE_UNEXPECTED);
        for (unsigned count = 0; count < 256; count++) {
            s = right, s.psk_count = (uint8_t)count;
            must_begin(p.name, 9, &s, count <= 1 ? NOISE_OK : NOISE_PSK_COUNT);
        }
        memset(&s, 0, sizeof s);                         // of several faults the first
        s.responder = (uint8_t)role;
        must_begin(p.name, 9, &s, NOISE_EPHEMERAL_MISSING);
        s.e.present = 255, s.s.present = 2, s.remote_s.present = 1, s.psk_count = 1;
        must_begin(p.name, 9, &s, NOISE_OK);
        s.responder = role ? 255 : 0;
        must_begin(p.name, 9, &s, NOISE_OK);
    }
    noise_setup s = setup_of(&p, 0);
    must_begin("Noise_XX_25519_ChaChaPoly_SHA256", 0, &s, NOISE_REMOTE_UNEXPECTED);
}

static void check_stage(const end *x, unsigned messages, unsigned passed, bool ended) {
    noise_stage_result result;
    MUST(noise_stage(&x->h, &result) == NOISE_OK);
    MUST(result.messages == messages && result.passed == passed && result.ended == ended
        && result.writes_next == (passed % 2 == x->role));
}

// None of these changes anything.
static void must_refuse(end *x, uint32_t reading, uint32_t writing) {
    noise_handshake old = x->h;
    noise_result result;
    size_t len;
    memset(message, 7, 200);
    memcpy(before, message, 200);
    if (reading) MUST(noise_read(&x->h, message, 96, &result) == reading);
    if (writing) MUST(noise_write(&x->h, payload, 3, message, 200, &result) == writing);
    if (writing) MUST(noise_message_len(&x->h, 3, &len) == NOISE_NOT_DUE);
    MUST(is_same(&x->h, &old, sizeof old) && is_same(message, before, 200));
}

static void check_turns(void) {
    plan p = plan_of("XX", -1);
    end ends[2] = {begin(&p, 0), begin(&p, 1)};
    transport t;
    datagrams d;
    noise_result result;
    check_stage(&ends[0], 3, 0, false);
    check_stage(&ends[1], 3, 0, false);
    for (unsigned m = 0; m < 3; m++) {
        end *writer = &ends[m % 2], *reader = &ends[1 - m % 2];
        must_refuse(writer, NOISE_NOT_YOUR_TURN, 0);
        must_refuse(reader, 0, NOISE_NOT_YOUR_TURN);
        MUST(finish(&writer->h, 0, &t) == NOISE_NOT_DONE && finish_datagrams(&reader->h, 64, &d) == NOISE_NOT_DONE);
        MUST(write_on(writer, payload, 5, message, sizeof message, &result) == NOISE_OK);
        MUST(read_on(reader, message, result.len, &result) == NOISE_OK);
        check_stage(writer, 3, m + 1, false);
        check_stage(reader, 3, m + 1, false);
    }
    for (unsigned role = 0; role < 2; role++) {
        must_refuse(&ends[role], NOISE_DONE, NOISE_DONE);
        for (unsigned window = 0; window < 2000; window++) {
            bool is_one = window == 64 || window == 256 || window == 1024;
            MUST(finish_datagrams(&ends[role].h, window, &d) == (is_one ? NOISE_OK : NOISE_WINDOW));
        }
        MUST(finish_datagrams(&ends[role].h, UINT32_MAX, &d) == NOISE_WINDOW);
    }
}

// Behind a refused message nothing passes any more, but the hash is still result.
static void must_have_ended(end *x, unsigned messages, unsigned passed) {
    transport t;
    datagrams d;
    uint8_t hash[32];
    check_stage(x, messages, passed, true);
    must_refuse(x, NOISE_ENDED, NOISE_ENDED);
    MUST(finish(&x->h, 0, &t) == NOISE_ENDED && finish_datagrams(&x->h, 64, &d) == NOISE_ENDED);
    MUST(noise_hash(&x->h, hash) == NOISE_OK);
}

// Reads a message that isn't the right one on a copy of this party.
static uint32_t read_other(const end *reader, size_t len, noise_result *result) {
    end copy = *reader;
    static uint8_t handed[NOISE_MAX_MESSAGE + 1];
    memcpy(handed, message, len);
    noise_stage_result stage;
    MUST(noise_stage(&copy.h, &stage) == NOISE_OK);
    uint32_t code = read_on(&copy, message, len, result);
    if (code != NOISE_OK) {
        MUST(is_in(code, CODE(NOISE_SHORT) | CODE(NOISE_TAG)));
        MUST(is_same(message, handed, len) && result->token <= 8);
        must_have_ended(&copy, stage.messages, stage.passed);
    }
    return code;
}

// Each byte of a message changed in turn, and the message cut at each length. Where nothing is under a
// tag, a change isn't seen.
static void try_changed(const end *reader, const uint8_t *right, size_t len, bool is_tagged) {
    noise_result result;
    for (size_t i = 0; i < len; i++) {
        memcpy(message, right, len);
        message[i] ^= 0x40;
        uint32_t code = read_other(reader, len, &result);
        MUST(code == (is_tagged ? NOISE_TAG : NOISE_OK));
    }
    for (size_t cut = 0; cut < len; cut++) {
        memcpy(message, right, len);
        uint32_t code = read_other(reader, cut, &result);
        if (is_tagged) MUST(is_in(code, CODE(NOISE_SHORT) | CODE(NOISE_TAG)));
        if (cut < 32) MUST(code == NOISE_SHORT);
    }
}

static void check_changed_messages(const plan *p) {
    end ends[2] = {begin(p, 0), begin(p, 1)};
    uint8_t right[400];
    noise_result result;
    for (unsigned m = 0; m < p->messages; m++) {
        end *writer = &ends[m % 2], *reader = &ends[1 - m % 2];
        fill(payload, 6, m);
        MUST(write_on(writer, payload, 6, right, sizeof right, &result) == NOISE_OK);
        size_t len = result.len;
        bool is_tagged = m || p->psks || p->is_known[1]; // there is a key: after psk, es or ee
        try_changed(reader, right, len, is_tagged);
        memcpy(message, right, len);
        MUST(read_on(reader, message, len, &result) == NOISE_OK);
        MUST(result.len == 6 && is_same(message + result.from, payload, 6));
    }
}

// Hands in what the next write of this party wants, and writes nothing.
static void hand_in_all(end *x) {
    noise_result result;
    for (end copy = *x; noise_write(&copy.h, payload, 0, message, sizeof message, &result) == NOISE_WANTED; copy = *x)
        hand_in(x, &result);
}

static void check_lengths(void) {
    plan p = plan_of("NN", 0);
    end ends[2] = {begin(&p, 0), begin(&p, 1)}, copy;
    noise_result result;
    size_t len;
    for (unsigned m = 0; m < 2; m++) {
        end *writer = &ends[m], *reader = &ends[!m];
        noise_handshake old = reader->h;
        MUST(noise_read(&reader->h, message, NOISE_MAX_MESSAGE + 1, &result) == NOISE_LENGTH
            && is_same(&old, &reader->h, sizeof old));
        MUST(noise_message_len(&writer->h, 0, &len) == NOISE_OK && len == 48);
        MUST(noise_message_len(&writer->h, NOISE_MAX_MESSAGE - 48, &len) == NOISE_OK && len == NOISE_MAX_MESSAGE);
        MUST(noise_message_len(&writer->h, NOISE_MAX_MESSAGE - 47, &len) == NOISE_NOT_DUE);
        MUST(noise_message_len(&writer->h, SIZE_MAX, &len) == NOISE_NOT_DUE);
        old = writer->h;
        MUST(noise_write(&writer->h, payload, NOISE_MAX_MESSAGE - 47, message, sizeof message, &result)
            == NOISE_TOO_LONG);
        MUST(noise_write(&writer->h, payload, sizeof payload, message, sizeof message, &result) == NOISE_TOO_LONG);
        MUST(is_same(&old, &writer->h, sizeof old));
        copy = *writer;
        MUST(write_on(&copy, payload, 10, message, sizeof message, &result) == NOISE_OK);
        hand_in_all(writer);
        old = writer->h;
        memset(message, 9, 100);
        memcpy(before, message, 100);
        for (size_t room = 0; room < 58; room++)
            MUST(noise_write(&writer->h, payload, 10, message, room, &result) == NOISE_ROOM && result.len == 58);
        MUST(is_same(&old, &writer->h, sizeof old) && is_same(message, before, 100));
        MUST(noise_write(&writer->h, payload, 10, message, 58, &result) == NOISE_OK && result.len == 58);
        MUST(is_same(message + 58, before + 58, 42));
        MUST(read_on(reader, message, 58, &result) == NOISE_OK && result.len == 10);
    }
}

// Each DH result that is wanted, at which call, of which keys; and one that isn't the one that was asked for.
static void check_answers(void) {
    plan p = plan_of("XX", -1);
    end ends[2] = {begin(&p, 0), begin(&p, 1)};
    noise_result result;
    uint8_t wrong[32] = {1}, right[200];
    size_t len;
    MUST(noise_write(&ends[0].h, payload, 0, message, sizeof message, &result) == NOISE_OK);
    MUST(noise_read(&ends[1].h, message, result.len, &result) == NOISE_OK && result.from == 32 && result.len == 0);
    noise_handshake old = ends[1].h;
    memset(message, 3, sizeof message);
    memcpy(before, message, sizeof message);
    for (unsigned again = 0; again < 3; again++) {
        MUST(noise_write(&ends[1].h, payload, 4, message, sizeof message, &result) == NOISE_WANTED);
        MUST(result.of_static == 0 && is_same(result.remote, public_key(0, false), 32));
        MUST(is_same(&old, &ends[1].h, sizeof old) && is_same(message, before, sizeof message));
    }
    MUST(noise_answer(&ends[1].h, 1, public_key(0, true), wrong) == NOISE_OK);   // one that nobody has asked for
    MUST(noise_write(&ends[1].h, payload, 4, message, sizeof message, &result) == NOISE_WANTED
        && result.of_static == 0);
    hand_in(&ends[1], &result);
    MUST(noise_write(&ends[1].h, payload, 4, message, sizeof message, &result) == NOISE_WANTED);
    MUST(result.of_static == 1 && is_same(result.remote, public_key(0, false), 32));
    hand_in(&ends[1], &result);
    MUST(noise_write(&ends[1].h, payload, 4, message, sizeof message, &result) == NOISE_OK);
    len = result.len;
    old = ends[0].h;
    memcpy(before, message, len);
    memcpy(right, message, len);
    for (unsigned again = 0; again < 3; again++) {
        MUST(noise_read(&ends[0].h, message, len, &result) == NOISE_WANTED);
        MUST(result.of_static == 0 && is_same(result.remote, public_key(1, false), 32));
        MUST(is_same(&old, &ends[0].h, sizeof old) && is_same(message, before, len));
    }
    end copy = ends[0];                                  // another DH result than the other party's: a wrong tag
    MUST(noise_answer(&copy.h, 0, public_key(1, false), wrong) == NOISE_OK);
    MUST(noise_read(&copy.h, message, len, &result) == NOISE_TAG && result.token == 2);
    must_have_ended(&copy, 3, 1);
    memcpy(message, right, len);
    MUST(read_on(&ends[0], message, len, &result) == NOISE_OK && ends[0].answers == 2 && result.len == 4);
}

// Eight other results don't keep out those that a message wants: the oldest give way, and a message wants at most four.
static void check_full(void) {
    plan p = plan_of("XX", -1);
    end x = begin(&p, 1), writer = begin(&p, 0);
    uint8_t bytes[32] = {0};
    noise_result result;
    MUST(write_on(&writer, payload, 0, message, sizeof message, &result) == NOISE_OK);
    MUST(read_on(&x, message, result.len, &result) == NOISE_OK);
    for (unsigned i = 0; i < 30; i++, bytes[5]++) {
        end copy = x;
        for (unsigned n = 0; n < i; n++, bytes[6]++)
            MUST(noise_answer(&copy.h, (uint8_t)(i * 29), bytes, bytes) == NOISE_OK);
        MUST(write_on(&copy, payload, 9, message, sizeof message, &result) == NOISE_OK && copy.answers == 2);
        end other = writer;
        MUST(read_on(&other, message, result.len, &result) == NOISE_OK && result.len == 9);
    }
}

// What the parties have to have the same: where it differs, the first tag that depends on it is wrong.
static void check_differences(void) {
    noise_result result;
    for (unsigned kind = 0; kind < 3; kind++) {
        plan p = plan_of("IK", 1), q = p;
        if (kind == 0) q.prologue_len--;
        noise_setup setup = setup_of(&q, 1);
        if (kind == 1) setup.psks[0][31] ^= 1;
        if (kind == 2) q = plan_of("IK", 2);
        end ends[2] = {begin(&p, 0), {.role = 1}};
        MUST(start_with(&ends[1].h, &q, &setup) == NOISE_OK);
        MUST(write_on(&ends[0], payload, 9, message, sizeof message, &result) == NOISE_OK);
        MUST(read_on(&ends[1], message, result.len, &result) == NOISE_TAG);
        MUST(result.token == (kind == 1 ? 5 : 2));
        must_have_ended(&ends[1], 2, 0);
    }
}

// Structs that nothing has begun.
static void check_unbegun(void) {
    noise_handshake h = {{0}}, zeros = h;
    transport t, no_transport = {{{0}}, {{0}}};
    datagrams d, no_datagrams = {{{0}}, {{0}}};
    noise_result result;
    noise_stage_result stage;
    noise_key key;
    uint8_t hash[32];
    uint64_t nonce;
    size_t len;
    MUST(noise_read(&h, message, 48, &result) == NOISE_STRUCT
        && noise_write(&h, payload, 5, message, 99, &result) == NOISE_STRUCT);
    MUST(noise_message_len(&h, 5, &len) == NOISE_STRUCT && noise_hash(&h, hash) == NOISE_STRUCT);
    MUST(noise_remote_static(&h, &key) == NOISE_STRUCT && noise_stage(&h, &stage) == NOISE_STRUCT);
    MUST(finish(&h, 0, &t) == NOISE_STRUCT && finish_datagrams(&h, 64, &d) == NOISE_STRUCT);
    MUST(is_same(&h, &zeros, sizeof h));
    t = no_transport, d = no_datagrams;
    MUST(noise_seal(&t.s, payload, 5, message, 99, &result) == NOISE_STRUCT
        && noise_open(&t.r, message, 48, &result) == NOISE_STRUCT);
    MUST(noise_seal_in_place(&t.s, message, 48, 5, &result) == NOISE_STRUCT
        && noise_sender_nonce(&t.s, &nonce) == NOISE_STRUCT);
    MUST(noise_receiver_nonce(&t.r, &nonce) == NOISE_STRUCT && is_same(&t, &no_transport, sizeof t));
    MUST(noise_datagram_seal(&d.s, payload, 5, message, 99, &result) == NOISE_STRUCT
        && noise_datagram_open(&d.r, message, 48, &result) == NOISE_STRUCT);
    MUST(noise_datagram_seal_in_place(&d.s, message, 48, 5, &result) == NOISE_STRUCT
        && noise_datagram_sender_nonce(&d.s, &nonce) == NOISE_STRUCT);
    MUST(is_same(&d, &no_datagrams, sizeof d));
}

void check_refusals(void) {
    check_unbegun();
    check_names();
    check_setups();
    check_turns();
    for (unsigned i = 0; i < PATTERNS; i++) {
        plan plain = plan_of(patterns[i], -1), with_psk = plan_of(patterns[i], 0);
        check_changed_messages(&plain);
        check_changed_messages(&with_psk);
    }
    check_lengths();
    check_answers();
    check_full();
    check_differences();
}

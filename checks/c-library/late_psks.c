// Handshakes that start with fewer psks than psk tokens: what they ask for, and that all bytes are those of a handshake
// that had them from the start.
#include "ends.h"

static uint8_t message[2000], other[2000], payload[1000];

static bool is_same(const void *a, const void *b, size_t len) {
    return memcmp(a, b, len) == 0;
}

// How often 32 bytes stand in a handshake's struct.
static unsigned find(const noise_handshake *h, const uint8_t bytes[32]) {
    unsigned found = 0;
    for (size_t i = 0; i + 32 <= sizeof h->opaque; i++) found += is_same(h->opaque + i, bytes, 32);
    return found;
}

// A party that lacks the psks after the first `given`.
typedef struct {
    end x;
    const plan *p;
    unsigned given, asked;
} late_end;

static late_end begin_with(const plan *p, unsigned role, unsigned given) {
    late_end late = {.x = {.role = role}, .p = p, .given = given};
    noise_setup setup = setup_of(p, role);
    setup.psk_count = (uint8_t)given;
    memset(setup.psks[given], 0x77, 32);                 // beyond the count: nobody looks at it
    MUST(start_with(&late.x.h, p, &setup) == NOISE_OK);
    return late;
}

// The key that is reported is the other party's static key, as far as the handshake or the message has it.
static void check_reported(const late_end *late, const noise_result *result) {
    static const uint8_t zeros[32];
    noise_key known;
    MUST(noise_remote_static(&late->x.h, &known) == NOISE_OK);
    MUST(result->remote_known <= 1 && result->remote_known >= known.present);
    if (result->remote_known)
        MUST(late->p->has_s[!late->x.role] && is_same(result->remote, public_key(!late->x.role, true), 32));
    else
        MUST(is_same(result->remote, zeros, 32));
}

// Supplies what a call has asked for. False if it has asked for nothing.
static bool supply(late_end *late, uint32_t code, const noise_result *result) {
    if (code == NOISE_WANTED) hand_in(&late->x, result);
    if (code == NOISE_WANTED_PSK) {
        check_reported(late, result);
        MUST(late->given < late->p->psks);
        MUST(noise_set_psk(&late->x.h, secret(late->given++)) == NOISE_OK);
        late->asked++;
    }
    return code == NOISE_WANTED || code == NOISE_WANTED_PSK;
}

static uint32_t write_late(late_end *late, size_t len, noise_result *result) {
    for (;;) {
        noise_handshake old = late->x.h;
        memset(message, 0x5e, sizeof message);
        uint32_t code = noise_write(&late->x.h, payload, len, message, sizeof message, result);
        if (code != NOISE_OK)
            MUST(is_same(&late->x.h, &old, sizeof old) && message[0] == 0x5e
                && is_same(message, message + 1, sizeof message - 1));
        if (!supply(late, code, result)) return code;
    }
}

static uint32_t read_late(late_end *late, size_t len, noise_result *result) {
    memcpy(other, message, len);
    for (;;) {
        noise_handshake old = late->x.h;
        uint32_t code = noise_read(&late->x.h, message, len, result);
        if (code != NOISE_OK) MUST(is_same(message, other, len));
        if (!supply(late, code, result)) return code;
        MUST(code != NOISE_WANTED_PSK || !is_same(&late->x.h, &old, sizeof old));
    }
}

static void must_be_alike(const noise_handshake *a, const noise_handshake *b) {
    uint8_t one[32], two[32];
    noise_key key, again;
    MUST(noise_hash(a, one) == NOISE_OK && noise_hash(b, two) == NOISE_OK && is_same(one, two, 32));
    MUST(noise_remote_static(a, &key) == NOISE_OK && noise_remote_static(b, &again) == NOISE_OK);
    MUST(key.present == again.present && (!key.present || is_same(key.bytes, again.bytes, 32)));
}

// All messages of two parties that lack psks, beside two with the same keys that have all: the same bytes and
// hashes, and the same transport.
static void try_beside(const plan *p, unsigned given0, unsigned given1) {
    late_end late[2] = {begin_with(p, 0, given0), begin_with(p, 1, given1)};
    end whole[2] = {begin(p, 0), begin(p, 1)};
    noise_result result, again;
    uint8_t expected[sizeof message];
    for (unsigned m = 0; m < p->messages; m++) {
        unsigned writer = m % 2;
        size_t len = length_of(m + 1);
        fill(payload, len, m);
        MUST(write_on(&whole[writer], payload, len, expected, sizeof expected, &again) == NOISE_OK);
        MUST(write_late(&late[writer], len, &result) == NOISE_OK);
        MUST(result.len == again.len && is_same(message, expected, result.len));
        MUST(read_on(&whole[!writer], expected, again.len, &again) == NOISE_OK);
        MUST(read_late(&late[!writer], result.len, &result) == NOISE_OK);
        MUST(result.len == len && result.from == again.from && is_same(message + result.from, payload, len));
        for (unsigned role = 0; role < 2; role++) must_be_alike(&late[role].x.h, &whole[role].h);
    }
    for (unsigned role = 0; role < 2; role++) {
        transport t, u;
        MUST(late[role].asked == p->psks - (role ? given1 : given0));
        MUST(noise_set_psk(&late[role].x.h, secret(0)) == NOISE_PSK_COUNT);
        MUST(finish(&late[role].x.h, 0, &t) == NOISE_OK && finish(&whole[role].h, 0, &u) == NOISE_OK);
        if (p->one_way && role) continue;
        MUST(noise_seal(&t.s, payload, 9, message, 25, &result) == NOISE_OK
            && noise_seal(&u.s, payload, 9, other, 25, &again) == NOISE_OK);
        MUST(is_same(message, other, 25));
    }
}

static void check_all_places(void) {
    for (unsigned i = 0; i < PATTERNS; i++)
        for (int place = 0; place <= (int)plan_of(patterns[i], -1).messages; place++) {
            plan p = plan_of(patterns[i], place);
            try_beside(&p, 0, 0);
            try_beside(&p, 1, 0);
        }
    plan two = plan_of_text("XX1psk0+psk3:\n  -> psk, e\n  <- e, ee, s\n  -> es, s, se, psk\n", "XX", 2, true);
    for (unsigned given = 0; given < 9; given++) try_beside(&two, given / 3, given % 3);
}

// The responder of XXpsk3 before message 3, which is in `message`; returns its length.
static size_t before_third(const plan *p, late_end *responder) {
    end initiator = begin(p, 0);
    noise_result result;
    *responder = begin_with(p, 1, 0);
    MUST(write_on(&initiator, payload, 3, message, sizeof message, &result) == NOISE_OK);
    MUST(read_late(responder, result.len, &result) == NOISE_OK);
    MUST(write_late(responder, 4, &result) == NOISE_OK);
    MUST(read_on(&initiator, message, result.len, &result) == NOISE_OK);
    MUST(write_on(&initiator, payload, 5, message, sizeof message, &result) == NOISE_OK);
    MUST(responder->asked == 0);
    return result.len;
}

// The static key stands in the message whose psk token lacks its psk: it is reported after the DH before the token, and
// only of a genuine message.
static void check_xxpsk3(void) {
    plan p = plan_of("XX", 3);
    late_end responder, copy;
    noise_result result;
    noise_key key;
    uint8_t right[200];
    size_t len = before_third(&p, &responder);
    MUST(len <= sizeof right);
    memcpy(right, message, len);
    MUST(noise_read(&responder.x.h, message, len, &result) == NOISE_WANTED && result.of_static == 0);
    hand_in(&responder.x, &result);
    for (unsigned again = 0; again < 3; again++) {
        noise_handshake old = responder.x.h;
        MUST(noise_read(&responder.x.h, message, len, &result) == NOISE_WANTED_PSK);
        MUST(result.remote_known == 1 && is_same(result.remote, public_key(0, true), 32));
        MUST(noise_remote_static(&responder.x.h, &key) == NOISE_OK && !key.present);
        MUST(is_same(&responder.x.h, &old, sizeof old) && is_same(message, right, len));
    }
    copy = responder;                                    // refused before the token: no psk is asked for
    message[7] ^= 1;
    MUST(noise_read(&copy.x.h, message, len, &result) == NOISE_TAG && result.token == 0);
    copy = responder;
    MUST(noise_read(&copy.x.h, right, 47, &result) == NOISE_SHORT && result.token == 0);
    memcpy(message, right, len);
    copy = responder;                                    // a wrong psk: the payload's tag
    MUST(noise_set_psk(&copy.x.h, secret(5)) == NOISE_OK);
    MUST(noise_read(&copy.x.h, message, len, &result) == NOISE_TAG && result.token == 3);
    MUST(noise_read(&copy.x.h, message, len, &result) == NOISE_ENDED);
    MUST(noise_set_psk(&responder.x.h, secret(0)) == NOISE_OK);
    MUST(noise_read(&responder.x.h, message, len, &result) == NOISE_OK && result.len == 5);
    MUST(noise_remote_static(&responder.x.h, &key) == NOISE_OK && key.present
        && is_same(key.bytes, public_key(0, true), 32));
}

// The responder writes the message of the psk token, and knows the static key from the one before.
static void check_ikpsk2(void) {
    plan p = plan_of("IK", 2);
    end initiator = begin(&p, 0);
    late_end responder = begin_with(&p, 1, 0), wrong;
    noise_result result;
    size_t len;
    MUST(write_on(&initiator, payload, 3, message, sizeof message, &result) == NOISE_OK);
    MUST(read_late(&responder, result.len, &result) == NOISE_OK && responder.asked == 0);
    MUST(noise_message_len(&responder.x.h, 6, &len) == NOISE_OK);
    MUST(noise_write(&responder.x.h, payload, 6, message, len - 1, &result) == NOISE_ROOM && result.len == len);
    uint32_t code;
    while ((code = noise_write(&responder.x.h, payload, 6, message, len, &result)) == NOISE_WANTED)
        hand_in(&responder.x, &result);
    MUST(code == NOISE_WANTED_PSK && result.remote_known == 1 && is_same(result.remote, public_key(0, true), 32));
    wrong = responder;
    MUST(noise_set_psk(&wrong.x.h, secret(3)) == NOISE_OK
        && noise_write(&wrong.x.h, payload, 6, message, len, &result) == NOISE_OK);
    end copy = initiator;
    MUST(read_on(&copy, message, result.len, &result) == NOISE_TAG);
    MUST(write_late(&responder, 6, &result) == NOISE_OK && responder.asked == 1);
    MUST(read_on(&initiator, message, result.len, &result) == NOISE_OK);
}

// A psk that was set for a refused message is taken back, and the right message is read;
// without that it is refused too.
static void check_taken_back(void) {
    plan p = plan_of("XX", 3);
    late_end responder, copy;
    noise_result result;
    uint8_t right[200], forged[200];
    uint32_t code;
    size_t len = before_third(&p, &responder);
    MUST(len <= sizeof right);
    memcpy(right, message, len);
    memcpy(forged, message, len);
    forged[len - 1] ^= 1;
    while ((code = noise_try_read(&responder.x.h, forged, len, &result)) == NOISE_WANTED)
        hand_in(&responder.x, &result);
    MUST(code == NOISE_WANTED_PSK);
    MUST(noise_set_psk(&responder.x.h, secret(5)) == NOISE_OK);
    while ((code = noise_try_read(&responder.x.h, forged, len, &result)) == NOISE_WANTED)
        hand_in(&responder.x, &result);
    MUST(code == NOISE_TAG);
    copy = responder;
    MUST(noise_try_read(&copy.x.h, right, len, &result) != NOISE_OK);
    MUST(noise_unset_psk(&responder.x.h) == NOISE_OK);
    MUST(find(&responder.x.h, secret(5)) == 0 && find(&copy.x.h, secret(5)) == 1);
    for (unsigned again = 0; again < 2; again++) {        // there is none any more: nothing changes
        noise_handshake before = responder.x.h;
        MUST(noise_unset_psk(&responder.x.h) == NOISE_OK && is_same(&responder.x.h, &before, sizeof before));
    }
    while ((code = noise_try_read(&responder.x.h, right, len, &result)) == NOISE_WANTED) hand_in(&responder.x, &result);
    MUST(code == NOISE_WANTED_PSK && result.remote_known == 1 && is_same(result.remote, public_key(0, true), 32));
    MUST(noise_set_psk(&responder.x.h, secret(0)) == NOISE_OK);
    MUST(noise_try_read(&responder.x.h, right, len, &result) == NOISE_OK && result.len == 5);
}

// Of several psks the last is taken back: each is asked for again at its own token.
static void check_last_taken_back(void) {
    plan two = plan_of_text("XX1psk0+psk3:\n  -> psk, e\n  <- e, ee, s\n  -> es, s, se, psk\n", "XX", 2, true);
    late_end whole = begin_with(&two, 0, 2), late;
    noise_result result, again;
    for (unsigned kept = 0; kept <= 2; kept++) {
        late = begin_with(&two, 0, 0);
        for (unsigned i = 0; i < 2; i++) MUST(noise_set_psk(&late.x.h, secret(i)) == NOISE_OK);
        for (unsigned i = kept; i < 2; i++) MUST(noise_unset_psk(&late.x.h) == NOISE_OK);
        MUST(noise_set_psk(&late.x.h, secret(kept)) == (kept < 2 ? NOISE_OK : NOISE_PSK_COUNT));
        noise_handshake h = whole.x.h;
        MUST(noise_write(&late.x.h, payload, 9, message, sizeof message, &result) == NOISE_OK);
        MUST(noise_write(&h, payload, 9, other, sizeof other, &again) == NOISE_OK);
        MUST(result.len == again.len && is_same(message, other, result.len));
    }
}

// Where no psk token lacks its psk, and for a struct without a valid state.
static void check_refused(void) {
    plan none = plan_of("XX", -1), one = plan_of("XX", 3);
    late_end ends[3] = {begin_with(&none, 0, 0), begin_with(&one, 0, 1), begin_with(&one, 1, 0)};
    MUST(noise_set_psk(&ends[2].x.h, secret(0)) == NOISE_OK);    // before it is asked for
    for (unsigned i = 0; i < 3; i++) {
        noise_handshake old = ends[i].x.h;
        MUST(noise_set_psk(&ends[i].x.h, secret(1)) == NOISE_PSK_COUNT && is_same(&ends[i].x.h, &old, sizeof old));
    }
    noise_handshake zeros = {{0}}, old = zeros;
    MUST(noise_set_psk(&zeros, secret(0)) == NOISE_STRUCT && is_same(&zeros, &old, sizeof old));
    MUST(noise_unset_psk(&zeros) == NOISE_STRUCT && is_same(&zeros, &old, sizeof old));
}

void check_late_psks(void) {
    check_all_places();
    check_xxpsk3();
    check_ikpsk2();
    check_taken_back();
    check_last_taken_back();
    check_refused();
}

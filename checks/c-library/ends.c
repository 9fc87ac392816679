// Two parties of one handshake in one process.
#define _GNU_SOURCE
#include "ends.h"
#include <stdlib.h>
#include <sys/mman.h>
#include <unistd.h>

const char *const patterns[PATTERNS] = {
    "N", "K", "X", "NN", "NK", "NX", "KN", "KK", "KX", "XN", "XK", "XX", "IN", "IK", "IX"};

_Thread_local unsigned long comparisons;
unsigned every = 1;

bool is_due(void) {
    static _Thread_local unsigned long cases;
    return cases++ % every == 0;
}

void fail(const char *file, int line, const char *what) {
    fprintf(stderr, "%s:%d: not so: %s\n", file, line, what);
    abort();
}

bool is_in(uint32_t code, uint64_t codes) {
    return code < 64 && (codes >> code & 1);
}

static plan plain_plan(const char *base) {
    bool one_way = !base[1];
    char initiator = base[0], responder = one_way ? 'K' : base[1];
    plan p = {
        .one_way = one_way,
        .messages = one_way ? 1 : initiator == 'X' ? 3 : 2,
        .interval = 3,
        .prologue_len = 40,
    };
    p.has_e[0] = true;
    p.has_e[1] = !one_way;
    p.has_s[0] = initiator != 'N';
    p.has_s[1] = responder != 'N';
    p.is_known[0] = initiator == 'K';
    p.is_known[1] = responder == 'K';
    return p;
}

plan plan_of(const char *base, int psk_place) {
    plan p = plain_plan(base);
    p.psks = psk_place >= 0;
    if (psk_place < 0)
        snprintf(p.name, sizeof p.name, "Noise_%s_25519_ChaChaPoly_SHA256", base);
    else
        snprintf(p.name, sizeof p.name, "Noise_%spsk%d_25519_ChaChaPoly_SHA256", base, psk_place);
    return p;
}

plan plan_of_text(const char *text, const char *like, unsigned psks, bool is_own) {
    plan p = plain_plan(like);
    p.psks = psks;
    p.is_own = is_own;
    int heading = (int)strcspn(text, ":");
    MUST(strlen(text) < sizeof p.text);
    strcpy(p.text, text);
    snprintf(p.name, sizeof p.name, "Noise_%.*s_25519_ChaChaPoly_SHA256", heading, text);
    return p;
}

const uint8_t *public_key(unsigned role, bool of_static) {
    static uint8_t keys[2][2][32];
    uint8_t *key = keys[role][of_static];
    for (unsigned i = 0; i < 32; i++) key[i] = (uint8_t)(17 + 60 * role + 101 * of_static + 7 * i);
    return key;
}

const uint8_t *secret(unsigned number) {
    static uint8_t secrets[9][32];
    memset(secrets[number], (int)(0xa0 + number), 32);
    return secrets[number];
}

const uint8_t *prologue(void) {
    static uint8_t bytes[NOISE_MAX_PROLOGUE + 1];
    static bool are_filled;
    if (!are_filled)
        for (unsigned i = 0; i < sizeof bytes; i++) bytes[i] = (uint8_t)(i * i + 3);
    are_filled = true;
    return bytes;
}

static noise_key key_if(bool is_there, const uint8_t *bytes) {
    noise_key key = {.present = is_there};
    if (is_there) memcpy(key.bytes, bytes, 32);
    return key;
}

noise_setup setup_of(const plan *p, unsigned role) {
    noise_setup setup = {.responder = (uint8_t)role, .psk_count = (uint8_t)p->psks};
    setup.e = key_if(p->has_e[role], public_key(role, false));
    setup.s = key_if(p->has_s[role], public_key(role, true));
    setup.remote_s = key_if(p->is_known[!role], public_key(!role, true));
    for (unsigned i = 0; i < p->psks; i++) memcpy(setup.psks[i], secret(i), 32);
    return setup;
}

uint32_t start_with(noise_handshake *h, const plan *p, const noise_setup *setup) {
    const char *pattern = p->text[0] ? p->text : p->name;
    return noise_start(h, (const uint8_t *)pattern, strlen(pattern), prologue(), p->prologue_len, setup);
}

end begin(const plan *p, unsigned role) {
    end x = {.role = role};
    noise_setup setup = setup_of(p, role);
    MUST(start_with(&x.h, p, &setup) == NOISE_OK);
    return x;
}

void hand_in(end *x, const noise_result *result) {
    uint8_t answer[32];
    const uint8_t *own = public_key(x->role, result->of_static);
    for (unsigned i = 0; i < 32; i++) answer[i] = own[i] ^ result->remote[i];
    MUST(result->of_static <= 1);
    MUST(noise_answer(&x->h, result->of_static, result->remote, answer) == NOISE_OK);
    x->answers++;
}

uint32_t write_on(end *x, const uint8_t *payload, size_t payload_len, uint8_t *out, size_t out_len,
                  noise_result *result) {
    uint32_t code;
    while ((code = noise_write(&x->h, payload, payload_len, out, out_len, result)) == NOISE_WANTED) hand_in(x, result);
    return code;
}

uint32_t read_on(end *x, uint8_t *message, size_t message_len, noise_result *result) {
    uint32_t code;
    while ((code = noise_read(&x->h, message, message_len, result)) == NOISE_WANTED) hand_in(x, result);
    return code;
}

void fill(uint8_t *payload, size_t len, unsigned number) {
    for (size_t i = 0; i < len; i++) payload[i] = (uint8_t)(i + 31 * number + (i >> 8));
}

size_t length_of(unsigned number) {
    static const size_t some[] = {0, 5, 1, 1000, 17, 64, 16, 333};
    return some[number % 8];
}

void pass_all(const plan *p, end ends[2]) {
    uint8_t message[2000], payload[1000];
    noise_result result;
    for (unsigned m = 0; m < p->messages; m++) {
        size_t len = length_of(m + 1);
        fill(payload, len, m);
        MUST(write_on(&ends[m % 2], payload, len, message, sizeof message, &result) == NOISE_OK);
        MUST(read_on(&ends[1 - m % 2], message, result.len, &result) == NOISE_OK);
        MUST(result.len == len && !memcmp(message + result.from, payload, len));
    }
}

uint32_t finish(const noise_handshake *h, uint64_t interval, transport *t) {
    noise_handshake copy = *h;
    return noise_finish(&copy, interval, &t->s, &t->r);
}

uint32_t finish_datagrams(const noise_handshake *h, uint32_t window, datagrams *d) {
    noise_handshake copy = *h;
    return noise_finish_datagrams(&copy, window, &d->s, &d->r);
}

uint32_t finish_stream(const noise_handshake *h, uint64_t interval, stream *x) {
    noise_handshake copy = *h;
    return noise_finish_stream(&copy, interval, &x->s, &x->r);
}

uint32_t finish_cipher_states(const noise_handshake *h, noise_cipher *send, noise_cipher *receive) {
    noise_handshake copy = *h;
    return noise_finish_ciphers(&copy, send, receive);
}

uint8_t *place_at_edge(size_t size) {
    size_t page = (size_t)sysconf(_SC_PAGESIZE), room = (size + page - 1) / page * page;
    uint8_t *at = mmap(0, room + page, PROT_READ | PROT_WRITE, MAP_PRIVATE | MAP_ANONYMOUS, -1, 0);
    MUST(at != MAP_FAILED && mprotect(at + room, page, PROT_NONE) == 0);
    return at + room - size;
}

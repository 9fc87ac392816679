// How many bytes of stack a call takes at most: each runs on a stack of its own that was filled before, and
// what it has changed is counted. That is of the calls below on this machine, and no bound on others. stack
// MOST fails where one takes more.
#define _GNU_SOURCE
#include "ends.h"
#include <stdlib.h>
#include <sys/mman.h>
#include <ucontext.h>

enum { STACK = 256 * 1024, FILLING = 0xa5 };

static uint8_t *stack;
static ucontext_t here, there;
static size_t most;
static const char *most_of;

static plan p;
static end ends[2];
static noise_handshake used; // a copy, which a call uses up
static transport t[2];
static datagrams d[2];
static stream x[2];
static noise_stream_result place;
static noise_cipher send[2], receive[2];
static noise_result result;
static uint8_t payload[NOISE_MAX_MESSAGE], message[LONGEST];
static const uint8_t *pattern;
static size_t pattern_len, len, room;
static noise_setup setup;
static unsigned role;
static uint32_t code;

static void do_nothing(void) {}
static void do_start(void) {
    code = noise_start(&ends[role].h, pattern, pattern_len, prologue(), p.prologue_len, &setup);
}
static void do_write(void) { code = noise_write(&ends[role].h, payload, len, message, room, &result); }
static void do_read(void) { code = noise_read(&ends[role].h, message, len, &result); }
static void do_answer(void) { hand_in(&ends[role], &result); }
static void do_finish(void) { used = ends[role].h, code = noise_finish(&used, 1, &t[role].s, &t[role].r); }
static void do_finish_datagrams(void) {
    used = ends[role].h, code = noise_finish_datagrams(&used, 1024, &d[role].s, &d[role].r);
}
static void do_finish_stream(void) {
    used = ends[role].h, code = noise_finish_stream(&used, 1, &x[role].s, &x[role].r);
}
static void do_finish_ciphers(void) {
    used = ends[role].h, code = noise_finish_ciphers(&used, &send[role], &receive[role]);
}
static void do_seal(void) { code = noise_seal(&t[role].s, payload, len, message, room, &result); }
static void do_seal_in_place(void) { code = noise_seal_in_place(&t[role].s, message, room, len, &result); }
static void do_open(void) { code = noise_open(&t[role].r, message, len, &result); }
static void do_seal_datagram(void) { code = noise_datagram_seal(&d[role].s, payload, len, message, room, &result); }
static void do_seal_datagram_in_place(void) {
    code = noise_datagram_seal_in_place(&d[role].s, message, room, len, &result);
}
static void do_open_datagram(void) { code = noise_datagram_open(&d[role].r, message, len, &result); }
static void do_encrypt(void) { code = noise_cipher_encrypt(&send[role], payload, 30, message, room, len, &result); }
static void do_decrypt(void) { code = noise_cipher_decrypt(&receive[role], payload, 30, message, len, &result); }

static void do_stream_write(void) {
    code = noise_stream_write(&x[role].s, payload, len, message, room, &place);
    result.len = place.len;
}
static void do_stream_end(void) {
    code = noise_stream_end(&x[role].s, message, room, &place);
    result.len = place.len;
}
static void do_stream_read(void) { code = noise_stream_read(&x[role].r, message, len, &place); }

static void do_ask(void) {
    noise_stage_result stage;
    noise_key key;
    uint8_t hash[32];
    size_t needed;
    MUST(noise_stage(&ends[role].h, &stage) == NOISE_OK && noise_remote_static(&ends[role].h, &key) == NOISE_OK);
    MUST(noise_hash(&ends[role].h, hash) == NOISE_OK && noise_message_len(&ends[role].h, 3, &needed) != NOISE_STRUCT);
}

static void do_check(void) {
    noise_pattern_result of_text;
    const char *text = "XX1psk0+psk3:\n  -> psk, e\n  <- e, ee, s\n  -> es, s, se, psk\n";
    noise_pattern_info info;
    noise_message_layout layout;
    MUST(noise_check_pattern((const uint8_t *)text, strlen(text), &of_text) == NOISE_OK);
    MUST(noise_pattern((const uint8_t *)text, strlen(text), &info, &of_text) == NOISE_OK);
    MUST(noise_layout((const uint8_t *)text, strlen(text), 2, 40, &layout) == NOISE_OK && layout.pieces[3].from == 80);
}

static size_t taken_by(void (*call)(void)) {
    memset(stack, FILLING, STACK);
    MUST(getcontext(&there) == 0);
    there.uc_stack.ss_sp = stack;
    there.uc_stack.ss_size = STACK;
    there.uc_link = &here;
    makecontext(&there, call, 0);
    MUST(swapcontext(&here, &there) == 0);
    size_t at = 0;
    while (at < STACK && stack[at] == FILLING) at++;
    return STACK - at;
}

static void measure(const char *name, void (*call)(void)) {
    size_t taken = taken_by(call) - taken_by(do_nothing);
    if (taken > most) most = taken, most_of = name;
}

static void pass_message(size_t payload_len) {
    do {
        len = payload_len, room = sizeof message;
        measure("noise_write", do_write);
        if (code == NOISE_WANTED) measure("noise_answer", do_answer);
    } while (code == NOISE_WANTED);
    MUST(code == NOISE_OK);
    len = result.len, role = !role;
    do {
        measure("noise_read", do_read);
        if (code == NOISE_WANTED) measure("noise_answer", do_answer);
    } while (code == NOISE_WANTED);
    MUST(code == NOISE_OK);
}

static void pass_sealed(const char *seal_name, void (*seal)(void), const char *open_name, void (*open)(void),
                        size_t payload_len) {
    len = payload_len, room = sizeof message, role = 0;
    measure(seal_name, seal);
    MUST(code == NOISE_OK);
    len = result.len, role = 1;
    message[len - 1] ^= 1;
    measure(open_name, open);
    MUST(code == NOISE_TAG);
    message[len - 1] ^= 1;
    measure(open_name, open);
    MUST(code == NOISE_OK);
}

static void measure_all(void) {
    pattern = (const uint8_t *)(p.text[0] ? p.text : p.name);
    pattern_len = strlen((const char *)pattern);
    for (role = 0; role < 2; role++) {
        ends[role].role = role;
        setup = setup_of(&p, role);
        measure("noise_start", do_start);
        MUST(code == NOISE_OK);
    }
    role = 0;
    for (unsigned m = 0; m < p.messages; m++) pass_message(m % 2 ? 40000 : 7);
    for (role = 0; role < 2; role++) {
        measure("a call that asks", do_ask);
        measure("noise_finish", do_finish);
        measure("noise_finish_datagrams", do_finish_datagrams);
        measure("noise_finish_ciphers", do_finish_ciphers);
        measure("noise_finish_stream", do_finish_stream);
    }
    measure("noise_check_pattern", do_check);
    static const size_t lens[] = {0, 1, 64, 1000, NOISE_MAX_MESSAGE - NOISE_TAG_LEN};
    for (size_t i = 0; i < sizeof lens / sizeof *lens; i++) {
        pass_sealed("noise_seal", do_seal, "noise_open", do_open, lens[i]);
        pass_sealed("noise_seal_in_place", do_seal_in_place, "noise_open", do_open, lens[i]);
        pass_sealed("noise_datagram_seal", do_seal_datagram, "noise_datagram_open", do_open_datagram, lens[i]);
        pass_sealed("noise_datagram_seal_in_place", do_seal_datagram_in_place, "noise_datagram_open", do_open_datagram,
            lens[i]);
        pass_sealed("noise_cipher_encrypt", do_encrypt, "noise_cipher_decrypt", do_decrypt, lens[i]);
        if (!lens[i]) continue;
        stream right = x[1];
        len = lens[i], room = sizeof message, role = 0;
        measure("noise_stream_write", do_stream_write);
        MUST(code == NOISE_OK);
        len = result.len, role = 1;
        message[len - 1] ^= 1;
        measure("noise_stream_read", do_stream_read);
        MUST(code == NOISE_TAG);
        message[len - 1] ^= 1;
        x[1] = right;
        measure("noise_stream_read", do_stream_read);
        MUST(code == NOISE_OK);
    }
    role = 0;
    measure("noise_stream_end", do_stream_end);
    MUST(code == NOISE_OK);
    len = result.len, role = 1;
    measure("noise_stream_read", do_stream_read);
    MUST(code == NOISE_END);
}

// Whether 8 bytes of a secret are still somewhere on the stack that a call and noise_wipe_stack have used.
static bool is_left(const uint8_t *secret_bytes, size_t secret_len) {
    for (size_t at = 0; at + 8 <= STACK; at++)
        for (size_t i = 0; i + 8 <= secret_len; i += 8)
            if (!memcmp(stack + at, secret_bytes + i, 8)) return true;
    return false;
}

static void (*wiped_call)(void);
static void do_and_wipe(void) {
    wiped_call();
    noise_wipe_stack();
}

// noise_start leaves psks on the stack, and the others keys: noise_wipe_stack overwrites them.
static void check_wiping(void) {
    bool ever_left = false;
    void (*const calls[])(void) = {do_start, do_finish, do_finish_ciphers, do_seal};
    p = plan_of("XX", 3);
    pattern = (const uint8_t *)p.name;
    pattern_len = strlen(p.name);
    for (role = 0; role < 2; role++) {
        ends[role].role = role;
        setup = setup_of(&p, role);
        do_start();
        MUST(code == NOISE_OK);
    }
    noise_handshake begun = ends[0].h;
    pass_all(&p, ends);
    role = 0, len = 100, room = sizeof message;
    for (size_t i = 0; i < sizeof calls / sizeof *calls; i++) {
        noise_handshake done = ends[0].h;
        if (i == 0) ends[0].h = begun;
        wiped_call = calls[i];
        taken_by(wiped_call);
        MUST(code == NOISE_OK);
        const uint8_t *secrets[] = {
            secret(0), t[0].s.opaque + 6, t[0].r.opaque + 6, send[0].opaque + 5, receive[0].opaque + 5};
        for (size_t n = 0; n < (i ? 5 : 1); n++) ever_left = ever_left || is_left(secrets[n], 32);
        taken_by(do_and_wipe);
        for (size_t n = 0; n < (i ? 5 : 1); n++) MUST(!is_left(secrets[n], 32));
        if (i == 0) ends[0].h = done;
    }
    printf("c-library: stack: secrets were %s there, and noise_wipe_stack overwrote them\n",
        ever_left ? "left" : "not left");
}

int main(int count, char **words) {
    MUST(count == 2);
    stack = mmap(0, STACK, PROT_READ | PROT_WRITE, MAP_PRIVATE | MAP_ANONYMOUS, -1, 0);
    MUST(stack != MAP_FAILED);
    for (unsigned i = 0; i < PATTERNS + 2; i++) {
        // In the first round the dynamic loader may have run on this stack too.
        if (i == 1) most = 0;
        p = i < PATTERNS ? plan_of(patterns[i], 0)
            : i == PATTERNS ? plan_of("XX", 3)
            : plan_of_text("XX1psk0+psk3:\n  -> psk, e\n  <- e, ee, s\n  -> es, s, se, psk\n", "XX", 2, true);
        if (!p.one_way || i == 0) measure_all();
    }
    check_wiping();
    printf("c-library: stack: at most %zu bytes, by %s\n", most, most_of);
    return most > strtoul(words[1], NULL, 10);
}

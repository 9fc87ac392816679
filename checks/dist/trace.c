/* Whether the library runs the same instructions, and touches the same addresses, whatever the secrets are: psks,
   results of X25519 and payloads. The library is linked of a text in which each address is recorded (`traced`). Each
   part is done with RUNS sets of secrets; the first record is kept, and the others have to be the same. valgrind, which
   marks secrets and follows them, runs no AVX-512; this compares runs, so it can miss a branch that few secrets take.
   What differs is printed by the number of its line in the text. */
#include "ends.h"
#include <stdlib.h>

enum { RUNS = 12, LARGEST = 1100, ROOM = LARGEST + NOISE_DATAGRAM_OVERHEAD, MOST_STEPS = 1 << 22 };

/* THE RECORD: addresses of operands, and the lines of the instructions. The library calls trace_record with an address
   in rax and a line in rcx. */

typedef struct {
    uint64_t address, line;
} step;

static step *steps[2];
static size_t counts[2];
step *trace_next;    /* NULL: nothing is recorded, as before main */

void trace_record(void);
__asm__(".text\n"
        ".globl trace_record\n"
        "trace_record:\n"
        "    pushq %rdx\n"
        "    movq trace_next(%rip), %rdx\n"
        "    testq %rdx, %rdx\n"
        "    je 1f\n"
        "    movq %rax, (%rdx)\n"
        "    movq %rcx, 8(%rdx)\n"
        "    addq $16, %rdx\n"
        "    movq %rdx, trace_next(%rip)\n"
        "1:  popq %rdx\n"
        "    ret\n");

static void compare(const char *part) {
    size_t at = 0;
    while (at < counts[0] && at < counts[1] && !memcmp(&steps[0][at], &steps[1][at], sizeof(step)))
        at++;
    if (at == counts[0] && at == counts[1])
        return;
    bool is_address = at < counts[0] && at < counts[1] && steps[0][at].line == steps[1][at].line;
    fprintf(stderr, "trace: %s: line %llu: %s depends on a secret\n", part,
        (unsigned long long)steps[0][is_address ? at : at - 1].line,
        is_address ? "an address" : "a branch from here on");
    exit(1);
}

/* THE SECRETS: the same at both parties, and others in each run. In one run all bytes are 0, and in one 255. */

static unsigned run;

static void fill_secret(uint8_t *at, size_t len, unsigned number) {
    uint32_t state = 0x9e3779b9u * (number + 1) + 0x85ebca6bu * run;
    for (size_t i = 0; i < len; i++) {
        state = state * 1664525u + 1013904223u;
        at[i] = run == 1 ? 0 : run == 2 ? 255 : (uint8_t)(state >> 24);
    }
}

static void answer(end *x, const noise_result *result) {
    const uint8_t *own = public_key(x->role, result->of_static);
    uint8_t agreed[32];
    fill_secret(agreed, sizeof agreed, 100u + (own[0] ^ result->remote[0]));
    MUST(noise_answer(&x->h, result->of_static, result->remote, agreed) == NOISE_OK);
}

/* Changes a bit of the last 16 bytes, in each run of another one: a comparison may not end where they differ. */
static void change_tag(uint8_t *message, size_t len) {
    message[len - 16 + (5 * run + 3) % 16] ^= 1;
}

/* HANDSHAKES */

static end begin_secret(const plan *p, unsigned role) {
    end x = {.role = role};
    noise_setup setup = setup_of(p, role);
    for (unsigned i = 0; i < p->psks; i++)
        fill_secret(setup.psks[i], 32, i);
    MUST(start_with(&x.h, p, &setup) == NOISE_OK);
    return x;
}

static uint32_t read_secret(end *x, uint8_t *message, size_t len, noise_result *result) {
    uint32_t code;
    while ((code = noise_read(&x->h, message, len, result)) == NOISE_WANTED)
        answer(x, result);
    return code;
}

static void pass_one(end *writer, end *reader, unsigned number) {
    uint8_t payload[40], message[400], changed[400];
    noise_result written, read;
    end copy = *reader;
    uint32_t code;
    fill_secret(payload, sizeof payload, 10 + number);
    while ((code = noise_write(&writer->h, payload, sizeof payload, message, sizeof message, &written)) == NOISE_WANTED)
        answer(writer, &written);
    MUST(code == NOISE_OK);
    memcpy(changed, message, written.len);
    change_tag(changed, written.len);
    code = read_secret(&copy, changed, written.len, &read);
    MUST(code == NOISE_TAG || code == NOISE_OK);             /* (a message without a key has no tag) */
    MUST(read_secret(reader, message, written.len, &read) == NOISE_OK);
    MUST(read.len == sizeof payload && !memcmp(message + read.from, payload, sizeof payload));
}

static void shake_hands(const plan *p, end ends[2]) {
    for (unsigned role = 0; role < 2; role++)
        ends[role] = begin_secret(p, role);
    for (unsigned m = 0; m < p->messages; m++)
        pass_one(&ends[m % 2], &ends[1 - m % 2], m);
}

/* WHAT FOLLOWS: each kind seals a payload, and opens it after a copy of its state has refused it with another tag. */

static const size_t lens[] = {1, 15, 16, 17, 63, 64, 65, 191, 192, 193, 255, 256, 257, 1023, 1024, LARGEST};
enum { LENS = sizeof lens / sizeof *lens };

static void pass_messages(const end ends[2]) {
    transport there, back;
    uint8_t message[ROOM], changed[ROOM];
    noise_result result;
    MUST(finish(&ends[0].h, 2, &there) == NOISE_OK && finish(&ends[1].h, 2, &back) == NOISE_OK);
    for (unsigned i = 0; i < LENS; i++) {
        fill_secret(message, lens[i], 20 + i);
        MUST(noise_seal_in_place(&there.s, message, sizeof message, lens[i], &result) == NOISE_OK);
        size_t len = result.len;
        memcpy(changed, message, len);
        change_tag(changed, len);
        noise_receiver copy = back.r;
        MUST(noise_open(&copy, changed, len, &result) == NOISE_TAG);
        MUST(noise_open(&back.r, message, len, &result) == NOISE_OK && result.len == lens[i]);
    }
}

static void pass_datagrams(const end ends[2]) {
    datagrams there, back;
    uint8_t message[ROOM], changed[ROOM];
    noise_result result;
    MUST(finish_datagrams(&ends[0].h, 256, &there) == NOISE_OK && finish_datagrams(&ends[1].h, 256, &back) == NOISE_OK);
    for (unsigned i = 0; i < LENS; i++) {
        fill_secret(message + 8, lens[i], 20 + i);
        MUST(noise_datagram_seal_in_place(&there.s, message, sizeof message, lens[i], &result) == NOISE_OK);
        size_t len = result.len;
        memcpy(changed, message, len);
        change_tag(changed, len);
        noise_datagram_receiver copy = back.r;
        MUST(noise_datagram_open(&copy, changed, len, &result) == NOISE_TAG);
        MUST(noise_datagram_open(&back.r, message, len, &result) == NOISE_OK && result.len == lens[i]);
    }
}

static void pass_frames(const end ends[2]) {
    stream there, back;
    uint8_t payload[LARGEST], frame[ROOM], changed[ROOM];
    noise_stream_result result;
    MUST(finish_stream(&ends[0].h, 2, &there) == NOISE_OK && finish_stream(&ends[1].h, 2, &back) == NOISE_OK);
    for (unsigned i = 0; i < LENS; i++) {
        fill_secret(payload, lens[i], 20 + i);
        MUST(noise_stream_write(&there.s, payload, lens[i], frame, sizeof frame, &result) == NOISE_OK);
        size_t len = result.len;
        memcpy(changed, frame, len);
        change_tag(changed, len);
        noise_stream_receiver copy = back.r;
        MUST(noise_stream_read(&copy, changed, len, &result) == NOISE_TAG);
        MUST(noise_stream_read(&back.r, frame, len, &result) == NOISE_OK && result.len == lens[i]);
    }
}

static void pass_ciphers(const end ends[2]) {
    noise_cipher sends, receives, unused;
    uint8_t header[20], message[ROOM], changed[ROOM];
    noise_result result;
    MUST(finish_cipher_states(&ends[0].h, &sends, &unused) == NOISE_OK
        && finish_cipher_states(&ends[1].h, &unused, &receives) == NOISE_OK);
    fill_secret(header, sizeof header, 9);
    for (unsigned i = 0; i < LENS; i++) {
        fill_secret(message, lens[i], 20 + i);
        MUST(noise_cipher_encrypt(&sends, header, sizeof header, message, sizeof message, lens[i], &result)
            == NOISE_OK);
        size_t len = result.len;
        memcpy(changed, message, len);
        change_tag(changed, len);
        noise_cipher copy = receives;
        MUST(noise_cipher_decrypt(&copy, header, sizeof header, changed, len, &result) == NOISE_TAG);
        MUST(noise_cipher_decrypt(&receives, header, sizeof header, message, len, &result) == NOISE_OK
            && result.len == lens[i]);
    }
}

/* ALL */

static void pass_pattern(const plan *p) {
    end ends[2];
    shake_hands(p, ends);
}

static void pass_lengths(const plan *p) {
    end ends[2];
    shake_hands(p, ends);
    pass_messages(ends);
    pass_datagrams(ends);
    pass_frames(ends);
    pass_ciphers(ends);
}

/* Records a part in each run, and compares; how many steps it has. */
static size_t watch(void (*part)(const plan *), const plan *p) {
    for (run = 0; run < RUNS; run++) {
        trace_next = steps[run > 0];
        part(p);
        counts[run > 0] = (size_t)(trace_next - steps[run > 0]);
        MUST(counts[run > 0] <= MOST_STEPS);
        if (run > 0)
            compare(p->name);
    }
    return counts[0];
}

int main(void) {
    size_t total = 0, parts = 0;
    for (unsigned i = 0; i < 2; i++)
        MUST((steps[i] = calloc(2 * MOST_STEPS, sizeof(step))) != NULL);
    for (unsigned i = 0; i < PATTERNS; i++) {
        plan p = plan_of(patterns[i], -1);
        for (int place = -1; place <= (int)p.messages; place++, parts++) {
            plan with_psk = plan_of(patterns[i], place);
            total += watch(pass_pattern, &with_psk);
        }
    }
    plan xx = plan_of("XX", 3);
    total += watch(pass_lengths, &xx);
    MUST(total > 1000000);
    printf("trace: %zu addresses of %zu handshakes and what follows are the same for %d sets of secrets\n", total,
        parts, RUNS);
    return 0;
}

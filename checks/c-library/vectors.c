// Runs of two parties, each written as a vector file NAME.vector, and beside it what `noise talk` has to print for it
// (NAME.wanted), from what the library returns.
#include "ends.h"
#include <inttypes.h>

static const char *const role_names[2] = {"initiator", "responder"};

typedef struct {
    const plan *p;
    FILE *vector, *wanted;
    end ends[2];
    transport transports[2];
    bool is_open;
    unsigned frames[2];
} run;

static void put_hex(FILE *file, const uint8_t *bytes, size_t len) {
    if (!len) fputc('-', file);
    for (size_t i = 0; i < len; i++) fprintf(file, "%02x", bytes[i]);
}

static void put_key(FILE *file, bool is_there, const uint8_t *key) {
    fputc(' ', file);
    put_hex(file, key, is_there ? 32 : 0);
}

static void put_head(run *r) {
    const plan *p = r->p;
    fprintf(r->vector, "vector 1\nprotocol %s\n", p->name);
    if (p->is_own) fprintf(r->vector, "%send\n", p->text);
    fprintf(r->vector, "prologue ");
    put_hex(r->vector, prologue(), p->prologue_len);
    fprintf(r->vector, "\ninterval %" PRIu64 "\n", p->interval);
    for (unsigned i = 0; i < p->psks; i++) {
        fprintf(r->vector, "psk");
        put_key(r->vector, true, secret(i));
        fputc('\n', r->vector);
    }
    for (unsigned role = 0; role < 2; role++) {
        fprintf(r->vector, "%s xor", role_names[role]);
        put_key(r->vector, p->has_e[role], public_key(role, false));
        put_key(r->vector, p->has_s[role], public_key(role, true));
        fputc('\n', r->vector);
    }
}

static uint32_t write_next(run *r, unsigned role, const uint8_t *payload, size_t len, uint8_t *out,
                           noise_result *result) {
    if (r->is_open) return noise_seal(&r->transports[role].s, payload, len, out, LONGEST, result);
    return write_on(&r->ends[role], payload, len, out, LONGEST, result);
}

static uint32_t read_next(run *r, unsigned role, uint8_t *message, size_t len, noise_result *result) {
    if (r->is_open) return noise_open(&r->transports[role].r, message, len, result);
    return read_on(&r->ends[role], message, len, result);
}

static void put_unwritten(run *r, unsigned role, uint32_t code) {
    const char *word = code == NOISE_NOT_YOUR_TURN ? "not-your-turn"
        : code == NOISE_TOO_LONG ? "too-long"
        : code == NOISE_ONE_WAY ? "one-way"
        : "";
    MUST(*word);
    fprintf(r->wanted, "unwritten %s %s\n", role_names[role], word);
}

// This role says a payload of this length to the other one.
static void say(run *r, unsigned role, size_t len, unsigned number) {
    static uint8_t payload[NOISE_MAX_MESSAGE], message[LONGEST];
    noise_result result;
    fill(payload, len, number);
    fprintf(r->vector, "say %s ", role_names[role]);
    put_hex(r->vector, payload, len);
    fprintf(r->vector, " -\n");
    uint32_t code = write_next(r, role, payload, len, message, &result);
    if (code != NOISE_OK) {
        put_unwritten(r, role, code);
        return;
    }
    fprintf(r->wanted, "wrote %s %u %02zx%02zx", role_names[role], r->frames[role]++,
        result.len >> 8, result.len & 255);
    put_hex(r->wanted, message, result.len);
    fputc('\n', r->wanted);
    MUST(read_next(r, !role, message, result.len, &result) == NOISE_OK);
    MUST(result.len == len && !memcmp(message + result.from, payload, len));
    fprintf(r->wanted, "payload %s ", role_names[!role]);
    put_hex(r->wanted, message + result.from, result.len);
    fputc('\n', r->wanted);
}

static void open_both(run *r) {
    for (unsigned role = 0; role < 2; role++)
        MUST(finish(&r->ends[role].h, r->p->interval, &r->transports[role]) == NOISE_OK);
    r->is_open = true;
}

static void put_states(run *r) {
    for (unsigned role = 0; role < 2; role++) {
        uint64_t send, receive;
        uint8_t hash[32];
        MUST(noise_sender_nonce(&r->transports[role].s, &send) == NOISE_OK
            && noise_receiver_nonce(&r->transports[role].r, &receive) == NOISE_OK);
        MUST(noise_hash(&r->ends[role].h, hash) == NOISE_OK);
        fprintf(r->wanted, "state %s transport %" PRIu64 " %" PRIu64 " ", role_names[role], send, receive);
        put_hex(r->wanted, hash, 32);
        fputc('\n', r->wanted);
    }
}

// What each party knows of the other at the end is what the pattern has.
static void check_remote_static(run *r) {
    for (unsigned role = 0; role < 2; role++) {
        noise_key key;
        MUST(noise_remote_static(&r->ends[role].h, &key) == NOISE_OK && key.present == r->p->has_s[!role]);
        MUST(!key.present || !memcmp(key.bytes, public_key(!role, true), 32));
        MUST(r->ends[role].answers <= 4);
    }
}

static FILE *file_in(const char *folder, const char *name, const char *ending) {
    char path[4096];
    snprintf(path, sizeof path, "%s/%s%s", folder, name, ending);
    FILE *file = fopen(path, "w");
    MUST(file);
    return file;
}

// The longest payload that the next message of this role may have, and at most 65535.
static size_t longest(run *r, unsigned role) {
    size_t len, most = NOISE_MAX_MESSAGE - NOISE_TAG_LEN;
    if (r->is_open) return most;
    MUST(noise_message_len(&r->ends[role].h, 0, &len) == NOISE_OK);
    return NOISE_MAX_MESSAGE - len;
}

static void try_plan(const char *folder, const char *name, const plan *p, bool is_long) {
    run r = {.p = p, .vector = file_in(folder, name, ".vector"), .wanted = file_in(folder, name, ".wanted")};
    for (unsigned role = 0; role < 2; role++) r.ends[role] = begin(p, role);
    put_head(&r);
    unsigned number = 0;
    for (unsigned m = 0; m < p->messages; m++, number++) {
        unsigned role = m % 2;
        say(&r, !role, 3, number);                       // out of turn
        if (is_long) say(&r, role, longest(&r, role) + 1, number);
        say(&r, role, is_long ? longest(&r, role) : length_of(m + (unsigned)strlen(name)), number);
    }
    open_both(&r);
    for (unsigned i = 0; i < 16; i++, number++) {
        unsigned role = i % 5 % 2;
        size_t len = is_long && i < 2 ? longest(&r, role) : length_of(i);
        if (is_long && i < 2) say(&r, role, len + 1, number);
        say(&r, role, len, number);                      // in a one-way pattern each of the responder's is refused
    }
    put_states(&r);
    check_remote_static(&r);
    fclose(r.vector);
    MUST(fclose(r.wanted) == 0);
}

static void try_fundamental(const char *folder, const char *base) {
    char name[20];
    plan plain = plan_of(base, -1);
    try_plan(folder, base, &plain, false);
    for (int place = 0; place <= (int)plain.messages; place += (int)plain.messages) {
        plan p = plan_of(base, place);
        snprintf(name, sizeof name, "%spsk%d", base, place);
        try_plan(folder, name, &p, false);
    }
}

void check_vectors(const char *folder) {
    for (unsigned i = 0; i < PATTERNS; i++) try_fundamental(folder, patterns[i]);
    plan longest_xx = plan_of("XX", -1), no_prologue = plan_of("IK", 2), long_prologue = plan_of("NK", -1),
         never = plan_of("XX", 3);
    try_plan(folder, "long", &longest_xx, true);
    no_prologue.prologue_len = 0;
    try_plan(folder, "no_prologue", &no_prologue, false);
    long_prologue.prologue_len = NOISE_MAX_PROLOGUE;
    try_plan(folder, "long_prologue", &long_prologue, false);
    never.interval = 0;
    try_plan(folder, "never", &never, false);
    // Patterns by their texts: of one's own, with and without secrets, and fundamental ones.
    plan nk1 = plan_of_text("NK1:\n  <- s\n  ...\n  -> e\n  <- e, ee, es\n", "NK", 0, true);
    try_plan(folder, "nk1", &nk1, false);
    plan xx1 = plan_of_text("XX1psk0+psk3:\n  -> psk, e\n  <- e, ee, s\n  -> es, s, se, psk\n", "XX", 2, true);
    try_plan(folder, "xx1psk0psk3", &xx1, false);
    plan ik = plan_of_text("IKpsk2:\n  <- s\n  ...\n  -> e, es, s, ss\n  <- e, ee, se, psk\n", "IK", 1, false);
    try_plan(folder, "ik_by_text", &ik, false);
}

static const struct { uint32_t code; const char *word; } faults[] = {
    {NOISE_HEADING, "heading"}, {NOISE_ARROW, "arrow"}, {NOISE_TOKEN, "token"}, {NOISE_PRE_MESSAGE, "pre-message"},
    {NOISE_TURN, "turn"}, {NOISE_PSK_PLACE, "psk-place"}, {NOISE_NAME_TAKEN, "name-taken"}, {NOISE_LIMIT, "limit"},
    {NOISE_ENDING, "ending"},
};

static const char *word_of(uint32_t code) {
    for (size_t i = 0; i < sizeof faults / sizeof *faults; i++)
        if (faults[i].code == code) return faults[i].word;
    fail(__FILE__, __LINE__, "a code of a pattern text");
}

// A text, and beside it what `noise check` prints of it: of a valid one its first line.
static uint32_t try_text(const char *folder, unsigned number, const char *text, size_t len) {
    char name[20];
    noise_pattern_result result;
    snprintf(name, sizeof name, "text%u", number);
    FILE *file = file_in(folder, name, ".pattern"), *wanted = file_in(folder, name, ".first");
    MUST(fwrite(text, 1, len, file) == len && fclose(file) == 0);
    uint32_t code = noise_check_pattern((const uint8_t *)text, len, &result);
    if (code == NOISE_OK)
        fprintf(wanted, "valid %.*s\n", (int)strcspn(text, ":"), text);
    else if (code == NOISE_RULE)
        fprintf(wanted, "rule %u message %u token %u\n", result.rule, result.message, result.token);
    else
        fprintf(wanted, "line %zu %s\n", result.line, word_of(code));
    MUST(fclose(wanted) == 0);
    // noise_start takes just the valid ones; a text without a line feed at its end is a name to it.
    noise_handshake h;
    plan like = plan_of("XX", -1);
    noise_setup setup = setup_of(&like, 0);
    uint32_t begun = noise_start(&h, (const uint8_t *)text, len, prologue(), 0, &setup);
    if (len && text[len - 1] != '\n')
        MUST(begun == NOISE_NAME);
    else if (code == NOISE_OK)
        MUST(begun != NOISE_NAME && begun != NOISE_PATTERN);
    else
        MUST(begun == (len ? NOISE_PATTERN : NOISE_NAME));
    return code;
}

static const char *const texts[] = {
    "A:\n  -> e\n  <- e, ee\n", "nk1:\n  -> e\n", "A\n  -> e\n", "A:\n -> e\n", "A:\n  -> e, xx\n",
    "A:\n  -> e\n  ...\n", "A:\n  -> s\n  -> e\n", "A:\n  <- e\n", "A:\n  -> e\n  -> e\n", "Apsk0:\n  -> e\n",
    "A:\n  -> psk, e\n", "Apsk2:\n  -> e, psk\n", "NN:\n  -> e\n  <- e\n",
    "XX:\n  -> e\n  <- e, ee, s, es\n  -> s, se\n", "A:\n", "A:\n  -> e",
    "A:\n  -> e\n  <- e\n  -> ee\n  <- es\n  -> s\n  <- s\n  -> se\n  <- ss\n  -> e\n", "A:\n  -> e, ee\n",
    "A:\n  -> e, e\n", "A:\n  -> e\n  <- e, ee, ee\n", "A:\n  <- s\n  ...\n  -> e, es\n  <- e, se\n",
    "MYKN:\n  -> s\n  ...\n  -> e\n  <- e, se\n", "Apsk0:\n  -> psk\n  <- e\n",
    "Apsk0+psk1:\n  -> psk, e, psk\n  <- e, ee\n", "Apsk1+psk0:\n  -> psk, e, psk\n", "A:\n  ...\n  -> e\n",
    "A:\n  -> ee\n  ...\n  -> e\n", "A:\n  <- s\n  -> s\n  ...\n  -> e\n", "A:\r\n  -> e\r\n", "A:\n  -> e,ee\n",
    "A:\n  -> e \n", "A:\n\n", "ABCDEFGHI:\n  -> e\n", "A:\n  -> \n", "",
};

void check_texts(const char *folder) {
    uint64_t seen = 0;
    unsigned count = sizeof texts / sizeof *texts;
    for (unsigned i = 0; i < count; i++) seen |= CODE(try_text(folder, i, texts[i], strlen(texts[i])));
    MUST(seen == (CODE(NOISE_OK) | (CODE(NOISE_RULE + 1) - CODE(NOISE_HEADING))));
    noise_pattern_result result;
    const char *five = "A:\n  -> e\n  <- e, ee\n  -> s\n  <- s\n  -> es, se\n";
    MUST(noise_check_pattern((const uint8_t *)five, strlen(five), &result) == NOISE_OK && result.messages == 5);
}

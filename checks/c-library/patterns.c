// What noise_pattern and noise_layout say of patterns, by tables that were made by hand from the standard (7.4, 7.5,
// 9.4), and what the messages of the handshakes themselves have.
#include "ends.h"

enum {
    E = NOISE_TOKEN_E,
    S = NOISE_TOKEN_S,
    EE = NOISE_TOKEN_EE,
    ES = NOISE_TOKEN_ES,
    SE = NOISE_TOKEN_SE,
    SS = NOISE_TOKEN_SS,
    PSK = NOISE_TOKEN_PSK
};
enum { PAYLOAD = NOISE_TOKEN_PAYLOAD };

typedef struct {
    const char *pattern;         // a base, a base with modifiers, or a text
    noise_pattern_info has;
} row;

// The keys: e, s, remote e, remote s, of the initiator and of the responder. Then the pre-messages, and the messages.
static const row rows[] = {
    {"N", {1, 1, 0, {{1, 0, 0, 1}, {0, 1, 0, 0}}, {{0}, {S}}, {{E, ES}}}},
    {"K", {1, 1, 0, {{1, 1, 0, 1}, {0, 1, 0, 1}}, {{S}, {S}}, {{E, ES, SS}}}},
    {"X", {1, 1, 0, {{1, 1, 0, 1}, {0, 1, 0, 0}}, {{0}, {S}}, {{E, ES, S, SS}}}},
    {"NN", {2, 0, 0, {{1, 0, 0, 0}, {1, 0, 0, 0}}, {{0}, {0}}, {{E}, {E, EE}}}},
    {"NK", {2, 0, 0, {{1, 0, 0, 1}, {1, 1, 0, 0}}, {{0}, {S}}, {{E, ES}, {E, EE}}}},
    {"NX", {2, 0, 0, {{1, 0, 0, 0}, {1, 1, 0, 0}}, {{0}, {0}}, {{E}, {E, EE, S, ES}}}},
    {"KN", {2, 0, 0, {{1, 1, 0, 0}, {1, 0, 0, 1}}, {{S}, {0}}, {{E}, {E, EE, SE}}}},
    {"KK", {2, 0, 0, {{1, 1, 0, 1}, {1, 1, 0, 1}}, {{S}, {S}}, {{E, ES, SS}, {E, EE, SE}}}},
    {"KX", {2, 0, 0, {{1, 1, 0, 0}, {1, 1, 0, 1}}, {{S}, {0}}, {{E}, {E, EE, SE, S, ES}}}},
    {"XN", {3, 0, 0, {{1, 1, 0, 0}, {1, 0, 0, 0}}, {{0}, {0}}, {{E}, {E, EE}, {S, SE}}}},
    {"XK", {3, 0, 0, {{1, 1, 0, 1}, {1, 1, 0, 0}}, {{0}, {S}}, {{E, ES}, {E, EE}, {S, SE}}}},
    {"XX", {3, 0, 0, {{1, 1, 0, 0}, {1, 1, 0, 0}}, {{0}, {0}}, {{E}, {E, EE, S, ES}, {S, SE}}}},
    {"IN", {2, 0, 0, {{1, 1, 0, 0}, {1, 0, 0, 0}}, {{0}, {0}}, {{E, S}, {E, EE, SE}}}},
    {"IK", {2, 0, 0, {{1, 1, 0, 1}, {1, 1, 0, 0}}, {{0}, {S}}, {{E, ES, S, SS}, {E, EE, SE}}}},
    {"IX", {2, 0, 0, {{1, 1, 0, 0}, {1, 1, 0, 0}}, {{0}, {0}}, {{E, S}, {E, EE, SE, S, ES}}}},
    {"XXpsk3", {3, 0, 1, {{1, 1, 0, 0}, {1, 1, 0, 0}}, {{0}, {0}}, {{E}, {E, EE, S, ES}, {S, SE, PSK}}}},
    {"NNpsk0", {2, 0, 1, {{1, 0, 0, 0}, {1, 0, 0, 0}}, {{0}, {0}}, {{PSK, E}, {E, EE}}}},
    {"Kpsk0+psk1", {1, 1, 2, {{1, 1, 0, 1}, {0, 1, 0, 1}}, {{S}, {S}}, {{PSK, E, ES, SS, PSK}}}},
    {"NK1:\n  <- s\n  ...\n  -> e\n  <- e, ee, es\n",
        {2, 0, 0, {{1, 0, 0, 1}, {1, 1, 0, 0}}, {{0}, {S}}, {{E}, {E, EE, ES}}}},
    {"B:\n  <- e, s\n  ...\n  -> e, ee, es, s, ss\n",
        {1, 1, 0, {{1, 1, 1, 1}, {1, 1, 0, 0}}, {{0}, {E, S}}, {{E, EE, ES, S, SS}}}},
    {"C:\n  -> e, s\n  <- e\n  ...\n  -> ee\n  <- s, es, se\n",
        {2, 0, 0, {{1, 1, 1, 0}, {1, 1, 1, 1}}, {{E, S}, {E}}, {{EE}, {S, ES, SE}}}},
    {"D:\n  -> e\n  <- e\n  -> s\n  <- s\n  -> ee\n  <- es\n  -> se\n  <- ss\n",
        {8, 0, 0, {{1, 1, 0, 0}, {1, 1, 0, 0}}, {{0}, {0}}, {{E}, {E}, {S}, {S}, {EE}, {ES}, {SE}, {SS}}}},
    {"Fpsk0+psk1:\n  <- e, s\n  ...\n  -> psk, e, s, ee, es, se, ss, psk\n",
        {1, 1, 2, {{1, 1, 1, 1}, {1, 1, 0, 0}}, {{0}, {E, S}}, {{PSK, E, S, EE, ES, SE, SS, PSK}}}},
};

typedef struct {
    const char *pattern;
    uint8_t message;
    noise_message_layout has;     // with a payload of 10 bytes
} laid;

static const laid layouts[] = {
    {"NN", 1, {2, 42, {{E, 0, 0, 32}, {PAYLOAD, 0, 32, 10}}}},
    {"NN", 2, {3, 58, {{E, 0, 0, 32}, {EE, 0, 32, 0}, {PAYLOAD, 1, 32, 26}}}},
    {"XX", 1, {2, 42, {{E, 0, 0, 32}, {PAYLOAD, 0, 32, 10}}}},
    {"XX", 2, {5, 106, {{E, 0, 0, 32}, {EE, 0, 32, 0}, {S, 1, 32, 48}, {ES, 0, 80, 0}, {PAYLOAD, 1, 80, 26}}}},
    {"XX", 3, {3, 74, {{S, 1, 0, 48}, {SE, 0, 48, 0}, {PAYLOAD, 1, 48, 26}}}},
    {"IK", 1, {5, 106, {{E, 0, 0, 32}, {ES, 0, 32, 0}, {S, 1, 32, 48}, {SS, 0, 80, 0}, {PAYLOAD, 1, 80, 26}}}},
    {"IK", 2, {4, 58, {{E, 0, 0, 32}, {EE, 0, 32, 0}, {SE, 0, 32, 0}, {PAYLOAD, 1, 32, 26}}}},
    {"IX", 1, {3, 74, {{E, 0, 0, 32}, {S, 0, 32, 32}, {PAYLOAD, 0, 64, 10}}}},
    {"K", 1, {4, 58, {{E, 0, 0, 32}, {ES, 0, 32, 0}, {SS, 0, 32, 0}, {PAYLOAD, 1, 32, 26}}}},
    {"XXpsk3", 1, {2, 58, {{E, 0, 0, 32}, {PAYLOAD, 1, 32, 26}}}},
    {"XXpsk3", 3, {4, 74, {{S, 1, 0, 48}, {SE, 0, 48, 0}, {PSK, 0, 48, 0}, {PAYLOAD, 1, 48, 26}}}},
    {"NNpsk0", 1, {3, 58, {{PSK, 0, 0, 0}, {E, 0, 0, 32}, {PAYLOAD, 1, 32, 26}}}},
    {"NK1:\n  <- s\n  ...\n  -> e\n  <- e, ee, es\n", 1, {2, 42, {{E, 0, 0, 32}, {PAYLOAD, 0, 32, 10}}}},
    {"NK1:\n  <- s\n  ...\n  -> e\n  <- e, ee, es\n", 2,
        {4, 58, {{E, 0, 0, 32}, {EE, 0, 32, 0}, {ES, 0, 32, 0}, {PAYLOAD, 1, 32, 26}}}},
    {"Fpsk0+psk1:\n  <- e, s\n  ...\n  -> psk, e, s, ee, es, se, ss, psk\n", 1,
        {9, 106,
            {{PSK, 0, 0, 0}, {E, 0, 0, 32}, {S, 1, 32, 48}, {EE, 0, 80, 0}, {ES, 0, 80, 0}, {SE, 0, 80, 0},
                {SS, 0, 80, 0}, {PSK, 0, 80, 0}, {PAYLOAD, 1, 80, 26}}}},
    {"INpsk1", 1, {4, 106, {{E, 0, 0, 32}, {S, 1, 32, 48}, {PSK, 0, 80, 0}, {PAYLOAD, 1, 80, 26}}}},
};

// A text as it is, and the protocol name of anything else.
static size_t bytes_of(const char *pattern, char bytes[500]) {
    bool is_text = strchr(pattern, '\n');
    snprintf(bytes, 500, is_text ? "%s" : "Noise_%s_25519_ChaChaPoly_SHA256", pattern);
    return strlen(bytes);
}

static uint32_t ask(const char *pattern, noise_pattern_info *info, noise_pattern_result *result) {
    char bytes[500];
    size_t len = bytes_of(pattern, bytes);
    return noise_pattern((const uint8_t *)bytes, len, info, result);
}

static uint32_t lay(const char *pattern, unsigned message, size_t payload, noise_message_layout *layout) {
    char bytes[500];
    size_t len = bytes_of(pattern, bytes);
    return noise_layout((const uint8_t *)bytes, len, (uint8_t)message, payload, layout);
}

static bool is_piece(const noise_piece *a, const noise_piece *b) {
    return a->token == b->token && a->encrypted == b->encrypted && a->from == b->from && a->len == b->len;
}

static void check_rows(void) {
    for (size_t i = 0; i < sizeof rows / sizeof *rows; i++) {
        noise_pattern_info info;
        noise_pattern_result result;
        memset(&info, 0x5a, sizeof info);
        memset(&result, 0x5a, sizeof result);
        MUST(ask(rows[i].pattern, &info, &result) == NOISE_OK);
        MUST(!memcmp(&info, &rows[i].has, sizeof info) && result.messages == info.messages && result.rule == 0x5a
            && result.message == 0x5a);
    }
}

static void check_layouts(void) {
    for (size_t i = 0; i < sizeof layouts / sizeof *layouts; i++) {
        noise_message_layout layout;
        memset(&layout, 0x5a, sizeof layout);
        MUST(lay(layouts[i].pattern, layouts[i].message, 10, &layout) == NOISE_OK);
        MUST(layout.count == layouts[i].has.count && layout.len == layouts[i].has.len);
        for (unsigned k = 0; k < 11; k++) MUST(is_piece(&layout.pieces[k], &layouts[i].has.pieces[k]));
    }
}

// What is no message, or one that is too long: message 2 of XX has 96 bytes more than its payload.
static void check_limits(void) {
    noise_message_layout layout, old;
    memset(&layout, 0x5a, sizeof layout);
    old = layout;
    for (unsigned message = 0; message < 256; message++)
        if (message < 1 || message > 3) MUST(lay("XX", message, 0, &layout) == NOISE_NOT_DUE);
    MUST(lay("XX", 2, 65440, &layout) == NOISE_NOT_DUE && lay("XX", 2, 65536, &layout) == NOISE_NOT_DUE
        && lay("XX", 2, SIZE_MAX, &layout) == NOISE_NOT_DUE);
    MUST(lay("XX", 2, SIZE_MAX - 95, &layout) == NOISE_NOT_DUE
        && lay("XX", 2, (size_t)UINT32_MAX + 1, &layout) == NOISE_NOT_DUE);
    MUST(lay("XY", 1, 0, &layout) == NOISE_NAME && lay("A:\n", 1, 0, &layout) == NOISE_PATTERN
        && lay("A:\n  -> ee\n", 1, 0, &layout) == NOISE_PATTERN);
    MUST(lay("XY", 0, SIZE_MAX, &layout) == NOISE_NAME && !memcmp(&layout, &old, sizeof old));
    MUST(lay("XX", 2, 65439, &layout) == NOISE_OK && layout.len == 65535 && layout.pieces[4].from == 80
        && layout.pieces[4].len == 65455);
}

// A fault is that of noise_check_pattern, and nothing else changes.
static void must_refuse(const char *pattern, uint32_t code) {
    noise_pattern_info info, old;
    noise_pattern_result result, other;
    memset(&info, 0x5a, sizeof info);
    memset(&result, 0x5a, sizeof result);
    old = info, other = result;
    MUST(ask(pattern, &info, &result) == code && !memcmp(&info, &old, sizeof old));
    if (code != NOISE_NAME) MUST(noise_check_pattern((const uint8_t *)pattern, strlen(pattern), &other) == code);
    MUST(!memcmp(&result, &other, sizeof result));
}

static void check_faults(void) {
    static const char *const names[] = {"", "XY", "XX_", "XXpsk4", "XXpsk1+psk0", "XXpsk9", "XXfallback", "NK1"};
    for (size_t i = 0; i < sizeof names / sizeof *names; i++) must_refuse(names[i], NOISE_NAME);
    must_refuse("nk1:\n", NOISE_HEADING);
    must_refuse("A:\n -> e\n", NOISE_ARROW);
    must_refuse("A:\n  -> e, xx\n", NOISE_TOKEN);
    must_refuse("A:\n  ...\n  -> e\n", NOISE_PRE_MESSAGE);
    must_refuse("A:\n  -> e\n  -> e\n", NOISE_TURN);
    must_refuse("Apsk0:\n  -> e\n", NOISE_PSK_PLACE);
    must_refuse("NN:\n  -> e\n  <- e\n", NOISE_NAME_TAKEN);
    must_refuse("Apsk1:\n  -> psk\n", NOISE_LIMIT);
    must_refuse("A:\n", NOISE_ENDING);
    must_refuse("A:\n  -> s\n  <- e, se, ee\n", NOISE_RULE);
    noise_pattern_info info;
    noise_pattern_result result = {0};
    MUST(ask("A:\n  -> s\n  <- e, se, ee\n", &info, &result) == NOISE_RULE && result.rule == 1 && result.message == 2
        && result.token == 2);
    MUST(ask("A:\n  -> e, xx\n", &info, &result) == NOISE_TOKEN && result.line == 2);
    // Without a line feed at its end a text is a name.
    MUST(noise_pattern((const uint8_t *)"A:\n  -> e", 9, &info, &result) == NOISE_NAME);
    MUST(noise_pattern((const uint8_t *)rows[18].pattern, strlen(rows[18].pattern) - 1, &info, &result) == NOISE_NAME);
}

// A setup with the keys that are needed and no others begins; each key less and each remote key more is refused.
static void check_needed(const plan *p, const noise_pattern_info *info) {
    for (unsigned role = 0; role < 2; role++) {
        const noise_keys_needed *needed = &info->needed[role];
        noise_setup right = setup_of(p, role), wrong;
        noise_handshake h;
        right.e.present = needed->e, right.s.present = needed->s;
        right.remote_e.present = needed->remote_e, right.remote_s.present = needed->remote_s;
        MUST(start_with(&h, p, &right) == NOISE_OK);
        wrong = right, wrong.e.present = 0;
        MUST(start_with(&h, p, &wrong) == (needed->e ? NOISE_EPHEMERAL_MISSING : NOISE_OK));
        wrong = right, wrong.s.present = 0;
        MUST(start_with(&h, p, &wrong) == (needed->s ? NOISE_STATIC_MISSING : NOISE_OK));
        wrong = right, wrong.remote_e.present = !needed->remote_e;
        MUST(start_with(&h, p, &wrong) == (needed->remote_e ? NOISE_REMOTE_MISSING : NOISE_REMOTE_UNEXPECTED));
        wrong = right, wrong.remote_s.present = !needed->remote_s;
        MUST(start_with(&h, p, &wrong) == (needed->remote_s ? NOISE_REMOTE_MISSING : NOISE_REMOTE_UNEXPECTED));
    }
}

// The pieces follow one another; a key or a payload that isn't encrypted is there as it is, and one that is isn't.
static void check_message(const uint8_t *message, size_t len, unsigned writer, const noise_message_layout *layout,
                          const uint8_t *payload) {
    uint32_t at = 0;
    MUST(layout->len == len);
    for (unsigned i = 0; i < layout->count; i++) {
        const noise_piece *piece = &layout->pieces[i];
        MUST(piece->from == at && (piece->token == PAYLOAD) == (i + 1 == layout->count));
        at += piece->len;
        if (piece->token != E && piece->token != S && piece->token != PAYLOAD) MUST(!piece->len && !piece->encrypted);
        if (!piece->len) continue;
        const uint8_t *plain = piece->token == PAYLOAD ? payload : public_key(writer, piece->token == S);
        MUST(!memcmp(message + piece->from, plain, piece->len - 16 * piece->encrypted) == !piece->encrypted);
    }
    MUST(at == len);
}

static void check_messages(const plan *p) {
    static uint8_t message[NOISE_MAX_MESSAGE], handed[NOISE_MAX_MESSAGE], payload[40];
    noise_pattern_info info;
    noise_pattern_result answered;
    const uint8_t *name = (const uint8_t *)p->name;
    size_t name_len = strlen(p->name);
    MUST(noise_pattern(name, name_len, &info, &answered) == NOISE_OK && info.messages == p->messages
        && info.psks == p->psks);
    MUST(info.one_way == p->one_way);
    check_needed(p, &info);
    end ends[2] = {begin(p, 0), begin(p, 1)};
    fill(payload, sizeof payload, 7);
    for (unsigned m = 0; m < p->messages; m++) {
        noise_result result;
        noise_message_layout layout;
        MUST(noise_layout(name, name_len, (uint8_t)(m + 1), sizeof payload, &layout) == NOISE_OK);
        MUST(write_on(&ends[m % 2], payload, sizeof payload, message, sizeof message, &result) == NOISE_OK);
        check_message(message, result.len, m % 2, &layout, payload);
        memcpy(handed, message, result.len);
        MUST(read_on(&ends[1 - m % 2], handed, result.len, &result) == NOISE_OK);
        MUST(result.from == layout.pieces[layout.count - 1].from);
    }
}

// Psks at every set of places: no fundamental pattern breaks a rule by them, since each party's first
// message begins with its e.
static void check_psk_sets(const char *base, unsigned messages) {
    for (unsigned set = 1; set < 2u << messages; set++) {
        char name[120] = "";
        unsigned psks = 0;
        snprintf(name, sizeof name, "%s", base);
        for (unsigned place = 0; place <= messages; place++)
            if (set >> place & 1) snprintf(name + strlen(name), 10, "%spsk%u", psks++ ? "+" : "", place);
        noise_pattern_info info;
        noise_pattern_result result;
        MUST(ask(name, &info, &result) == NOISE_OK && info.psks == psks && info.messages == messages);
        for (unsigned m = 0; m < messages; m++) {
            const uint8_t *row = info.tokens[m];
            size_t count = strlen((const char *)row);
            MUST((count && row[count - 1] == PSK) == (set >> (m + 1) & 1) && (m || (row[0] == PSK) == (set & 1)));
        }
    }
}

void check_patterns(void) {
    check_rows();
    check_layouts();
    check_limits();
    check_faults();
    for (unsigned i = 0; i < PATTERNS; i++) {
        int messages = (int)plan_of(patterns[i], -1).messages;
        check_psk_sets(patterns[i], (unsigned)messages);
        for (int psk = -1; psk <= messages; psk++) {
            plan p = plan_of(patterns[i], psk);
            check_messages(&p);
        }
    }
}

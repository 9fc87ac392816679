// Opaque structs that no call has left: each byte of some changed to other values, some bytes of a random choice, and
// structs of random bytes, each handed to each call. A call has to answer one of its codes; and all that it is handed
// ends right in front of memory that may not be touched, so that a read or a write beyond it stops the check.
#include "ends.h"

enum { MOST = 300, SNAPSHOTS = 40, RANDOM_ROUNDS = 1000 };

// What a party had when a call was due, with all X25519 results supplied.
typedef struct {
    noise_handshake h;
    uint8_t message[MOST];
    size_t len;
} snapshot;

static noise_handshake *h;
static noise_sender *ts;
static noise_receiver *tr;
static noise_datagram_sender *ds;
static noise_datagram_receiver *dr;
static noise_cipher *cs, *cr;
static noise_stream_sender *xs;
static noise_stream_receiver *xr;
static noise_stream_result *place;
static noise_result *result;
static noise_stage_result *stage;
static noise_key *key;
static uint8_t *hash, *nothing;
static uint64_t *nonce;
static size_t *len;
static unsigned long calls, usable;

static const uint64_t handshake_faults = CODE(NOISE_STRUCT) | CODE(NOISE_ENDED) | CODE(NOISE_DONE)
    | CODE(NOISE_NOT_YOUR_TURN) | CODE(NOISE_WANTED) | CODE(NOISE_WANTED_PSK);

static void make_places(void) {
    h = (noise_handshake *)place_at_edge(sizeof *h);
    ts = (noise_sender *)place_at_edge(sizeof *ts);
    tr = (noise_receiver *)place_at_edge(sizeof *tr);
    ds = (noise_datagram_sender *)place_at_edge(sizeof *ds);
    dr = (noise_datagram_receiver *)place_at_edge(sizeof *dr);
    cs = (noise_cipher *)place_at_edge(sizeof *cs);
    cr = (noise_cipher *)place_at_edge(sizeof *cr);
    xs = (noise_stream_sender *)place_at_edge(sizeof *xs);
    xr = (noise_stream_receiver *)place_at_edge(sizeof *xr);
    place = (noise_stream_result *)place_at_edge(sizeof *place);
    result = (noise_result *)place_at_edge(sizeof *result);
    stage = (noise_stage_result *)place_at_edge(sizeof *stage);
    key = (noise_key *)place_at_edge(sizeof *key);
    nonce = (uint64_t *)place_at_edge(sizeof *nonce);
    len = (size_t *)place_at_edge(sizeof *len);
    hash = place_at_edge(32);
    nothing = place_at_edge(0);
}

// A place for exactly so many bytes, at its edge, filled with these or, where there are none, with 0x77.
static uint8_t *bytes_of(unsigned which, const uint8_t *bytes, size_t size) {
    static uint8_t *ends[3];
    if (!ends[which]) ends[which] = place_at_edge(MOST) + MOST;
    uint8_t *at = ends[which] - size;
    if (bytes)
        memcpy(at, bytes, size);
    else
        memset(at, 0x77, size);
    return at;
}

static void must_be(uint32_t code, uint64_t codes) {
    calls++;
    usable += code == NOISE_OK;
    MUST(is_in(code, codes | CODE(NOISE_OK)));
}

static const uint64_t seal_faults = CODE(NOISE_STRUCT) | CODE(NOISE_ONE_WAY) | CODE(NOISE_EXHAUSTED);
static const uint64_t open_faults = CODE(NOISE_STRUCT) | CODE(NOISE_ONE_WAY) | CODE(NOISE_EXHAUSTED) | CODE(NOISE_TAG);
static const uint64_t datagram_faults = CODE(NOISE_STRUCT) | CODE(NOISE_ONE_WAY) | CODE(NOISE_RESERVED)
    | CODE(NOISE_OLD) | CODE(NOISE_REPEATED) | CODE(NOISE_TAG);

// Seals and opens with halves of any content.
static void use_halves(const noise_sender *sender, const noise_receiver *receiver, const uint8_t *message) {
    *ts = *sender;
    *tr = *receiver;
    uint32_t code = noise_seal(ts, bytes_of(1, 0, 24), 24, bytes_of(0, 0, 40), 40, result);
    must_be(code, seal_faults);
    if (code == NOISE_OK) MUST(result->len == 40);
    code = noise_seal_in_place(ts, bytes_of(0, 0, 40), 40, 24, result);
    must_be(code, seal_faults);
    if (code == NOISE_OK) MUST(result->len == 40);
    code = noise_open(tr, bytes_of(2, message, 40), 40, result);
    must_be(code, open_faults);
    if (code == NOISE_OK) MUST(result->len == 24 && result->from == 0);
    must_be(noise_sender_nonce(ts, nonce), CODE(NOISE_STRUCT));
    must_be(noise_receiver_nonce(tr, nonce), CODE(NOISE_STRUCT));
}

static void use_datagram_halves(const noise_datagram_sender *sender, const noise_datagram_receiver *receiver,
                                const uint8_t *datagram) {
    *ds = *sender;
    *dr = *receiver;
    uint32_t code = noise_datagram_seal(ds, bytes_of(1, 0, 24), 24, bytes_of(0, 0, 48), 48, result);
    must_be(code, seal_faults);
    if (code == NOISE_OK) MUST(result->len == 48);
    code = noise_datagram_seal_in_place(ds, bytes_of(0, 0, 48), 48, 24, result);
    must_be(code, seal_faults);
    if (code == NOISE_OK) MUST(result->len == 48);
    code = noise_datagram_open(dr, bytes_of(2, datagram, 48), 48, result);
    must_be(code, datagram_faults);
    if (code == NOISE_OK) MUST(result->len == 24 && result->from == 8);
    must_be(noise_datagram_sender_nonce(ds, nonce), CODE(NOISE_STRUCT));
}

static void use_ciphers(const noise_cipher *send, const noise_cipher *receive, const uint8_t *message) {
    *cs = *send;
    *cr = *receive;
    const uint64_t held = CODE(NOISE_STRUCT) | CODE(NOISE_ONE_WAY);
    uint32_t code = noise_cipher_encrypt(cs, bytes_of(1, 0, 24), 24, bytes_of(0, 0, 40), 40, 24, result);
    must_be(code, seal_faults);
    if (code == NOISE_OK) MUST(result->len == 40);
    code = noise_cipher_decrypt(cr, bytes_of(1, 0, 0), 0, bytes_of(2, message, 40), 40, result);
    must_be(code, open_faults);
    if (code == NOISE_OK) MUST(result->len == 24 && result->from == 0);
    must_be(noise_cipher_nonce(cs, nonce), held);
    must_be(noise_cipher_rekey(cs), held);
    must_be(noise_cipher_set_nonce(cr, 5), held);
}

static void use_stream(const noise_stream_sender *sender, const noise_stream_receiver *receiver,
                       const uint8_t *message) {
    uint8_t frame[42] = {0, 40};
    memcpy(frame + 2, message, 40);
    *xs = *sender;
    *xr = *receiver;
    uint32_t code = noise_stream_write(xs, bytes_of(1, 0, 24), 24, bytes_of(0, 0, 42), 42, place);
    must_be(code, seal_faults | CODE(NOISE_CLOSED));
    if (code == NOISE_OK) MUST(place->len == 42 && place->used == 24);
    code = noise_stream_end(xs, bytes_of(0, 0, 18), 18, place);
    must_be(code, seal_faults | CODE(NOISE_CLOSED));
    if (code == NOISE_OK) MUST(place->len == 18);
    must_be(noise_stream_is_cut(xr, 0), CODE(NOISE_STRUCT) | CODE(NOISE_CUT));
    code = noise_stream_read(xr, bytes_of(2, frame, 41), 41, place);
    must_be(code, CODE(NOISE_STRUCT) | CODE(NOISE_MORE) | CODE(NOISE_CLOSED));
    code = noise_stream_read(xr, bytes_of(2, frame, 42), 42, place);
    must_be(code, open_faults | CODE(NOISE_CLOSED));
    if (code == NOISE_OK) MUST(place->from == 2 && place->len == 24 && place->used == 42);
}

static void read_with(const snapshot *s) {
    uint8_t *message = bytes_of(0, s->message, s->len);
    *h = s->h;
    uint32_t code = noise_read(h, message, s->len, result);
    must_be(code, handshake_faults | CODE(NOISE_SHORT) | CODE(NOISE_TAG));
    if (code == NOISE_OK)
        MUST(result->from <= s->len && result->len <= s->len - result->from);
    else
        MUST(!memcmp(message, s->message, s->len));
    if (is_in(code, CODE(NOISE_STRUCT) | CODE(NOISE_WANTED))) MUST(!memcmp(h, &s->h, sizeof *h));
}

static void write_with(const snapshot *s, size_t room) {
    uint8_t *out = bytes_of(0, 0, room), *text = bytes_of(1, 0, 30);
    *h = s->h;
    uint32_t code = noise_write(h, text, 30, out, room, result);
    must_be(code, handshake_faults | CODE(NOISE_TOO_LONG) | CODE(NOISE_ROOM));
    if (code == NOISE_OK)
        MUST(result->len <= room);
    else
        MUST(!memcmp(h, &s->h, sizeof *h));
}

// After OK no second pair can be made; after another code the struct is as it was.
static void must_be_used_up(noise_handshake *x, const noise_handshake *old, uint32_t code) {
    if (code == NOISE_OK)
        MUST(noise_finish(x, 0, ts, tr) == NOISE_ENDED);
    else
        MUST(!memcmp(x, old, sizeof *x));
}

static void use_handshake(const snapshot *s) {
    read_with(s);
    write_with(s, MOST);
    write_with(s, 40);
    *h = s->h;
    must_be(noise_message_len(h, 30, len), CODE(NOISE_STRUCT) | CODE(NOISE_NOT_DUE));
    must_be(noise_hash(h, hash), CODE(NOISE_STRUCT));
    must_be(noise_remote_static(h, key), CODE(NOISE_STRUCT));
    must_be(noise_stage(h, stage), CODE(NOISE_STRUCT));
    MUST(!memcmp(h, &s->h, sizeof *h));
    must_be(noise_answer(h, 1, public_key(0, false), public_key(0, true)), CODE(NOISE_STRUCT));
    uint64_t not_yet = CODE(NOISE_STRUCT) | CODE(NOISE_NOT_DONE) | CODE(NOISE_ENDED);
    *h = s->h;
    uint32_t code = noise_finish(h, 2, ts, tr);
    must_be(code, not_yet);
    must_be_used_up(h, &s->h, code);
    noise_sender sender = *ts;
    noise_receiver receiver = *tr;
    if (code == NOISE_OK) use_halves(&sender, &receiver, s->message);
    *h = s->h;
    code = noise_finish_datagrams(h, 256, ds, dr);
    must_be(code, not_yet);
    must_be_used_up(h, &s->h, code);
    noise_datagram_sender datagram_sender = *ds;
    noise_datagram_receiver datagram_receiver = *dr;
    if (code == NOISE_OK) use_datagram_halves(&datagram_sender, &datagram_receiver, s->message);
    *h = s->h;
    code = noise_finish_ciphers(h, cs, cr);
    must_be(code, not_yet);
    must_be_used_up(h, &s->h, code);
    noise_cipher send = *cs, receive = *cr;
    if (code == NOISE_OK) use_ciphers(&send, &receive, s->message);
    *h = s->h;
    code = noise_finish_stream(h, 2, xs, xr);
    must_be(code, not_yet);
    must_be_used_up(h, &s->h, code);
    noise_stream_sender writer = *xs;
    noise_stream_receiver reader = *xr;
    if (code == NOISE_OK) use_stream(&writer, &reader, s->message);
}

static const uint8_t values[] = {0, 1, 2, 9, 200, 255};

static uint32_t random_number(void) {
    static uint64_t state = 20261123;
    state = state * 6364136223846793005u + 1442695040888963407u;
    return (uint32_t)(state >> 33);
}

static void fill_randomly(uint8_t *at, size_t size) {
    for (size_t i = 0; i < size; i++) at[i] = (uint8_t)random_number();
}

static void try_bytes(const snapshot *s) {
    snapshot changed = *s;
    for (size_t i = 0; i < sizeof s->h; i++) {
        for (size_t v = 0; v < sizeof values; v++) {
            changed.h.opaque[i] = values[v];
            if (values[v] != s->h.opaque[i] && is_due()) use_handshake(&changed);
        }
        changed.h.opaque[i] = s->h.opaque[i];
    }
}

static void try_random(const snapshot *s) {
    for (unsigned round = 0; round < RANDOM_ROUNDS / every; round++) {
        snapshot changed = *s;
        for (unsigned n = 1 + random_number() % 12; n; n--)
            changed.h.opaque[random_number() % sizeof s->h] = (uint8_t)random_number();
        use_handshake(&changed);
    }
}

static void try_filled(const snapshot *s) {
    snapshot changed = *s;
    for (unsigned v = 0; v < 256; v++) {
        if (!is_due()) continue;
        memset(&changed.h, (int)v, sizeof changed.h);
        use_handshake(&changed);
        fill_randomly(changed.h.opaque, sizeof changed.h);
        use_handshake(&changed);
    }
}

// Writes, and keeps what the writer had before the call that succeeds.
static size_t write_and_keep(end *writer, uint8_t message[MOST], snapshot *at) {
    noise_result place;
    uint32_t code;
    do {
        at->h = writer->h;
        code = noise_write(&writer->h, public_key(0, true), 7, message, MOST, &place);
        if (code == NOISE_WANTED) hand_in(writer, &place);
    } while (code == NOISE_WANTED);
    MUST(code == NOISE_OK);
    at->len = 99;
    memset(at->message, 0x21, at->len);
    return place.len;
}

static void read_and_keep(end *reader, uint8_t message[MOST], size_t size, snapshot *at) {
    noise_result place;
    uint32_t code;
    memcpy(at->message, message, size);
    at->len = size;
    do {
        at->h = reader->h;
        code = noise_read(&reader->h, message, size, &place);
        if (code == NOISE_WANTED) hand_in(reader, &place);
    } while (code == NOISE_WANTED);
    MUST(code == NOISE_OK);
}

// The handshakes at each stage of a run: before each write and each read that succeeds, at the end, and
// ended by a refused message.
static unsigned run_of(const plan *p, snapshot *at) {
    end ends[2] = {begin(p, 0), begin(p, 1)};
    unsigned count = 0;
    uint8_t message[MOST];
    for (unsigned m = 0; m < p->messages; m++) {
        size_t size = write_and_keep(&ends[m % 2], message, &at[count++]);
        read_and_keep(&ends[1 - m % 2], message, size, &at[count++]);
    }
    for (unsigned role = 0; role < 2; role++) at[count++] = (snapshot){.h = ends[role].h, .len = 99};
    end refusing = begin(p, 1);
    noise_result place;
    MUST(noise_read(&refusing.h, message, 9, &place) == NOISE_SHORT);
    at[count++] = (snapshot){.h = refusing.h, .len = 99};
    return count;
}

// Structs with a changed byte, with some random ones, and of random bytes alone: all that one
// party has after a handshake.
typedef struct {
    transport t;
    datagrams d;
    noise_cipher send, receive;
    stream x;
} opened;

static void use_opened(const opened *of, const uint8_t *message, const uint8_t *datagram) {
    use_halves(&of->t.s, &of->t.r, message);
    use_datagram_halves(&of->d.s, &of->d.r, datagram);
    use_ciphers(&of->send, &of->receive, message);
    use_stream(&of->x.s, &of->x.r, message);
}

static void try_opened(const plan *p) {
    end ends[2] = {begin(p, 0), begin(p, 1)};
    opened right;
    transport other;
    datagrams others;
    uint8_t message[40], datagram[48];
    unsigned taker = p->one_way;                         // who can take messages, of the other
    pass_all(p, ends);
    MUST(finish(&ends[taker].h, 3, &right.t) == NOISE_OK && finish(&ends[!taker].h, 3, &other) == NOISE_OK);
    MUST(finish_datagrams(&ends[taker].h, 256, &right.d) == NOISE_OK
        && finish_datagrams(&ends[!taker].h, 256, &others) == NOISE_OK);
    MUST(finish_cipher_states(&ends[taker].h, &right.send, &right.receive) == NOISE_OK
        && finish_stream(&ends[taker].h, 3, &right.x) == NOISE_OK);
    MUST(noise_seal(&other.s, public_key(1, true), 24, message, 40, result) == NOISE_OK);
    for (unsigned i = 0; i < 5; i++)
        MUST(noise_datagram_seal(&others.s, public_key(1, true), 24, datagram, 48, result) == NOISE_OK);
    for (size_t i = 0; i < sizeof right; i++)
        for (size_t v = 0; v < sizeof values; v++) {
            if (!is_due()) continue;
            opened changed = right;
            ((uint8_t *)&changed)[i] = values[v];
            use_opened(&changed, message, datagram);
        }
    for (unsigned round = 0; round < RANDOM_ROUNDS / every; round++) {
        opened changed = right;
        for (unsigned n = random_number() % 20; n; n--)
            ((uint8_t *)&changed)[random_number() % sizeof changed] = (uint8_t)random_number();
        use_opened(&changed, message, datagram);
        fill_randomly((uint8_t *)&changed, sizeof changed);
        use_opened(&changed, message, datagram);
    }
}

// A name and a pattern text with each byte changed, cut at each length, and setups of random bytes.
static void try_patterns(const plan *p) {
    uint8_t bytes[MOST];
    noise_pattern_result *of_text = (noise_pattern_result *)place_at_edge(sizeof *of_text);
    noise_setup *setup = (noise_setup *)place_at_edge(sizeof *setup);
    const char *pattern = p->text[0] ? p->text : p->name;
    size_t size = strlen(pattern);
    const uint64_t faults = CODE(NOISE_NAME) | CODE(NOISE_PATTERN) | CODE(NOISE_EPHEMERAL_MISSING)
        | CODE(NOISE_STATIC_MISSING) | CODE(NOISE_REMOTE_MISSING) | CODE(NOISE_REMOTE_UNEXPECTED)
        | CODE(NOISE_PSK_COUNT);
    static const char others[] = "\n :>-.,ekps0189AZ_\x80\xff";
    for (size_t i = 0; i <= size; i++)
        for (size_t v = 0; v < sizeof others; v++) {     // the zero after them is tried too
            if (!is_due()) continue;
            *setup = setup_of(p, v & 1);
            memcpy(bytes, pattern, size);
            if (i < size) bytes[i] = (uint8_t)others[v];
            size_t some = v ? size : i;                  // once cut
            const uint8_t *at = bytes_of(0, bytes, some);
            must_be(noise_start(h, at, some, nothing, 0, setup), faults);
            must_be(noise_check_pattern(at, some, of_text), CODE(NOISE_RULE + 1) - CODE(NOISE_HEADING));
        }
    for (unsigned round = 0; round < RANDOM_ROUNDS / every; round++) {
        fill_randomly((uint8_t *)setup, sizeof *setup);
        must_be(noise_start(h, bytes_of(0, (const uint8_t *)pattern, size), size, nothing, 0, setup), faults);
    }
}

void check_changed_structs(void) {
    static snapshot at[SNAPSHOTS];
    make_places();
    plan plans[] = {
        plan_of("XX", -1), plan_of("IK", 2),
        plan_of_text("NK1:\n  <- s\n  ...\n  -> e\n  <- e, ee, es\n", "NK", 0, true), plan_of("K", 0),
    };
    unsigned stages = 0;
    for (size_t i = 0; i < sizeof plans / sizeof *plans; i++) {
        unsigned count = run_of(&plans[i], at);
        stages += count;
        for (unsigned n = 0; n < count; n++) {
            if (i == 0 || n % 2) try_bytes(&at[n]);      // each stage of XX, and the others' before each read
            try_random(&at[n]);
        }
        try_filled(&at[0]);
        try_opened(&plans[i]);
        try_patterns(&plans[i]);
    }
    printf("c-library: changed structs: %u stages, %lu calls, %lu of them went well\n", stages, calls, usable);
}

// Streams and frames: what is written and read, in pieces of any size; ends, refusals and cuts; and a network
// that flips, cuts, repeats or drops at each byte of a whole session, whatever the order in which the two
// parties end their streams.
#include "ends.h"

enum { PART = NOISE_MAX_MESSAGE - NOISE_TAG_LEN, ROOM = NOISE_MAX_FRAME + 10 };

static uint8_t payload[2 * PART], out[ROOM], other[ROOM], buffer[ROOM];

static void open_pair(const char *pattern, uint64_t interval, stream x[2], transport t[2]) {
    plan p = plan_of(pattern, -1);
    end ends[2] = {begin(&p, 0), begin(&p, 1)};
    pass_all(&p, ends);
    for (unsigned role = 0; role < 2; role++) {
        MUST(finish_stream(&ends[role].h, interval, &x[role]) == NOISE_OK);
        MUST(finish(&ends[role].h, interval, &t[role]) == NOISE_OK);
    }
}

static void must_be_cut(const stream *x, size_t left, bool is) {
    MUST(noise_stream_is_cut(&x->r, left) == (is ? NOISE_CUT : NOISE_OK));
}

// Each frame is a length and the message that noise_seal makes of the same part; and the other party reads it.
static void check_frames(uint64_t interval) {
    static const size_t lens[] = {1, 2, 100, 0, 17, PART - 1, PART, PART + 1, 2 * PART, 5};
    stream x[2];
    transport t[2];
    noise_stream_result result;
    noise_result sealed;
    open_pair("XX", interval, x, t);
    for (size_t i = 0; i < sizeof lens / sizeof *lens; i++) {
        size_t len = lens[i], part = len < PART ? len : PART;
        fill(payload, len, (unsigned)i);
        memset(out, 0x55, sizeof out);
        MUST(noise_stream_write(&x[0].s, payload, len, out, sizeof out, &result) == NOISE_OK && result.used == part);
        MUST(result.len == (len ? part + NOISE_STREAM_OVERHEAD : 0) && out[result.len] == 0x55);
        if (!len) continue;
        MUST(noise_seal(&t[0].s, payload, part, other, sizeof other, &sealed) == NOISE_OK);
        MUST((size_t)(out[0] << 8 | out[1]) == sealed.len && !memcmp(out + 2, other, sealed.len));
        must_be_cut(&x[1], 0, true);
        MUST(noise_stream_read(&x[1].r, out, result.len, &result) == NOISE_OK);
        MUST(result.from == 2 && result.len == part && result.used == part + NOISE_STREAM_OVERHEAD
            && !memcmp(out + 2, payload, part));
    }
    noise_stream_sender old = x[0].s;
    MUST(noise_stream_end(&x[0].s, out, 18, &result) == NOISE_OK && result.len == 18
        && memcmp(&old, &x[0].s, sizeof old));
    MUST(noise_stream_read(&x[1].r, out, 18, &result) == NOISE_END && result.used == 18);
    must_be_cut(&x[1], 0, false);
    must_be_cut(&x[1], 1, true);
    must_be_cut(&x[0], 0, true);
}

// A stream in pieces of one byte, and in one piece: at each byte just as many are wanted as the frame has.
static void check_pieces(void) {
    static const size_t lens[] = {1, 30, 7};
    stream x[2], old;
    transport t[2];
    noise_stream_result result;
    size_t size = 0, have = 0, parts = 0;
    open_pair("IK", 2, x, t);
    for (unsigned i = 0; i < 3; i++) {
        fill(payload, lens[i], i);
        MUST(noise_stream_write(&x[1].s, payload, lens[i], out + size, sizeof out - size, &result) == NOISE_OK);
        size += result.len;
    }
    MUST(noise_stream_end(&x[1].s, out + size, sizeof out - size, &result) == NOISE_OK);
    size += result.len;
    for (size_t i = 0; i < size; i++) {
        old = x[0];
        buffer[have++] = out[i];
        memcpy(other, buffer, have);
        uint32_t code = noise_stream_read(&x[0].r, buffer, have, &result);
        must_be_cut(&x[0], 0, code != NOISE_END);
        if (code == NOISE_MORE) {
            size_t whole = have < 2 ? 2 : 2u + (size_t)(buffer[0] << 8 | buffer[1]);
            MUST(result.wanted == whole - have && !memcmp(other, buffer, have) && !memcmp(&old, &x[0], sizeof old));
            continue;
        }
        MUST(result.used == have);
        if (code == NOISE_END) {
            MUST(parts == 3 && i == size - 1);
            break;
        }
        fill(payload, lens[parts], (unsigned)parts);
        MUST(code == NOISE_OK && result.len == lens[parts] && !memcmp(buffer + result.from, payload, result.len));
        parts++;
        have = 0;
    }
    old = x[0];
    MUST(noise_stream_read(&x[0].r, buffer, 0, &result) == NOISE_CLOSED
        && noise_stream_read(&x[0].r, out, 18, &result) == NOISE_CLOSED);
    MUST(!memcmp(&old, &x[0], sizeof old));
}

static void must_not_write(noise_stream_sender *s, size_t len, size_t room, uint32_t code) {
    noise_stream_sender old = *s;
    noise_stream_result result = {1, 2, 3, 4};
    memset(out, 0x33, sizeof out);
    memset(other, 0x33, sizeof other);
    MUST(noise_stream_write(s, payload, len, out, room, &result) == code && !memcmp(&old, s, sizeof old)
        && !memcmp(out, other, sizeof out));
    MUST(result.from == 1 && result.len == 2 && result.used == 3 && result.wanted == 4);
}

static void must_not_end(noise_stream_sender *s, size_t room, uint32_t code) {
    noise_stream_sender old = *s;
    noise_stream_result result = {1, 2, 3, 4};
    memset(out, 0x33, sizeof out);
    MUST(noise_stream_end(s, out, room, &result) == code && !memcmp(&old, s, sizeof old)
        && !memcmp(out, other, sizeof out));
    MUST(result.from == 1 && result.len == 2 && result.used == 3 && result.wanted == 4);
}

static void check_writing(void) {
    stream x[2];
    transport t[2];
    noise_stream_result result;
    open_pair("NN", 0, x, t);
    for (size_t room = 0; room < 28; room++) must_not_write(&x[0].s, 10, room, NOISE_ROOM);
    must_not_write(&x[0].s, sizeof payload, PART + 17, NOISE_ROOM);
    for (size_t room = 0; room < 18; room++) must_not_end(&x[0].s, room, NOISE_ROOM);
    MUST(noise_stream_write(&x[0].s, NULL, 0, NULL, 0, &result) == NOISE_OK && result.used == 0 && result.len == 0);
    MUST(noise_stream_end(&x[0].s, out, sizeof out, &result) == NOISE_OK);
    must_not_write(&x[0].s, 10, sizeof out, NOISE_CLOSED);
    must_not_write(&x[0].s, 0, sizeof out, NOISE_CLOSED);
    must_not_end(&x[0].s, sizeof out, NOISE_CLOSED);
    open_pair("K", 0, x, t);
    must_not_write(&x[1].s, 10, sizeof out, NOISE_ONE_WAY);
    must_not_end(&x[1].s, sizeof out, NOISE_ONE_WAY);
    MUST(noise_stream_end(&x[0].s, out, sizeof out, &result) == NOISE_OK
        && noise_stream_read(&x[1].r, out, 18, &result) == NOISE_END);
}

// A refused frame breaks the stream for good: the right frame isn't read any more.
static void check_refused(void) {
    static const size_t lens[] = {0, 5, 15, 16, 40};
    stream x[2], old;
    transport t[2];
    noise_stream_result result;
    open_pair("NN", 0, x, t);
    MUST(noise_stream_write(&x[0].s, payload, 9, out, sizeof out, &result) == NOISE_OK);
    for (size_t i = 0; i < sizeof lens / sizeof *lens; i++) {
        noise_stream_receiver r = x[1].r;
        uint32_t cause = lens[i] < 16 ? NOISE_SHORT : NOISE_TAG;
        memset(buffer, 0, sizeof buffer);
        buffer[1] = (uint8_t)lens[i];
        MUST(noise_stream_read(&r, buffer, lens[i] + 2, &result) == cause);
        for (size_t at = 2; at < sizeof buffer; at++) MUST(buffer[at] == 0);
        x[0].r = r, old = x[0];
        memcpy(buffer, out, 27);
        MUST(noise_stream_read(&x[0].r, buffer, 27, &result) == NOISE_CLOSED && !memcmp(&old, &x[0], sizeof old));
        must_be_cut(&x[0], 0, true);
    }
    for (size_t at = 2; at < 27; at++) {
        noise_stream_receiver r = x[1].r;
        memcpy(buffer, out, 27);
        buffer[at] ^= 0x10;
        memcpy(other, buffer, 27);
        MUST(noise_stream_read(&r, buffer, 27, &result) == NOISE_TAG && !memcmp(other, buffer, 27));
        MUST(noise_stream_read(&r, out, 27, &result) == NOISE_CLOSED);
    }
    MUST(noise_stream_read(&x[1].r, out, 27, &result) == NOISE_OK);
}

// Structs of another kind, of zeros, with another mark, or with a state that no stream has.
static void check_structs(void) {
    stream x[2];
    transport t[2];
    noise_stream_result result;
    noise_result of_transport;
    open_pair("XX", 0, x, t);
    noise_stream_sender zero_sender = {{0}}, sender;
    noise_stream_receiver zero_receiver = {{0}}, receiver;
    must_not_write(&zero_sender, 5, sizeof out, NOISE_STRUCT);
    must_not_end(&zero_sender, sizeof out, NOISE_STRUCT);
    MUST(noise_stream_read(&zero_receiver, buffer, 20, &result) == NOISE_STRUCT
        && noise_stream_is_cut(&zero_receiver, 0) == NOISE_STRUCT);
    for (unsigned i = 0; i < 4; i++)
        for (unsigned change = 1; change < 256; change++) {
            sender = x[0].s, receiver = x[0].r;
            sender.opaque[i] ^= (uint8_t)change, receiver.opaque[i] ^= (uint8_t)change;
            must_not_write(&sender, 5, sizeof out, NOISE_STRUCT);
            MUST(noise_stream_read(&receiver, buffer, 20, &result) == NOISE_STRUCT
                && noise_stream_is_cut(&receiver, 0) == NOISE_STRUCT);
        }
    // A stream's half begins with a half of its own kind, and is no half of messages, nor the other way round.
    memcpy(&sender, &x[0].r, sizeof sender);
    must_not_write(&sender, 5, sizeof out, NOISE_STRUCT);
    MUST(noise_seal((noise_sender *)&x[0].s, payload, 5, out, sizeof out, &of_transport) == NOISE_STRUCT);
    MUST(noise_open((noise_receiver *)&x[0].r, buffer, 20, &of_transport) == NOISE_STRUCT);
    sender = zero_sender, receiver = zero_receiver;
    memcpy(&sender, &t[0].s, sizeof t[0].s);
    memcpy(&receiver, &t[0].r, sizeof t[0].r);
    must_not_write(&sender, 5, sizeof out, NOISE_STRUCT);
    MUST(noise_stream_read(&receiver, buffer, 20, &result) == NOISE_STRUCT);
}

// Frames of a handshake's messages.
static void check_handshake_frames(void) {
    noise_stream_result result;
    memset(buffer, 7, sizeof buffer);
    for (size_t have = 0; have < 30; have++) {
        buffer[0] = 0, buffer[1] = 20;
        uint32_t code = noise_frame_find(buffer, have, &result);
        if (have < 22)
            MUST(code == NOISE_MORE && result.wanted == (have < 2 ? 2 : 22) - have);
        else
            MUST(code == NOISE_OK && result.from == 2 && result.len == 20 && result.used == 22);
    }
    MUST(noise_frame_find(NULL, 0, &result) == NOISE_MORE && result.wanted == 2);
    MUST(noise_frame_message(buffer, sizeof buffer, 65535, &result) == NOISE_OK && result.len == NOISE_MAX_FRAME
        && buffer[0] == 0xff && buffer[1] == 0xff);
    MUST(noise_frame_message(buffer, 302, 300, &result) == NOISE_OK && result.len == 302 && buffer[0] == 1
        && buffer[1] == 44 && buffer[2] == 7);
    MUST(noise_frame_message(buffer, 2, 0, &result) == NOISE_OK && result.len == 2 && buffer[0] == 0 && buffer[1] == 0);
    MUST(noise_frame_message(buffer, 301, 300, &result) == NOISE_ROOM
        && noise_frame_message(buffer, 1, 0, &result) == NOISE_ROOM);
    MUST(noise_frame_message(buffer, sizeof buffer, 65536, &result) == NOISE_LENGTH
        && noise_frame_message(buffer, 0, SIZE_MAX, &result) == NOISE_LENGTH);
    MUST(noise_frame_message(NULL, 0, 0, &result) == NOISE_ROOM && buffer[0] == 0 && buffer[1] == 0);
}

// A whole session through a relay. A party does the handshake, writes its texts, and ends its stream after it has
// written them: at once, or only once it has read the other's end. It closes the connection once its own stream has
// ended and the other's has ended or is broken.
enum { LONG = 1200, TEXTS = 3, NEVER = -1 };

typedef struct {
    uint8_t bytes[LONG];
    size_t len, taken;
    bool closed;                                         // nothing more comes
} pipe_end;

typedef struct {
    end x;
    stream open;
    bool is_open, failed, wrote, ended, waits;           // `waits`: it ends its stream only after the other
    uint8_t held[LONG];                                  // what came, and isn't used yet
    size_t held_len;
    uint8_t got[LONG];
    size_t got_len;
    bool got_end;
} machine;

typedef enum { NOTHING, FLIP, CUT, REPEAT, DROP, KINDS } damage;

typedef struct {
    damage kind;
    unsigned direction;                                  // the role of who sends
    size_t at;
    unsigned bit;
} attack;

static const char *const texts[2][TEXTS] = {
    {"a first text", "b", "the last of the client"}, {"1", "what the server has to say", "and good bye"}};

static size_t text_of(unsigned role, uint8_t *all) {
    size_t len = 0;
    for (unsigned i = 0; i < TEXTS; i++) {
        memcpy(all + len, texts[role][i], strlen(texts[role][i]));
        len += strlen(texts[role][i]);
    }
    return len;
}

// What the relay makes of what one end sends: at one byte of a direction it does damage.
static void send_through(pipe_end *to, const attack *a, unsigned role, size_t *sent, const uint8_t *bytes, size_t len) {
    for (size_t i = 0; i < len; i++) {
        uint8_t byte = bytes[i];
        bool here = a->kind != NOTHING && a->direction == role && (*sent)++ == a->at;
        if (here && a->kind == CUT) to->closed = true;
        if (to->closed) continue;
        if (here && a->kind == FLIP) byte ^= (uint8_t)(1u << a->bit);
        if (here && a->kind == DROP) continue;
        for (unsigned n = here && a->kind == REPEAT ? 2 : 1; n; n--) {
            MUST(to->len < LONG);
            to->bytes[to->len++] = byte;
        }
    }
}

typedef struct {
    machine m[2];
    pipe_end pipes[2];                                   // by the role of who reads
    size_t sent[2];
    attack a;
} session;

static void put(session *s, unsigned role, const uint8_t *bytes, size_t len) {
    send_through(&s->pipes[!role], &s->a, role, &s->sent[role], bytes, len);
}

static void give_up(session *s, unsigned role) {
    s->m[role].failed = true;
    s->pipes[!role].closed = true;
}

static void use(machine *m, size_t count) {
    m->held_len -= count;
    memmove(m->held, m->held + count, m->held_len);
}

// One step of the handshake. False if nothing can be done before more comes.
static bool shake(session *s, unsigned role) {
    machine *m = &s->m[role];
    noise_stage_result stage;
    noise_result result;
    noise_stream_result place;
    uint8_t message[LONG];
    MUST(noise_stage(&m->x.h, &stage) == NOISE_OK);
    if (stage.passed == stage.messages) {
        MUST(finish_stream(&m->x.h, 2, &m->open) == NOISE_OK);
        m->is_open = true;
        return true;
    }
    if (stage.writes_next) {
        MUST(write_on(&m->x, NULL, 0, message + 2, sizeof message - 2, &result) == NOISE_OK);
        MUST(noise_frame_message(message, sizeof message, result.len, &place) == NOISE_OK);
        put(s, role, message, place.len);
        return true;
    }
    if (noise_frame_find(m->held, m->held_len, &place) == NOISE_MORE) return false;
    if (read_on(&m->x, m->held + place.from, place.len, &result) != NOISE_OK) give_up(s, role);
    else use(m, place.used);
    return true;
}

static bool write_texts(session *s, unsigned role) {
    machine *m = &s->m[role];
    noise_stream_result result;
    uint8_t frame[LONG];
    if (!m->wrote) {
        m->wrote = true;
        for (unsigned i = 0; i < TEXTS; i++) {
            const char *text = texts[role][i];
            const uint8_t *bytes = (const uint8_t *)text;
            size_t len = strlen(text);
            MUST(noise_stream_write(&m->open.s, bytes, len, frame, sizeof frame, &result) == NOISE_OK
                && result.used == len);
            put(s, role, frame, result.len);
        }
        return true;
    }
    if (m->ended || (m->waits && !m->got_end)) return false;
    m->ended = true;
    MUST(noise_stream_end(&m->open.s, frame, sizeof frame, &result) == NOISE_OK);
    put(s, role, frame, result.len);
    return true;
}

static bool read_texts(session *s, unsigned role) {
    machine *m = &s->m[role];
    noise_stream_result result;
    if (m->got_end) return false;
    uint32_t code = noise_stream_read(&m->open.r, m->held, m->held_len, &result);
    if (code == NOISE_MORE) return false;
    if (code == NOISE_END) m->got_end = true;
    else if (code != NOISE_OK) {
        MUST(is_in(code, CODE(NOISE_TAG) | CODE(NOISE_SHORT)));
        give_up(s, role);
        return true;
    } else {
        MUST(m->got_len + result.len <= LONG);
        memcpy(m->got + m->got_len, m->held + result.from, result.len);
        m->got_len += result.len;
    }
    use(m, result.used);
    return true;
}

// Takes what came, and does all that it can. False if it has done nothing.
static bool run(session *s, unsigned role) {
    machine *m = &s->m[role];
    pipe_end *in = &s->pipes[role];
    bool did = false;
    if (m->failed) return false;
    for (; in->taken < in->len; did = true) m->held[m->held_len++] = in->bytes[in->taken++];
    while (!m->failed && (m->is_open ? read_texts(s, role) || write_texts(s, role) : shake(s, role))) did = true;
    if (m->ended && m->got_end) s->pipes[!role].closed = true;
    return did;
}

static session pass_session(attack a, bool first_waits, bool second_waits) {
    static plan p;
    session s = {.a = a};
    p = plan_of("XX", -1);
    p.prologue_len = 3;
    for (unsigned role = 0; role < 2; role++) s.m[role].x = begin(&p, role);
    s.m[0].waits = first_waits;
    s.m[1].waits = second_waits;
    for (bool did = true; did;) {
        did = run(&s, 0);
        did = run(&s, 1) || did;
    }
    return s;
}

// The theorem on streams: what a reader has is the first of what the other has written; it has reported an end only if
// the other ended and all of it came; in any other case it has refused, or reports a cut now.
static bool judge(const session *s, unsigned role) {
    const machine *m = &s->m[role], *other_end = &s->m[!role];
    uint8_t all[LONG];
    size_t len = text_of(!role, all);
    MUST(m->got_len <= len && !memcmp(m->got, all, m->got_len));
    if (m->got_end) MUST(other_end->ended && m->got_len == len);
    if (!m->is_open || m->failed) return false;
    uint32_t cut = noise_stream_is_cut(&m->open.r, m->held_len);
    MUST(cut == (m->got_end && m->held_len == 0 ? NOISE_OK : NOISE_CUT));
    return cut == NOISE_OK;
}

static void check_network(void) {
    unsigned long sessions = 0, whole = 0;
    for (unsigned order = 0; order < 3; order++) {       // at once, the client last, the server last
        session right = pass_session((attack){NOTHING, 0, 0, 0}, order == 1, order == 2);
        for (unsigned role = 0; role < 2; role++) MUST(judge(&right, role));
        for (unsigned direction = 0; direction < 2; direction++)
            for (size_t at = 0; at < right.pipes[!direction].len; at++)
                for (damage kind = FLIP; kind < KINDS; kind++)
                    for (unsigned bit = 0; bit < (kind == FLIP ? 8u : 1u); bit++) {
                        if (!is_due()) continue;
                        session s = pass_session((attack){kind, direction, at, bit}, order == 1, order == 2);
                        bool hurt = judge(&s, !direction), back = judge(&s, direction);
                        // Whatever was done, the reader of the damaged direction knows it.
                        MUST(!hurt);
                        sessions++;
                        whole += back;
                    }
    }
    printf("c-library: streams: %lu damaged sessions, in each the reader of the damaged direction knew; in %lu the "
           "other direction was whole\n",
        sessions, whole);
}

void check_streams(void) {
    check_frames(0);
    check_frames(3);
    check_pieces();
    check_writing();
    check_refused();
    check_structs();
    check_handshake_frames();
    check_network();
}

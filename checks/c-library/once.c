// A handshake is used up by the call that finishes it; a refused message may leave it as it was; what a
// call doesn't report stays.
#include "ends.h"

static uint8_t message[200], before[200];

// Whether so many bytes in a row of the struct are those.
static bool holds(const noise_handshake *h, const uint8_t *bytes, size_t len) {
    const uint8_t *at = (const uint8_t *)h;
    for (size_t i = 0; i + len <= sizeof *h; i++)
        if (!memcmp(at + i, bytes, len)) return true;
    return false;
}

typedef uint32_t finish_call(noise_handshake *h);
static uint32_t by_messages(noise_handshake *h) {
    transport t;
    return noise_finish(h, 0, &t.s, &t.r);
}
static uint32_t by_stream(noise_handshake *h) {
    stream x;
    return noise_finish_stream(h, 0, &x.s, &x.r);
}
static uint32_t by_datagrams(noise_handshake *h) {
    datagrams d;
    return noise_finish_datagrams(h, 64, &d.s, &d.r);
}
static uint32_t by_ciphers(noise_handshake *h) {
    noise_cipher send, receive;
    return noise_finish_ciphers(h, &send, &receive);
}
static finish_call *const calls[] = {by_messages, by_stream, by_datagrams, by_ciphers};
enum { CALLS = sizeof calls / sizeof *calls };

// Of each pair of calls the second is refused, and the hash and the other party's key stay.
static void check_twice(void) {
    plan p = plan_of("XX", 3);
    end ends[2] = {begin(&p, 0), begin(&p, 1)};
    pass_all(&p, ends);
    for (unsigned first = 0; first < CALLS; first++)
        for (unsigned second = 0; second < CALLS; second++) {
            noise_handshake h = ends[0].h;
            noise_result result;
            noise_stage_result stage;
            noise_key key, old_key;
            uint8_t hash[32], old_hash[32];
            MUST(noise_hash(&h, old_hash) == NOISE_OK && noise_remote_static(&h, &old_key) == NOISE_OK);
            MUST(calls[first](&h) == NOISE_OK);
            MUST(calls[second](&h) == NOISE_ENDED);
            MUST(noise_hash(&h, hash) == NOISE_OK && !memcmp(hash, old_hash, 32));
            MUST(noise_remote_static(&h, &key) == NOISE_OK && !memcmp(&key, &old_key, sizeof key) && key.present == 1);
            MUST(noise_stage(&h, &stage) == NOISE_OK && stage.passed == 3 && stage.ended == 1);
            MUST(noise_write(&h, NULL, 0, message, sizeof message, &result) == NOISE_ENDED);
            MUST(noise_read(&h, message, 96, &result) == NOISE_ENDED);
        }
}

// What a used struct doesn't hold any more: its psks, the results of X25519, and, by finding what
// it held before, its keys.
static void check_wiped(void) {
    plan p = plan_of("XX", 3);
    end ends[2] = {begin(&p, 0), begin(&p, 1)};
    noise_setup setup = setup_of(&p, 0);
    MUST(holds(&ends[0].h, setup.psks[0], 32));
    pass_all(&p, ends);
    noise_handshake h = ends[0].h;
    size_t zeros = 0, zeros_before = 0;
    for (size_t i = 0; i < sizeof h; i++) zeros_before += ((uint8_t *)&h)[i] == 0;
    MUST(by_stream(&h) == NOISE_OK);
    for (size_t i = 0; i < sizeof h; i++) zeros += ((uint8_t *)&h)[i] == 0;
    MUST(!holds(&h, setup.psks[0], 32));
    // The chaining key, the cipher key, a psk, two DH results or more.
    MUST(zeros >= zeros_before + 32 + 32 + 3 * 32);
    noise_handshake again = ends[0].h;
    plan other = plan_of("NN", -1);
    noise_setup none = setup_of(&other, 0);
    MUST(start_with(&again, &other, &none) == NOISE_OK);
    MUST(!holds(&again, setup.psks[0], 32));             // a struct that is started again holds nothing of the old psk
}

// A message that a stranger sends changes nothing, and the right one is still read.
static void check_tries(void) {
    plan p = plan_of("XX", -1);
    end ends[2] = {begin(&p, 0), begin(&p, 1)};
    noise_result result, old;
    for (unsigned m = 0; m < 3; m++) {
        end *writer = &ends[m % 2], *reader = &ends[1 - m % 2];
        uint8_t right[200];
        MUST(noise_try_read(&writer->h, message, 96, &result) == NOISE_NOT_YOUR_TURN);
        MUST(write_on(writer, (const uint8_t *)"payload", 7, right, sizeof right, &result) == NOISE_OK);
        size_t len = result.len;
        // Changed at each byte: what comes in clear is found out later, or taken.
        for (size_t i = 0; i < len; i++)
            for (unsigned cut = 0; cut < 2; cut++) {
                noise_handshake h = reader->h;
                size_t some = cut ? i : len;
                uint32_t code;
                memcpy(message, right, len);
                if (!cut) message[i] ^= 1;
                memcpy(before, message, len);
                while ((code = noise_try_read(&h, message, some, &result)) == NOISE_WANTED)
                    MUST(noise_answer(&h, result.of_static, result.remote, result.remote) == NOISE_OK);
                noise_handshake asked = h;
                if (code == NOISE_OK) continue;
                MUST(code == NOISE_SHORT || code == NOISE_TAG);
                noise_stage_result stage;
                MUST(noise_stage(&h, &stage) == NOISE_OK && stage.ended == 0 && stage.passed == m);
                MUST(!memcmp(message, before, len));
                MUST(noise_try_read(&h, message, some, &result) == code && !memcmp(&h, &asked, sizeof h));
                MUST(noise_read(&h, message, some, &result) == code);
                MUST(noise_stage(&h, &stage) == NOISE_OK && stage.ended == 1);
            }
        memset(message, 0, sizeof message);
        MUST(noise_try_read(&reader->h, message, 3, &result) == NOISE_SHORT);
        MUST(read_on(reader, right, len, &result) == NOISE_OK);
        MUST(result.len == 7 && !memcmp(right + result.from, "payload", 7));
    }
    // The token is reported of a refusal alone.
    memset(&old, 0x5a, sizeof old);
    for (unsigned ended = 0; ended < 3; ended++) {
        noise_handshake h = ends[0].h;
        uint32_t codes[] = {NOISE_DONE, NOISE_ENDED, NOISE_NOT_YOUR_TURN};
        result = old;
        if (ended == 1) MUST(by_stream(&h) == NOISE_OK);
        if (ended == 2) h = begin(&p, 0).h;
        MUST(noise_read(&h, message, 96, &result) == codes[ended]);
        MUST(!memcmp(&result, &old, sizeof old));
        MUST(noise_try_read(&h, message, 96, &result) == codes[ended]);
        MUST(!memcmp(&result, &old, sizeof old));
    }
}

// A flood of messages that a stranger made, each with a public key of its own, doesn't keep out the right one.
static void check_flood(void) {
    plan p = plan_of("IK", -1);
    end ends[2] = {begin(&p, 0), begin(&p, 1)};
    noise_result result;
    uint8_t right[200];
    MUST(write_on(&ends[0], NULL, 0, message, sizeof message, &result) == NOISE_OK);
    MUST(read_on(&ends[1], message, result.len, &result) == NOISE_OK);
    MUST(write_on(&ends[1], (const uint8_t *)"here", 4, right, sizeof right, &result) == NOISE_OK);
    size_t len = result.len;
    for (unsigned n = 0; n < 100; n++) {
        uint32_t code;
        for (size_t i = 0; i < len; i++) message[i] = (uint8_t)(n * 31 + i * 7 + 1);
        while ((code = noise_try_read(&ends[0].h, message, len, &result)) == NOISE_WANTED)
            MUST(noise_answer(&ends[0].h, result.of_static, result.remote, result.remote) == NOISE_OK);
        MUST(code == NOISE_TAG);
    }
    uint32_t code;
    while ((code = noise_try_read(&ends[0].h, right, len, &result)) == NOISE_WANTED) hand_in(&ends[0], &result);
    MUST(code == NOISE_OK && result.len == 4 && !memcmp(right + result.from, "here", 4));
}

// How often one message asks: IX and KX three times, IK's and KK's messages too; a pattern of one's own four times.
static void check_asks(void) {
    plan ix = plan_of("IX", -1), kx = plan_of("KX", -1);
    plan four = plan_of_text("A:\n  -> s\n  <- s\n  ...\n  -> e\n  <- e, ee, es, se, ss\n", "KK", 0, true);
    const plan *plans[] = {&ix, &kx, &four};
    const unsigned most[] = {3, 3, 4};
    for (unsigned i = 0; i < 3; i++) {
        end ends[2] = {begin(plans[i], 0), begin(plans[i], 1)};
        noise_result result;
        unsigned asked = 0;
        uint32_t code;
        MUST(write_on(&ends[0], NULL, 0, message, sizeof message, &result) == NOISE_OK);
        MUST(read_on(&ends[1], message, result.len, &result) == NOISE_OK);
        unsigned already = ends[1].answers;
        MUST(write_on(&ends[1], NULL, 0, message, sizeof message, &result) == NOISE_OK);
        size_t len = result.len;
        while ((code = noise_read(&ends[0].h, message, len, &result)) == NOISE_WANTED)
            hand_in(&ends[0], &result), asked++;
        MUST(code == NOISE_OK);
        MUST(asked == most[i] && ends[1].answers - already == most[i]);
    }
}

// A result of X25519 goes into a handshake alone.
static void check_answer(void) {
    noise_handshake h, old;
    memset(&h, 0, sizeof h);
    old = h;
    MUST(noise_answer(&h, 0, message, message) == NOISE_STRUCT && !memcmp(&h, &old, sizeof h));
    memset(&h, 0x6f, sizeof h);
    old = h;
    MUST(noise_answer(&h, 0, message, message) == NOISE_STRUCT && !memcmp(&h, &old, sizeof h));
}

// Each code has a sentence of its own, a static text.
static void check_sentences(void) {
    const char *none = noise_text(99);
    for (uint32_t code = 0; code <= NOISE_OVERLAP; code++) {
        bool is_code = code != 3 && code != 9 && code != 21;
        const char *text = noise_text(code);
        size_t len = strlen(text);
        const char *sentence = NULL;
        MUST(noise_sentence(code, &sentence) == len && sentence == text);
        MUST(len > 10 && len < 80 && text[len - 1] == '.');
        MUST((strcmp(text, none) != 0) == is_code);
        for (uint32_t other = 0; other < code; other++) MUST(!is_code || strcmp(text, noise_text(other)) != 0);
    }
    MUST(!strcmp(noise_text(UINT32_MAX), none) && !strcmp(none, "This number is not a code of the library."));
    MUST(!strcmp(noise_text(NOISE_OK), "The call succeeded."));
    MUST(!strcmp(noise_text(NOISE_CUT), "The connection ended before the stream did."));
}

void check_once(void) {
    check_twice();
    check_wiped();
    check_tries();
    check_flood();
    check_asks();
    check_answer();
    check_sentences();
}

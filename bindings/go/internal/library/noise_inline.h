/* The inline functions of noise.h, which includes this file. */
#ifndef NOISE_INLINE_H
#define NOISE_INLINE_H

static inline void noise_wipe(void *at, size_t len) {
    volatile unsigned char *byte = (volatile unsigned char *)at;
    while (len--) *byte++ = 0;
}

#ifdef __GNUC__
static void noise_wipe_stack(void) {
    unsigned char stack[16384];
    noise_wipe(stack, sizeof stack);
}
#endif

static inline const char *noise_text(uint32_t code) {
    const char *sentence = "";
    noise_sentence(code, &sentence);
    return sentence;
}

/* NULL with a count of 0: the address of a byte that nobody reads or writes stands for it. */
static inline const uint8_t *noise_in(const uint8_t *at, size_t len) {
    return at || len ? at : (const uint8_t *)"";
}
static inline uint8_t *noise_out(uint8_t *at, size_t len) {
    static uint8_t none;
    return at || len ? at : &none;
}

/* Whether two ranges have a byte in common. */
static inline int noise_overlap(const uint8_t *a, size_t a_len, const uint8_t *b, size_t b_len) {
    uintptr_t x = (uintptr_t)a, y = (uintptr_t)b;
    return x < y ? y - x < a_len && b_len : x - y < b_len && a_len;
}

/* The sum of two lengths, or the other one if it is less. */
static inline size_t noise_least(size_t len, size_t added, size_t other) {
    return len < other && added < other - len ? len + added : other;
}

/* How many bytes of out a call writes; 0 if it refuses to. */
static inline size_t noise_write_size(const noise_handshake *h, size_t len, size_t out_len) {
    size_t size = 0;
    return noise_message_len(h, len, &size) == NOISE_OK ? noise_least(size, 0, out_len) : 0;
}
static inline size_t noise_stream_write_size(const noise_stream_sender *s, size_t len,
    size_t out_len) {
    size_t first = noise_least(len, 0, NOISE_MAX_MESSAGE - NOISE_TAG_LEN);
    return (void)s, noise_least(first, NOISE_STREAM_OVERHEAD, out_len);
}
static inline size_t noise_seal_size(const noise_sender *s, size_t len, size_t out_len) {
    return (void)s, noise_least(len, NOISE_TAG_LEN, out_len);
}
static inline size_t noise_datagram_seal_size(const noise_datagram_sender *s, size_t len,
    size_t out_len) {
    return (void)s, noise_least(len, NOISE_DATAGRAM_OVERHEAD, out_len);
}

/* CALL_inline takes these parameters, and makes the call with these arguments unless the buffers
   overlap. Those of the numbers in `named` aren't NULL. */
#define NOISE_INLINE_APART(call, named, parameters, overlaps, ...) \
    NOISE_CHECKED named static inline uint32_t call##_inline parameters { \
        return overlaps ? (uint32_t)NOISE_OVERLAP : call(__VA_ARGS__); \
    }
#define NOISE_INLINE(call, named, parameters, ...) \
    NOISE_INLINE_APART(call, named, parameters, 0, __VA_ARGS__)
#define NOISE_IN(at) const uint8_t *at, size_t at##_len
#define NOISE_OUT(at) uint8_t *at, size_t at##_len
#define NOISE_PASS_IN(at) noise_in(at, at##_len), at##_len
#define NOISE_PASS_OUT(at) noise_out(at, at##_len), at##_len

/* The calls that write from one buffer to another, those that have one buffer, and those that have
   it and the length of what is in it. */
#define NOISE_WRITES(call, of, reports) NOISE_INLINE_APART(call, (1, 6), \
    (of *it, NOISE_IN(text), NOISE_OUT(out), reports *result), \
    noise_overlap(text, text_len, out, out_len) \
        && noise_overlap(text, text_len, out, call##_size(it, text_len, out_len)), \
    it, NOISE_PASS_IN(text), NOISE_PASS_OUT(out), result)
#define NOISE_READS(call, of, reports) NOISE_INLINE(call, (1, 4), \
    (of *it, NOISE_OUT(text), reports *result), it, NOISE_PASS_OUT(text), result)
#define NOISE_SEALS(call, of) NOISE_INLINE(call, (1, 5), \
    (of *it, NOISE_OUT(out), size_t len, noise_result *result), \
    it, NOISE_PASS_OUT(out), len, result)

NOISE_WRITES(noise_write, noise_handshake, noise_result)
NOISE_WRITES(noise_stream_write, noise_stream_sender, noise_stream_result)
NOISE_WRITES(noise_seal, noise_sender, noise_result)
NOISE_WRITES(noise_datagram_seal, noise_datagram_sender, noise_result)
NOISE_READS(noise_read, noise_handshake, noise_result)
NOISE_READS(noise_try_read, noise_handshake, noise_result)
NOISE_READS(noise_stream_end, noise_stream_sender, noise_stream_result)
NOISE_READS(noise_stream_read, noise_stream_receiver, noise_stream_result)
NOISE_READS(noise_open, noise_receiver, noise_result)
NOISE_READS(noise_datagram_open, noise_datagram_receiver, noise_result)
NOISE_SEALS(noise_seal_in_place, noise_sender)
NOISE_SEALS(noise_datagram_seal_in_place, noise_datagram_sender)
NOISE_INLINE(noise_start, (1, 6),
    (noise_handshake *h, NOISE_IN(pattern), NOISE_IN(prologue), const noise_setup *setup),
    h, NOISE_PASS_IN(pattern), NOISE_PASS_IN(prologue), setup)
NOISE_INLINE(noise_check_pattern, (3), (NOISE_IN(text), noise_pattern_result *result),
    NOISE_PASS_IN(text), result)
NOISE_INLINE(noise_pattern, (3, 4),
    (NOISE_IN(pattern), noise_pattern_info *info, noise_pattern_result *result),
    NOISE_PASS_IN(pattern), info, result)
NOISE_INLINE(noise_layout, (5),
    (NOISE_IN(pattern), uint8_t message, size_t len, noise_message_layout *layout),
    NOISE_PASS_IN(pattern), message, len, layout)
NOISE_INLINE(noise_frame_message, (4),
    (NOISE_OUT(buffer), size_t len, noise_stream_result *result),
    NOISE_PASS_OUT(buffer), len, result)
NOISE_INLINE(noise_frame_find, (3), (NOISE_IN(buffer), noise_stream_result *result),
    NOISE_PASS_IN(buffer), result)
NOISE_INLINE_APART(noise_cipher_encrypt, (1, 7),
    (noise_cipher *c, NOISE_IN(ad), NOISE_OUT(buffer), size_t len, noise_result *result),
    noise_overlap(ad, ad_len, buffer, noise_least(len, NOISE_TAG_LEN, buffer_len)),
    c, NOISE_PASS_IN(ad), NOISE_PASS_OUT(buffer), len, result)
NOISE_INLINE_APART(noise_cipher_decrypt, (1, 6),
    (noise_cipher *c, NOISE_IN(ad), NOISE_OUT(message), noise_result *result),
    noise_overlap(ad, ad_len, message, message_len),
    c, NOISE_PASS_IN(ad), NOISE_PASS_OUT(message), result)

#undef NOISE_INLINE_APART
#undef NOISE_INLINE
#undef NOISE_IN
#undef NOISE_OUT
#undef NOISE_PASS_IN
#undef NOISE_PASS_OUT
#undef NOISE_WRITES
#undef NOISE_READS
#undef NOISE_SEALS

#define noise_start noise_start_inline
#define noise_write noise_write_inline
#define noise_read noise_read_inline
#define noise_try_read noise_try_read_inline
#define noise_check_pattern noise_check_pattern_inline
#define noise_pattern noise_pattern_inline
#define noise_layout noise_layout_inline
#define noise_frame_message noise_frame_message_inline
#define noise_frame_find noise_frame_find_inline
#define noise_stream_write noise_stream_write_inline
#define noise_stream_end noise_stream_end_inline
#define noise_stream_read noise_stream_read_inline
#define noise_seal noise_seal_inline
#define noise_seal_in_place noise_seal_in_place_inline
#define noise_open noise_open_inline
#define noise_datagram_seal noise_datagram_seal_inline
#define noise_datagram_seal_in_place noise_datagram_seal_in_place_inline
#define noise_datagram_open noise_datagram_open_inline
#define noise_cipher_encrypt noise_cipher_encrypt_inline
#define noise_cipher_decrypt noise_cipher_decrypt_inline

/* Passes on the result of X25519 that a call wants: 0 if there is none. */
static inline int noise_answer_with(noise_handshake *h, const noise_result *want, noise_dh *dh,
    void *context) {
    uint8_t result[32];
    int ok = dh(context, want->of_static, want->remote, result)
        && noise_answer(h, want->of_static, want->remote, result) == NOISE_OK;
    noise_wipe(result, sizeof result);
    return ok;
}
static inline uint32_t noise_write_with(noise_handshake *h, const uint8_t *payload,
    size_t payload_len, uint8_t *out, size_t out_len, noise_result *result, noise_dh *dh,
    void *context) {
    uint32_t code;
    do code = noise_write(h, payload, payload_len, out, out_len, result);
    while (code == NOISE_WANTED && noise_answer_with(h, result, dh, context));
    return code;
}
static inline uint32_t noise_read_with(noise_handshake *h, uint8_t *message, size_t message_len,
    noise_result *result, noise_dh *dh, void *context) {
    uint32_t code;
    do code = noise_read(h, message, message_len, result);
    while (code == NOISE_WANTED && noise_answer_with(h, result, dh, context));
    return code;
}
static inline uint32_t noise_try_read_with(noise_handshake *h, uint8_t *message,
    size_t message_len, noise_result *result, noise_dh *dh, void *context) {
    uint32_t code;
    do code = noise_try_read(h, message, message_len, result);
    while (code == NOISE_WANTED && noise_answer_with(h, result, dh, context));
    return code;
}

#endif

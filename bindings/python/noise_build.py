"""The extension yulimosar._noise by cffi: every call of src/noise.h, whose declarations are read from that file, and
the library as the assembly text of src/assembly."""
import re
from pathlib import Path

import cffi

HEADER = Path(__file__).resolve().parent / "src" / "noise.h"
INLINE = """
#define NOISE_VERSION ...
void noise_wipe(void *at, size_t len);
void wipe_stack(void);
const char *noise_text(uint32_t code);
uint32_t open_copy(noise_receiver *r, const uint8_t *message, size_t len, uint8_t *room, noise_result *result);
uint32_t datagram_open_copy(noise_datagram_receiver *r, const uint8_t *datagram, size_t len, uint8_t *room,
    noise_result *result);
uint32_t stream_write_all(noise_stream_sender *s, const uint8_t *payload, size_t len, uint8_t *out, size_t out_len,
    noise_stream_result *result);
uint32_t stream_read_all(noise_stream_receiver *r, uint8_t *buffer, size_t len, noise_stream_result *result);
"""
# One call from Python in place of many: what reads in place, on a copy of bytes that Python mustn't see changed; all
# frames of a payload; all frames of a buffer, whose payloads are moved together. And what noise_wipe_stack does, in
# less time than byte by byte.
SOURCE = """
#include <string.h>
#include "noise.h"

__attribute__((noinline)) static void wipe_stack(void) {
    unsigned char stack[16384];
    memset(stack, 0, sizeof stack);
    __asm__ volatile("" : : "r"(stack) : "memory");
}

static uint32_t open_copy(noise_receiver *r, const uint8_t *message, size_t len, uint8_t *room, noise_result *result) {
    memcpy(room, message, len);
    return noise_open(r, room, len, result);
}

static uint32_t datagram_open_copy(noise_datagram_receiver *r, const uint8_t *datagram, size_t len, uint8_t *room,
    noise_result *result) {
    memcpy(room, datagram, len);
    return noise_datagram_open(r, room, len, result);
}

static uint32_t stream_write_all(noise_stream_sender *s, const uint8_t *payload, size_t len, uint8_t *out,
    size_t out_len, noise_stream_result *result) {
    size_t used = 0, made = 0;
    while (used < len) {
        uint32_t code = noise_stream_write(s, payload + used, len - used, out + made, out_len - made, result);
        if (code) return code;
        used += result->used;
        made += result->len;
    }
    return made == out_len ? NOISE_OK : NOISE_ROOM;    /* nothing is sent that wasn't written */
}

static uint32_t stream_read_all(noise_stream_receiver *r, uint8_t *buffer, size_t len, noise_stream_result *result) {
    noise_stream_result frame;
    size_t from = 0, made = 0, used = 0;
    uint32_t code;
    while (!(code = noise_stream_read(r, buffer + used, len - used, &frame))) {
        if (!made) from = used + frame.from;
        else memmove(buffer + from + made, buffer + used + frame.from, frame.len);
        made += frame.len;
        used += frame.used;
    }
    result->from = from;
    result->len = made;
    result->used = used;
    return code;
}
"""


def declarations(header: str) -> str:
    """What a header declares before its inline functions, as cffi reads it: the compiler finds sizes and alignments."""
    text = re.sub(r"/\*.*?\*/", " ", header, flags=re.S)
    text = text[:text.index("static inline")]
    text = re.sub(r"^#.*$", "", text, flags=re.M).replace('extern "C" {', "")
    text = re.sub(r"\bNOISE_(?:CHECKED|NONNULL)\([\d, ]+\)", "", text)    # what the compiler warns of
    text, count = re.subn(r"NOISE_ALIGNED unsigned char opaque\[\d+\];", "...;", text)
    if not count or "NOISE_ALIGNED" in text:
        raise SystemExit("noise_build.py: noise.h isn't written as this script reads it")
    return text + INLINE


ffi = cffi.FFI()
ffi.cdef(declarations(HEADER.read_text(encoding="utf-8")))
ffi.set_source(
    "yulimosar._noise",
    SOURCE,
    include_dirs=["src"],
    sources=["src/assembly.S"],
    depends=["src/noise.h", "src/noise_inline.h", *sorted(str(path) for path in Path("src/assembly").glob("*.s"))],
)

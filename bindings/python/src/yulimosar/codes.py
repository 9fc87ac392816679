"""The codes and the sizes of the library: tests/test_header.py compares them with noise.h."""
from enum import IntEnum

from ._noise import ffi, lib


class Code(IntEnum):
    """What a call of the library returns. Its text is a sentence."""

    OK = 0
    NAME = 1
    PATTERN = 2
    EPHEMERAL_MISSING = 4
    STATIC_MISSING = 5
    REMOTE_MISSING = 6
    REMOTE_UNEXPECTED = 7
    PSK_COUNT = 8
    NOT_YOUR_TURN = 10
    TOO_LONG = 11
    DONE = 12
    ENDED = 13
    AGREEMENT = 14
    SHORT = 15
    TAG = 16
    EXHAUSTED = 17
    ROOM = 18
    NOT_DONE = 19
    WANTED = 20
    ONE_WAY = 22
    STRUCT = 23
    LENGTH = 24
    WINDOW = 25
    RESERVED = 26
    OLD = 27
    REPEATED = 28
    NOT_DUE = 29
    HEADING = 30
    ARROW = 31
    TOKEN = 32
    PRE_MESSAGE = 33
    TURN = 34
    PSK_PLACE = 35
    NAME_TAKEN = 36
    LIMIT = 37
    ENDING = 38
    RULE = 39
    WANTED_PSK = 40
    END = 41
    MORE = 42
    CLOSED = 43
    CUT = 44
    OVERLAP = 45

    def __str__(self) -> str:
        sentence: bytes = ffi.string(lib.noise_text(self))
        return sentence.decode()


TOKENS = ("", "e", "s", "ee", "es", "se", "ss", "psk", "payload")    # by number
KEY_LEN = 32
TAG_LEN = 16
STREAM_OVERHEAD = 18
DATAGRAM_OVERHEAD = 24
MAX_MESSAGE = 65535
MAX_FRAME = 65537
MAX_DATAGRAM = 65543
MAX_PROLOGUE = 65535
MAX_PSKS = 9
MAX_PAYLOAD = MAX_MESSAGE - TAG_LEN

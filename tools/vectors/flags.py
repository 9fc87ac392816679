"""What the flags of tests mean."""

from __future__ import annotations

from typing import Any

from mistaken import MISTAKES

# Each flag that isn't the name of a mistake: what its tests are for, and the section of the standard.
FLAGS = {
    "FundamentalPattern": ("The right conversation of a fundamental pattern.", "7.4, 7.5"),
    "DeferredPattern": ("The right conversation of a deferred pattern.", "7.6"),
    "OnePsk": ("The right conversation of a pattern with one psk.", "9.4"),
    "TwoPsks": ("The right conversation of a pattern with two psks.", "9.4"),
    "OwnPattern": ("The right conversation of a pattern that isn't in the standard.", "7.1"),
    "EphemeralInPreMessage": ("An ephemeral key is known beforehand.", "5.3"),
    "EphemeralInPreMessageWithPsk": (
        "An ephemeral key is known beforehand, and there is a psk: the key is mixed by MixKey, too.",
        "9.2",
    ),
    "LongName": ("The protocol name has more than 32 bytes: it is hashed.", "5.2"),
    "EmptyPrologue": ("The prologue is empty: MixHash is called all the same.", "5.3"),
    "Prologue": ("There is a prologue.", "6"),
    "LongPrologue": ("The prologue has 65535 bytes.", "6"),
    "LongestPayload": ("The messages of the handshake have 65535 bytes.", "3"),
    "TransportSizes": ("Transport messages of many lengths, up to 65535 bytes.", "3"),
    "Rekey": ("Each direction is rekeyed after some messages.", "11.3"),
    "HighNonce": ("A transport message at a nonce that is set.", "11.4"),
    "Lengths": ("Prologues, payloads and transport messages of 0 to 130 bytes.", "5.2"),
    "LowOrderKey": ("The DH result is all zeros: a party refuses, or goes on with the zeros.", "12.1"),
    "NonCanonicalKey": (
        "A public key isn't the least number of its point. X25519 takes it, and its bytes are hashed as they are.",
        "12.1",
    ),
    "MessageCut": ("A message of the handshake without its last bytes.", "5.3"),
    "ByteAppended": ("A message of the handshake with a byte more.", "5.3"),
    "TagChanged": ("A tag of a message of the handshake is changed.", "5.3"),
    "TagEndChanged": ("The last byte of a tag of a message of the handshake is changed.", "5.3"),
    "EncryptedKeyChanged": ("An encrypted static key is changed.", "5.3"),
    "PayloadChanged": ("An encrypted payload is changed.", "5.3"),
    "ClearKeyChanged": (
        "A public key in the clear is changed: the first tag after it is wrong, at the reader or at the other party.",
        "5.3",
    ),
    "ClearPayloadChanged": ("A payload in the clear is changed: the first tag after it is wrong.", "5.3"),
    "RightAfterRefused": ("After a refused message the handshake has ended: the right message is refused, too.", "5"),
    "Reflected": ("A party gets its own message.", "5.3"),
    "Repeated": ("A message of the handshake comes again.", "5.3"),
    "OutOfOrder": ("A later message of the handshake comes too early.", "5.3"),
    "WriteOutOfTurn": ("A party writes where it has to read. That is refused.", "5.3"),
    "ReadOutOfTurn": ("A party reads where it has to write. That is refused.", "5.3"),
    "WrongPrologue": ("The other party has another prologue.", "6"),
    "WrongPsk": ("The other party has another psk.", "9"),
    "WrongPattern": ("The other party has another pattern.", "8"),
    "TransportCut": ("A transport message without its last bytes. It changes nothing: the right one opens.", "5.1"),
    "TransportChanged": ("A transport message is changed. It changes nothing: the right one opens.", "5.1"),
    "TransportByteAppended": ("A transport message with a byte more. It changes nothing: the right one opens.", "5.1"),
    "TransportReordered": (
        "Transport messages in another order: what isn't due is refused, and changes nothing.",
        "5.1",
    ),
    "TransportRepeated": ("A transport message comes again. It is refused, and changes nothing.", "5.1"),
    "TransportLost": ("A transport message is lost: the next one is refused.", "5.1"),
    "TransportReflected": ("A party gets its own transport message. It changes nothing: the right one opens.", "5.2"),
    "HandshakeInTransport": ("A message of the handshake comes as a transport message. It changes nothing.", "5.1"),
    "OneWayAnswer": ("In a one-way pattern the responder sends nothing.", "7.4"),
    "RightStart": ("A right set-up, and its handshake.", "5.3"),
    "NameTaken": ("A protocol name that is none has to be refused.", "8"),
    "ModifierTaken": ("A pattern's modifiers are none, or in another order.", "8.1, 9.4"),
    "PatternTaken": ("A pattern breaks a rule, or isn't that of its name.", "7.1, 7.3, 9.3, 9.4"),
    "KeyMissing": ("A key is missing that the pattern needs: the start, or a later step, is refused.", "5.3"),
    "KeySuperfluous": ("There is a key that the pattern hasn't: it is refused, or changes nothing.", "5.3"),
    "KeyLengthTaken": ("A key, or a psk, hasn't 32 bytes.", "9, 12.1"),
    "PskMissing": ("There are fewer psks than psk tokens.", "9"),
    "PskSuperfluous": ("There are more psks than psk tokens: that is refused, or changes nothing.", "9"),
    "Frame": ("A message in a frame: after its length, in 2 big-endian bytes.", "13"),
    "FrameCut": ("A frame that isn't whole: its reader waits for more.", "13"),
}


# What the standard leaves to whoever calls: a failure is to be known of, and may be meant.
CHOICES = ("RightAfterRefused", "HandshakeGoesOn", "OneWayAnswer")
SITE = "https://noiseprotocol.org/noise.html#"
# The anchors of the standard's sections.
ANCHORS = {
    "3": "message-format", "4.2": "cipher-functions", "4.3": "hash-functions", "5": "processing-rules",
    "5.1": "the-cipherstate-object", "5.2": "the-symmetricstate-object", "5.3": "the-handshakestate-object",
    "6": "prologue", "7.1": "handshake-pattern-basics", "7.3": "handshake-pattern-validity",
    "7.4": "one-way-handshake-patterns", "7.5": "interactive-handshake-patterns-fundamental",
    "7.6": "interactive-handshake-patterns-deferred", "8": "protocol-names-and-modifiers",
    "8.1": "handshake-pattern-name-section", "9": "pre-shared-symmetric-keys", "9.2": "handshake-tokens",
    "9.3": "validity-rule", "9.4": "pattern-modifiers", "11.2": "channel-binding", "11.3": "rekey",
    "11.4": "out-of-order-transport-messages", "12.1": "the-25519-dh-functions",
    "12.3": "the-chachapoly-cipher-functions", "13": "application-responsibilities",
}  # fmt: skip
FLYNN, SNOW = "https://pkg.go.dev/vuln/GO-2022-0425", "https://rustsec.org/advisories/RUSTSEC-2024-0011.html"
# Public reports of such a fault in another implementation, and what else is to be read.
REPORTS = {
    "NonceRisesAtRefusal": [FLYNN, SNOW], "TransportChanged": [FLYNN, SNOW], "ReservedNonceUsed": [FLYNN],
    "ReservedNonceRead": [FLYNN], "NonceWraps": [FLYNN],
    "LowOrderKey": ["https://www.rfc-editor.org/rfc/rfc7748#section-6.1"],
    "NonCanonicalKey": ["https://www.rfc-editor.org/rfc/rfc7748#section-5"],
    "TagNotChecked": ["https://www.rfc-editor.org/rfc/rfc8439#section-2.8"],
}


def kind_of(flag: str) -> str:
    return "choice" if flag in CHOICES else "mistake" if flag in MISTAKES else "case"


def notes(used: set[str]) -> dict[str, dict[str, Any]]:
    """What the flags that are used mean."""
    all_flags = FLAGS | MISTAKES
    assert used <= all_flags.keys(), used - all_flags.keys()
    return {
        flag: {
            "kind": kind_of(flag), "description": text, "section": section,
            "links": [*(SITE + ANCHORS[it] for it in section.split(", ")), *REPORTS.get(flag, [])],
        }
        for flag, (text, section) in all_flags.items()
        if flag in used
    }

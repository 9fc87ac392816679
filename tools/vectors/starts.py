"""Set-ups that have to be refused: names, patterns, keys and psks. Each names its place as the command says it, and
beside them are right ones, so that who refuses all of them fails, too."""

from __future__ import annotations

import re
import subprocess
from typing import Any

from command import Command
from group import Group, other
from patterns import ROLES, SUITE, Protocol

Test = dict[str, Any]
NAMES = (
    ("noise_XX" + SUITE, "the first word in lower case"), ("NOISE_XX" + SUITE, "the first word in upper case"),
    ("XX" + SUITE, "without its first word"), ("Noise_" + SUITE[1:], "without a pattern"),
    ("Noise_" + SUITE, "an empty pattern"), ("Noise_xx" + SUITE, "a pattern in lower case"),
    ("Noise_XX", "a pattern alone"), ("Noise_XX_25519", "without a cipher and a hash"),
    ("Noise_XX_25519_ChaChaPoly", "without a hash"), ("Noise_XX" + SUITE + "_", "one more separator"),
    ("Noise_XX" + SUITE + "_SHA256", "one more part"), ("Noise_XX" + SUITE + " ", "a space after it"),
    (" Noise_XX" + SUITE, "a space before it"),
    ("Noise_XX_X25519_ChaChaPoly_SHA256", "a DH function that isn't one"),
    ("Noise_XX_25519_chachapoly_SHA256", "the cipher in lower case"),
    ("Noise_XX_25519_ChaChaPoly_SHA-256", "the hash with a hyphen"), ("Noise-XX" + SUITE, "another separator"),
    ("Noise_ZZ" + SUITE, "a pattern that isn't one"), ("Noise_XXX" + SUITE, "a pattern that isn't one"),
    ("Noise_Xx" + SUITE, "a pattern with a small letter"), ("Noise_X" + "X" * 240 + SUITE, "more than 255 bytes"),
)  # fmt: skip
MODIFIERS = (
    ("XXpsk", "a modifier without a number"), ("XXpsk4", "psk4 of three messages"), ("Npsk2", "psk2 of one message"),
    ("NNpsk3", "psk3 of two messages"), ("XXpsk2+psk0", "modifiers in another order"),
    ("XXpsk0psk2", "modifiers without a plus"), ("XXpsk0+psk0", "a modifier twice"), ("XX+psk0", "a plus before it"),
    ("XXpsk0+", "a plus after it"), ("XXpsk0++psk2", "two pluses"), ("XXPSK0", "a modifier in upper case"),
    ("XXpsk-1", "a number with a sign"), ("XXpsk00", "a number of two digits"), ("XXpsk0+0", "a number alone"),
    ("XXpsk0+unknown", "a modifier that isn't one"), ("XXpsk0+qsk1", "a modifier that isn't one"),
    ("psk0", "a modifier alone"),
)  # fmt: skip
RIGHT_NAMES = ("NN", "XX", "IK", "N", "XXpsk3", "NNpsk0+psk2", "XXpsk0+psk1+psk2+psk3", "Xpsk1")
# What breaks a rule of 7.3 or 9.3, or the form of a pattern: the section, the lines, what is wrong.
PATTERNS = (
    ("7.3", "PA:/  -> e/  <- e, ee, es", "a DH of a key that isn't there"),
    ("7.3", "PB:/  -> ee/  <- e", "a DH of keys that aren't there"),
    ("7.3", "PC:/  -> e, es/  <- e, ee", "a DH of a key that isn't known beforehand"),
    ("7.3", "PD:/  <- s/  .../  -> e, se/  <- e", "a DH before its second key"),
    ("7.3", "PE:/  -> e/  <- e, e", "an ephemeral key twice"),
    ("7.3", "PF:/  -> e/  <- e/  -> e", "an ephemeral key twice, in two messages"),
    ("7.3", "PG:/  -> e, s/  <- e, ee/  -> s, se", "a static key twice"),
    ("7.3", "PH:/  -> s/  .../  -> e, s/  <- e, ee", "a static key that is known beforehand"),
    ("7.3", "PI:/  -> e/  .../  -> e/  <- e, ee", "an ephemeral key that is known beforehand"),
    ("7.3", "PJ:/  -> e/  <- e, ee, ee", "a DH twice in a message"),
    ("7.3", "PK:/  -> e/  <- e, ee/  -> ee", "a DH twice, in two messages"),
    ("7.3", "PL:/  <- s/  .../  -> e, es/  <- e, es", "a DH twice, with more keys between"),
    ("7.3", "PM:/  -> s/  <- s/  .../  -> e, ss/  <- e, ee, se", "ss, and no es, before the initiator encrypts"),
    ("7.3", "PN:/  -> s/  <- s/  .../  -> e, es, ss/  <- ee, e", "ee before its second key"),
    ("7.3", "PO:/  -> e, s/  <- e, se", "se, and no ee, before the initiator's transport messages"),
    ("7.3", "PP:/  <- s/  .../  -> e/  <- e, es", "es, and no ee, before the responder encrypts"),
    ("7.3", "PQ:/  -> s/  <- s/  .../  -> e, es/  <- e, ee, se, ss/  -> s", "a static key that is known beforehand"),
    ("7.3", "PQQ:/  -> s/  <- s/  .../  -> e, es, ss/  <- e, ee", "ss, and no se, before the responder encrypts"),
    ("7.3", "PRR:/  -> e/  <- e, ee, se/  -> s", "a DH before its first key"),
    ("7.3", "PSS:/  -> s/  <- s/  .../  -> e, ss/  <- e, ee, se, es", "ss, and es later than the initiator encrypts"),
    ("9.3", "PRpsk0:/  -> psk, s/  <- e, se/  -> e, ee", "a psk, and e later than the initiator encrypts"),
    ("9.3", "PSpsk1:/  -> e, psk/  <- s", "a psk, and no e, before the responder encrypts"),
    ("9.3", "PRSpsk0:/  -> psk, s, e/  <- e, ee, se", "a psk, and e later than the initiator's s"),
    ("9.3", "PTpsk1:/  <- s/  .../  -> e, psk/  <- ee, e", "ee before its second key"),
    ("9.4", "QApsk1:/  -> e/  <- e, ee", "a modifier, and no psk"),
    ("9.4", "QA:/  -> psk, e/  <- e, ee", "a psk, and no modifier"),
    ("9.4", "QApsk0:/  -> e, psk/  <- e, ee", "a psk at the end of message 1, and psk0"),
    ("9.4", "QApsk2:/  -> e, psk/  <- e, ee", "a psk at the end of message 1, and psk2"),
    ("9.4", "QApsk1:/  -> e, psk/  <- e, ee, psk", "two psks, and one modifier"),
    ("8.1", "Qa:/  -> e/  <- e, ee", "a name with a small letter"),
    ("8", f"{'Q' * 240}:/  -> e/  <- e, ee", "a protocol name of more than 255 bytes"),
    ("7.1", "PYY:/  <- s, e/  .../  -> e, ee", "a pre-message in another order"),
    ("7.1", "PYZ:/  <- s, s/  .../  -> e, es/  <- e, ee", "a key twice in a pre-message"),
    ("7.1", "PU:/  -> e, x/  <- e, ee", "a token that isn't one"),
    ("7.1", "PV:/  -> e, E/  <- e, ee", "a token in upper case"),
    ("7.1", "PW:/  -> e/  -> e, ee", "two messages of a party, one after the other"),
    ("7.1", "PX:/  <- e/  -> e, ee", "the responder begins"),
    ("7.1", "PY:/  -> ee/  .../  -> e/  <- e", "a DH in a pre-message"),
    ("7.1", "PZ:/  <- s/  ...", "no messages"),
)
RIGHT_PATTERNS = (
    "PA:/  -> e/  <- e, ee/  -> s, se/  <- s, es", "PB:/  -> s/  <- s/  .../  -> e, es, ss/  <- e, ee, se",
    "PCpsk0+psk2:/  -> psk, e/  <- e, ee, psk", "PD:/  -> e/  .../  -> s/  <- e, ee, se, s, es",
)


def told(comment: str, flag: str, result: str, what: str, place: str, setup: dict[str, Any], role: str) -> Test:
    more = {"place": place} if place else {}
    parties = {it: setup.get(it, {}) for it in ROLES}
    return {
        "tcId": 0, "comment": comment, "flags": [flag], "result": result, "what": what, **more, "role": role,
        "protocol": setup["protocol"], "pattern": setup["pattern"], "prologue": "", "psks": setup["psks"], **parties,
        "steps": [{"do": "start"}],
    }  # fmt: skip


def with_optional(test: Test, most: int = 99) -> Test:
    """The test, of which the first steps may be refused."""
    steps = test["steps"]
    return test | {"steps": [*(step | {"optional": True} for step in steps[:most]), *steps[most:]]}


def asked(command: Command, word: str, text: str, more: str = "") -> str:
    """What the command says is wrong; nothing if it finds nothing."""
    done = subprocess.run([command.program, word, *([more] if more else ["-"])], input=text.encode(),
                          capture_output=True, check=False)
    said = (done.stdout + done.stderr).decode().strip()
    return said.splitlines()[0] if done.returncode else ""


def full_setup(group: Group) -> dict[str, Any]:
    return {it: group.as_json()[it] for it in ("protocol", "pattern", "psks", *ROLES)}


def names(command: Command, groups: dict[str, Group]) -> list[Test]:
    made = []
    base = full_setup(groups["XXpsk0+psk3"])
    wrong = [(name, what, "NameTaken") for name, what in NAMES]
    wrong += [(f"Noise_{section}{SUITE}", what, "ModifierTaken") for section, what in MODIFIERS]
    for name, what, flag in wrong:
        place = asked(command, "show", "", name)
        assert place, name
        setup = base | {"protocol": name, "psks": base["psks"][: len(re.findall(r"sk\d", name))]}
        made.append(with_optional(told(f"a name: {what}", flag, "invalid", "name", place, setup, "initiator")))
    for section in RIGHT_NAMES:
        group = groups[section]
        made += [begun(group, role, f"the name of {section}", "RightStart", "name") for role in ROLES]
    return made


def begun(group: Group, role: str, comment: str, flag: str, what: str) -> Test:
    """A right set-up, with the whole handshake."""
    return told(comment, flag, "valid", what, "", full_setup(group), role) | {"steps": handshake(group, role)}


def handshake(group: Group, role: str) -> list[dict[str, Any]]:
    steps: list[dict[str, Any]] = [{"do": "start"}]
    for message in group.messages[: group.handshake]:
        data, payload = message.data.hex(), message.payload.hex()
        if message.sender == role:
            steps.append({"do": "write", "payload": payload, "is": data})
        else:
            steps.append({"do": "read", "bytes": data, "payload": payload})
    return steps


def patterns(command: Command, groups: dict[str, Group]) -> list[Test]:
    made = []
    for section, text, what in PATTERNS:
        heading, *lines = text.split("/")
        place = asked(command, "check", text.replace("/", "\n") + "\n")
        assert place, text
        keys = {role: full_setup(groups["KK"])[role] for role in ROLES}
        setup = {
            "protocol": f"Noise_{heading[:-1]}{SUITE}", "pattern": [it.strip() for it in lines],
            "psks": ["00" * 32] * sum(it.count("psk") for it in lines),
        } | keys  # fmt: skip
        for role in ROLES:
            test = told(f"a pattern: {what} ({section})", "PatternTaken", "invalid", "pattern", place, setup, role)
            made.append(with_optional(test))
    return made


def right_patterns(command: Command, of: Any) -> list[Test]:
    made = []
    for number, text in enumerate(RIGHT_PATTERNS):
        group = Group(command, f"right pattern {number}", of(text, ""), [], transport=())
        made += [begun(group, role, f"a pattern: {group.protocol.section}", "RightStart", "pattern") for role in ROLES]
    return made


def keys(groups: dict[str, Group]) -> list[Test]:
    made = []
    for section in ("NK", "KN", "XX", "IK", "KK", "X", "IKpsk2"):
        group = groups[section]
        for role in ROLES:
            own = full_setup(group)[role]
            made.append(begun(group, role, f"{section}: all keys", "RightStart", "keys"))
            for letter, what in (("s", "its static key pair"), ("rs", "the other party's static key")):
                if letter in own:
                    made += [lacking(group, role, letter, f"{section}: {what}")]
                elif letter == "s" or "s" not in group.protocol.own(other(role)):
                    made.append(superfluous(group, role, letter, f"{section}: {what}"))
    return made


def lacking(group: Group, role: str, letter: str, what: str) -> Test:
    setup = full_setup(group)
    setup[role] = {it: key for it, key in setup[role].items() if it != letter}
    test = told(f"{what} is missing", "KeyMissing", "invalid", "keys", letter, setup, role)
    return with_optional(test | {"steps": handshake(group, role)})


def superfluous(group: Group, role: str, letter: str, what: str) -> Test:
    setup = full_setup(group)
    setup[role] = setup[role] | {letter: group.public("initiator", "e").hex()}
    test = told(f"{what}, which the pattern hasn't", "KeySuperfluous", "acceptable", "keys", letter, setup, role)
    return with_optional(test | {"steps": handshake(group, role)}, 1)


def key_lengths(groups: dict[str, Group]) -> list[Test]:
    """Keys of other lengths than 32 bytes (12.1), and psks (9)."""
    made = []
    for section, letter, role in (("IK", "rs", "initiator"), ("IK", "s", "responder"), ("NNpsk0", "psk", "initiator")):
        for length in (0, 31, 33):
            setup, group = full_setup(groups[section]), groups[section]
            if letter == "psk":
                setup["psks"] = [(bytes.fromhex(setup["psks"][0]) + b"\1")[:length].hex()]
            else:
                setup[role] = setup[role] | {letter: (bytes.fromhex(setup[role][letter]) + b"\1")[:length].hex()}
            test = told(
                f"{section}: {letter} has {length} bytes", "KeyLengthTaken", "invalid", "lengths", letter, setup, role
            )
            made.append(with_optional(test | {"steps": handshake(group, role)}))
    return made


def psks(groups: dict[str, Group]) -> list[Test]:
    made = []
    for section in ("NNpsk0", "XXpsk3", "XXpsk0+psk3", "IKpsk2", "Npsk0"):
        group = groups[section]
        for role in ROLES:
            setup = full_setup(group)
            made.append(begun(group, role, f"{section}: all psks", "RightStart", "psks"))
            for count in range(len(group.psks)):
                test = told(
                    f"{section}: {count} psks in place of {len(group.psks)}", "PskMissing", "invalid", "psks", "psks",
                    setup | {"psks": setup["psks"][:count]}, role,
                )
                made.append(with_optional(test | {"steps": handshake(group, role)}))
            test = told(
                f"{section}: a psk more than the pattern has", "PskSuperfluous", "acceptable", "psks", "psks",
                setup | {"psks": [*setup["psks"], "11" * 32]}, role,
            )
            made.append(with_optional(test | {"steps": handshake(group, role)}, 1))
    return made


def groups_of(command: Command, by: dict[str, Protocol], of: Any) -> list[dict[str, Any]]:
    """The groups of set-ups: `by` are the protocols by their sections, and `of` reads a pattern's text."""
    wanted = {*RIGHT_NAMES[:6], *RIGHT_NAMES[7:], "NK", "KN", "KK", "X", "IKpsk2", "NNpsk0", "XXpsk0+psk3", "Npsk0"}
    groups = {it: Group(command, f"{it}, start", by[it], [], lengths=(2,), transport=()) for it in wanted}
    four = f"{RIGHT_NAMES[6]}:/  -> psk, e, psk/  <- e, ee, s, es, psk/  -> s, se, psk"
    groups[RIGHT_NAMES[6]] = Group(command, "four psks, start", of(four, ""), [], lengths=(2,), transport=())
    made = {
        "names (8)": names(command, groups),
        "patterns (7.1, 7.3, 9.3)": patterns(command, groups) + right_patterns(command, of),
        "keys (5.3)": keys(groups) + key_lengths(groups),
        "psks (9)": psks(groups),
    }
    return [{"type": "NoiseStart", "comment": f"set-ups: {what}", "tests": tests} for what, tests in made.items()]

"""The tests of a group: both parties in the right conversation, and each kind of message that has to be refused."""

from __future__ import annotations

from typing import NamedTuple

import forged
from group import Group, Setup, other
from patterns import LETTERS, ROLES, SUITE, Protocol
from steps import Step, add, bytes_of, fresh, judged, right


class Piece(NamedTuple):
    """A piece of a message: its kind, its token's number, where it begins, how long it is, and whether it ends with a
    tag."""

    kind: str
    token: int
    start: int
    length: int
    is_sealed: bool

    @property
    def end(self) -> int:
        return self.start + self.length


def pieces(group: Group, number: int) -> list[Piece]:
    """The pieces of a message: keys are encrypted, and payloads, once a key has been mixed (5.2)."""
    protocol = group.protocol
    has_psk, is_keyed = bool(protocol.psks), False
    is_keyed = has_psk and any("e" in protocol.before(role) for role in ROLES)
    for at, tokens in enumerate(protocol.messages[: number + 1]):
        found, start = list[Piece](), 0
        for token, name in enumerate(tokens):
            if name in LETTERS:
                length = 32 + 16 * (name == "s" and is_keyed)
                found.append(Piece(name, token, start, length, name == "s" and is_keyed))
                start += length
            is_keyed = is_keyed or name not in LETTERS or name == "e" and has_psk
        found.append(Piece("payload", len(tokens), start, len(group.messages[at].data) - start, is_keyed))
    return found


def reads(group: Group) -> list[tuple[str, int]]:
    """Who reads which message of the handshake."""
    return [(other(group.messages[number].sender), number) for number in range(group.handshake)]


def positive(group: Group) -> None:
    """Both parties, each alone; with long messages both together."""
    count = len(group.messages)
    is_long = any(len(it.data) >= 600 for it in group.messages)
    for role in ("both",) if is_long else ROLES:
        who = "both parties" if role == "both" else f"the {role}"
        add(group, role, f"{group.name}: {who}", group.flags, with_hash(group, role, right(group, role, count)))


def looks(group: Group) -> None:
    """What a party says after the handshake, and again after transport messages: the hash doesn't move, and the other
    party's static key is the right one."""
    last = len(group.messages)
    for role in ROLES:
        steps = right(group, role, last)
        hashes = [*steps[: group.handshake], {"do": "hash"}, *steps[group.handshake :], {"do": "hash"}]
        add(group, role, f"{group.name}: the hash, before and after transport messages", ["HashMoves"], hashes)
        if "s" in group.protocol.own(other(role)):
            remote = {"do": "remote", "is": group.public(other(role), "s").hex()}
            steps = [*steps[: group.handshake], remote]
            add(
                group, role, f"{group.name}: the other party's static key, after the handshake", ["RemoteKeyWrong"],
                steps,
            )


def with_hash(group: Group, role: str, steps: list[Step]) -> list[Step]:
    """The steps, with a look at the handshake hash after the last message of the handshake."""
    at = group.handshake * (2 if role == "both" else 1)
    looks = [{"role": it, "do": "hash"} for it in ROLES] if role == "both" else [{"do": "hash"}]
    return steps[:at] + looks + steps[at:]


def refusal(
    group: Group, role: str, number: int, comment: str, flag: str, change: Step, then_right: bool = False
) -> None:
    """A party reads a changed message, which it has to refuse; afterwards, perhaps, the right one."""
    read = {"do": "read"} if "bytes" in change else {"do": "read", "message": number}
    steps = right(group, role, number) + [read | change]
    if then_right:
        steps.append({"do": "read", "message": number})
    done = judged(group, role, steps)
    if done and "refused" in done[number]:
        add(group, role, comment, [flag], done)


def cuts(group: Group) -> None:
    """Each message without its last byte, and cut before the end of each piece and of each encrypted text."""
    for role, number in reads(group):
        whole, lengths = len(group.messages[number].data), {0}
        for piece in pieces(group, number):
            lengths |= {piece.start, piece.end - 1} | ({piece.end - 16, piece.end - 17} if piece.is_sealed else set())
        for length in sorted(it for it in lengths if 0 <= it < whole):
            refusal(
                group, role, number, f"message {number + 1}, the first {length} of {whole} bytes", "MessageCut",
                {"cut": length},
            )


def sealed_changes(group: Group) -> None:
    """Each encrypted text changed: its first byte, its last, and its tag."""
    flags = {"s": "EncryptedKeyChanged", "payload": "PayloadChanged"}
    for role, number in reads(group):
        for piece in pieces(group, number):
            if not piece.is_sealed:
                continue
            places = {
                "first byte": piece.start, "last byte": piece.end - 17, "tag's first byte": piece.end - 16,
                "tag's last byte": piece.end - 1,
            }
            for what, at in places.items():
                if at < piece.start or what == "last byte" and at == piece.start:
                    continue
                flag = (
                    "TagEndChanged"
                    if at == piece.end - 1
                    else "TagChanged"
                    if at >= piece.end - 16
                    else flags[piece.kind]
                )
                change = changed_piece(group, number, piece, at, 1 << at % 8)
                refusal(group, role, number, f"message {number + 1}: {piece.kind}, the {what}", flag, change)
        refusal(group, role, number, f"message {number + 1}: a byte more", "ByteAppended", {"append": "00"})


def changed_piece(group: Group, number: int, piece: Piece, at: int, mask: int) -> Step:
    """A message whose encrypted text is changed; after an `s` the rest is sealed for the change."""
    if piece.kind == "payload":
        return {"xor": [at, mask]}
    return {"bytes": forged.changed(group, number, piece, at, mask).hex()}


def tag_bits(group: Group, number: int, kind: str) -> None:
    """Each bit of a tag changed, in a test of its own."""
    role = other(group.messages[number].sender)
    piece = next(it for it in pieces(group, number) if it.kind == kind and it.is_sealed)
    for bit in range(128):
        at = piece.end - 16 + bit // 8
        flag = "TagEndChanged" if bit >= 64 else "TagChanged"
        refusal(
            group, role, number, f"message {number + 1}: {kind}, the tag's byte {bit // 8}, bit {bit % 8}", flag,
            changed_piece(group, number, piece, at, 1 << bit % 8),
        )


def ended(group: Group) -> None:
    """After a refused message the handshake has ended: the right message is refused, too (5)."""
    for role, number in reads(group):
        last = len(group.messages[number].data) - 1
        for what, change in (
            ("a changed byte", {"xor": [last, 128]}), ("a missing byte", {"cut": last}), ("no byte", {"cut": 0}),
        ):
            refusal(
                group, role, number, f"message {number + 1} with {what}, then the right one", "RightAfterRefused",
                change, True,
            )


def out_of_turn(group: Group) -> None:
    """Messages that aren't due: repeated, the party's own, later ones; and a write where a read is due."""
    for number in range(group.handshake):
        sender = group.messages[number].sender
        reader = other(sender)
        if number:
            own = number - 1
            add_judged(
                group, reader, f"message {own + 1}, its own, in place of message {number + 1}", "Reflected", number,
                {"message": own},
            )
        if number >= 2:
            add_judged(
                group, reader, f"message {number - 1} again, in place of message {number + 1}", "Repeated", number,
                {"message": number - 2},
            )
        if number + 2 < group.handshake:
            add_judged(
                group, reader, f"message {number + 3} in place of message {number + 1}", "OutOfOrder", number,
                {"message": number + 2},
            )
        add_turn(group, sender, reader, number)


def add_judged(group: Group, role: str, comment: str, flag: str, number: int, step: Step) -> None:
    data = bytes_of(group, step)  # what stands for keys in it has DH results, too
    done = judged(
        group, role, right(group, role, number) + [{"do": "read"} | step],
        met=[data[:32].ljust(32), data[32:64].ljust(32)],
    )
    if done and "refused" in done[-1]:
        add(group, role, comment, [flag], done)


def add_turn(group: Group, sender: str, reader: str, number: int) -> None:
    """A party does the other thing than what is due, and then what is due: whether that still succeeds, the standard
    doesn't say."""
    due = {"do": "read", "message": number, "optional": True}
    done = judged(group, reader, right(group, reader, number) + [{"do": "write", "message": number}, due])
    add(
        group, reader, f"it writes where message {number + 1} is to be read, and then reads it", ["WriteOutOfTurn"],
        done,
    )
    due = {"do": "write", "message": number, "optional": True}
    read = {"do": "read", "bytes": forged.out_of_turn(group, sender, number).hex()}
    done = judged(group, sender, right(group, sender, number) + [read, due])
    add(
        group, sender, f"it reads where message {number + 1} is to be written, and then writes it", ["ReadOutOfTurn"],
        done,
    )


class Conversation:
    """Two parties with set-ups of their own, whose messages pass until one is refused. `changes` are those of messages
    on the way."""

    def __init__(self, group: Group, setups: dict[str, Setup], changes: dict[int, Step]) -> None:
        self.group, self.setups, self.changes = group, setups, changes
        self.steps: dict[str, list[Step]] = {role: [] for role in ROLES}
        self.met: dict[str, list[bytes]] = {role: [] for role in ROLES}

    def judge(self, role: str) -> list[Step] | None:
        return judged(self.group, role, self.steps[role], self.setups.get(role), self.met[role])

    def run(self) -> tuple[str, list[Step]] | None:
        """Who refuses, and its steps; None if nobody does."""
        for number, message in enumerate(self.group.messages):
            sender, reader = message.sender, other(message.sender)
            self.steps[sender].append({"do": "write", "message": number})
            done = self.judge(sender)
            if done is None or "refused" in done[-1]:
                return None
            self.steps[reader].append(self.read(number, done[-1]))
            read = self.judge(reader)
            if read is None:
                return None
            if "refused" in read[-1]:
                return reader, read
        return None

    def read(self, number: int, written: Step) -> Step:
        step: Step = {"do": "read", "message": number} | self.changes.get(number, {})
        if "is" in written:
            step = {"do": "read", "bytes": written["is"]}
        return step


def clear_changes(group: Group) -> None:
    """A key or a payload in the clear changed: its reader accepts it, and the first encrypted text after it is
    refused."""
    for reader, number in reads(group):
        for piece in pieces(group, number):
            if piece.is_sealed or not piece.length:
                continue
            for at, mask in ((piece.start, 1), (piece.end - 1, 64)):
                changed_later(group, reader, number, piece, {"xor": [at, mask]})
        if not pieces(group, number)[-1].is_sealed:
            changed_later(group, reader, number, pieces(group, number)[-1], {"append": "00"})


def changed_later(group: Group, reader: str, number: int, piece: Piece, change: Step) -> None:
    conversation = Conversation(group, {}, {number: change})
    data = bytes_of(group, {"message": number} | change)
    if piece.kind in LETTERS:
        conversation.met[reader].append(data[piece.start : piece.end])
    found = conversation.run()
    if not found:
        return
    what = {"e": "an ephemeral key", "s": "a static key", "payload": "a payload"}[piece.kind]
    at = "with a byte more" if "append" in change else f"changed at byte {change['xor'][0]}"
    role, steps = found
    last = f"refused at {steps[-1].get('at', 'the transport')} of message {len(steps)}"
    name = "ClearPayloadChanged" if piece.kind == "payload" else "ClearKeyChanged"
    add(group, role, f"{what} in the clear, {at} in message {number + 1}: {last}", [name], steps)
    accepted = [it for it in conversation.steps[reader]] if role != reader else []
    if accepted:
        add(
            group, reader, f"{what} in the clear, {at} in message {number + 1}: not refused here", [name],
            conversation.judge(reader),
        )


def other_setups(group: Group) -> None:
    """The parties don't have the same prologue or psks, or the other party's key is another one."""
    changed = {"WrongPrologue": Setup(group.protocol, group.prologue[:65534] + b"\0", group.psks)}
    for number in range(len(group.psks)):
        psks = [fresh(group.name, number) if it == number else psk for it, psk in enumerate(group.psks)]
        changed[f"WrongPsk {number + 1}"] = Setup(group.protocol, group.prologue, psks)
    for flag, setup in changed.items():
        for role in ROLES:
            found = Conversation(group, {other(role): setup}, {}).run()
            if found and found[0] == role:
                words = f"the other party has another {'prologue' if flag == 'WrongPrologue' else 'psk'}"
                add(group, role, words, [flag.split(" ")[0]], found[1])


def other_pattern(group: Group, protocol: Protocol) -> None:
    """The other party has another pattern."""
    setup = Setup(protocol, group.prologue, group.psks)
    if not all(protocol.own(role) <= group.keys[role].keys() for role in ROLES):
        return
    for role in ROLES:
        found = Conversation(group, {other(role): setup}, {}).run()
        if found and found[0] == role:
            name = protocol.name.removeprefix("Noise_").removesuffix(SUITE)
            add(group, role, f"the other party's pattern is {name}", ["WrongPattern"], found[1])


def negative(group: Group) -> None:
    """All of these, for a group."""
    for kind in (cuts, sealed_changes, clear_changes, out_of_turn, ended, other_setups):
        kind(group)

"""The tests that are each for one mistake: messages of an implementation that makes it, which a right party has to
refuse; or a whole conversation, where the mistake doesn't come out in any message that a right party refuses."""

from __future__ import annotations

from typing import Any

from group import Group, other
from mistaken import MISTAKES, Party, Refused
from steps import add, is_renewed, judged, right

# What no message of a party that makes the mistake shows: these have tests of their own.
ELSEWHERE = (
    "ReservedNonceUsed", "ReservedNonceRead", "NonceWraps", "RekeyAtZeroOmitted", "HashMoves", "RemoteKeyWrong",
)  # fmt: skip
MOST = 2  # tests of a mistake for each party that makes it
MESSAGE = {True: "the transport message", False: "the message"}


def setup_of(group: Group) -> dict[str, Any]:
    """What a `Party` starts from."""
    return group.as_json() | {"prologue": group.prologue}


def wrong_message(group: Group, role: str, mistake: str) -> tuple[int, bytes] | None:
    """The first message of a party with a mistake that isn't the right one."""
    party = Party(setup_of(group), role, mistake)
    for number, message in enumerate(group.messages):
        try:
            if message.sender == role:
                written = party.write(message.payload)
                if written != message.data:
                    return number, written
            else:
                party.read(message.data)
        except Refused:
            return None
        if is_renewed(group, number):
            party.rekey("send" if message.sender == role else "receive")
    return None


def comes_through(group: Group, role: str, mistake: str) -> bool:
    """Whether a party with a mistake holds the right conversation."""
    party = Party(setup_of(group), role, mistake)
    try:
        for number, message in enumerate(group.messages):
            if message.sender == role:
                if party.write(message.payload) != message.data:
                    return False
            elif party.read(message.data) != message.payload:
                return False
            if is_renewed(group, number):
                party.rekey("send" if message.sender == role else "receive")
    except Refused:
        return False
    return party.hash().hex() == group.hash


def is_taken(group: Group, role: str, mistake: str, number: int, data: bytes) -> bool:
    """Whether a party with a mistake accepts the wrong message."""
    party = Party(setup_of(group), role, mistake)
    try:
        for at, message in enumerate(group.messages[:number]):
            if message.sender == role:
                party.write(message.payload)
            else:
                party.read(message.data)
            if is_renewed(group, at):
                party.rekey("send" if message.sender == role else "receive")
        party.read(data)
    except Refused:
        return False
    return True


def mistakes(groups: list[Group]) -> None:
    """Adds to each group the tests for mistakes; each mistake has at most MOST of a kind."""
    for mistake, (what, section) in MISTAKES.items():
        if mistake in ELSEWHERE:
            continue
        caught = False
        for role in ("initiator", "responder"):
            found = 0
            for group in groups:
                if found == MOST:
                    break
                reader = other(role)
                wrong = wrong_message(group, role, mistake)
                if not wrong or not is_taken(group, reader, mistake, *wrong):
                    continue
                number, data = wrong
                done = judged(group, reader, [*right(group, reader, number), {"do": "read", "bytes": data.hex()}])
                if done and "refused" in done[-1]:
                    which = f"{MESSAGE[number >= group.handshake]} {number + 1}"
                    comment = f"{which} of a party with this mistake: {what} ({section})"
                    add(group, reader, comment, [mistake], done)
                    found, caught = found + 1, True
        if not caught:
            flag_conversation(groups, mistake)


def flag_conversation(groups: list[Group], mistake: str) -> None:
    """Flags the right conversations in which a mistake comes out: of each party the first."""
    for role in ("initiator", "responder"):
        for group in groups:
            if not comes_through(group, role, mistake):
                tests = [
                    it
                    for it in group.tests
                    if it["role"] == role and it["result"] == "valid" and len(it["steps"]) >= len(group.messages)
                ]
                tests[0]["flags"] = [*tests[0]["flags"], mistake]
                break

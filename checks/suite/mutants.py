"""Changes plain.py in one place after another, and runs the suite with each: it has to fail a test.

    mutants.py SUITE.json [EVERY]    of each so-many-th mutant; the status is 1 if one escapes that isn't explained
"""

from __future__ import annotations

import json
import signal
import sys
import types
from functools import lru_cache
from pathlib import Path
from typing import Any

from cryptography.hazmat.primitives.asymmetric.x25519 import X25519PrivateKey

HERE = Path(__file__).resolve().parent
sys.path.insert(0, str(HERE.parent.parent / "examples" / "vectors-runners" / "python"))

import runner  # noqa: E402
from mutants_list import ESCAPES, MUTANTS  # noqa: E402

LIMIT = 300  # seconds of the processor, of a mutant that doesn't end
PLAIN = (HERE / "plain.py").read_text("utf-8")


class PrivateKey:
    """Private keys, each of which OpenSSL reads once for all mutants: that takes a millisecond."""

    from_private_bytes = staticmethod(lru_cache(None)(X25519PrivateKey.from_private_bytes))


class TooLong(BaseException):
    """A mutant doesn't end."""


def edited(mutant: tuple[str, str, str]) -> str:
    where, old, new = mutant
    start = PLAIN.index(where)
    at = PLAIN.index(old, start)
    return PLAIN[:at] + new + PLAIN[at + len(old) :]


def party_of(text: str) -> Any:
    """The party of a mutant."""
    module = types.ModuleType("mutant")
    sys.modules["mutant"] = module
    exec(compile(text, "mutant", "exec"), module.__dict__)
    setattr(module, "X25519PrivateKey", PrivateKey)
    return module.Party


def spread(tests: list[Any]) -> list[Any]:
    """The tests in another order, so that each kind soon has one."""
    return [test for first in range(97) for test in tests[first::97]]


def first_failing(tests: list[Any], party: Any) -> int:
    """The number of a test that fails; 0 if none does."""
    for group, test in tests:
        if runner.outcome(group, test, party)[0] == "failed":
            return test["tcId"]
    return 0


def caught(tests: list[Any], mutant: tuple[str, str, str]) -> bool:
    signal.setitimer(signal.ITIMER_VIRTUAL, LIMIT)
    try:
        return bool(first_failing(tests, party_of(edited(mutant))))
    except (TooLong, SyntaxError):
        raise ValueError(f"no mutant: {mutant}") from None
    finally:
        signal.setitimer(signal.ITIMER_VIRTUAL, 0)


def stop(*_: Any) -> None:
    raise TooLong


def main(words: list[str]) -> int:
    signal.signal(signal.SIGVTALRM, stop)
    groups = json.loads(Path(words[0]).read_text("ascii"))["testGroups"]
    tests = spread([(group, test) for group in groups for test in group["tests"]])
    if number := first_failing(tests, party_of(PLAIN)):
        print(f"mutants: test {number} fails without a change")
        return 1
    chosen = MUTANTS[:: int(words[1]) if len(words) > 1 else 1]
    assert len(set(MUTANTS)) == len(MUTANTS), "a mutant twice"
    escaped = [it for it in chosen if not caught(tests, it)]
    unexplained = [it for it in escaped if it not in ESCAPES]
    for it in escaped:
        print(f"mutants: escapes: {it}: {ESCAPES.get(it, 'not explained')}")
    print(f"mutants: {len(chosen) - len(escaped)} of {len(chosen)} are caught, {len(unexplained)} escape unexplained")
    return int(bool(unexplained))


if __name__ == "__main__":
    sys.exit(main(sys.argv[1:]))

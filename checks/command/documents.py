"""The documents of `--json`: Python reads each, and it says what the command prints without `--json`."""

import json

from program import run

COMMANDS = ("compare",)


def bytes_in(item):
    """The bytes of a text in a document; those that are no UTF-8 stand there in hexadecimal digits."""
    return bytes.fromhex(item["hex"]) if isinstance(item, dict) else item.encode()


def has_document(words, ran):
    """Whether a command writes a document when it is asked for one: its words are right, and its files can be read."""
    return (
        words[:1] and words[0] in COMMANDS and "--json" not in words and "--help" not in words
        and not ran.err.startswith(b"error: ") and ran.status < 3
    )


def lines_of(words, ran):
    """The lines that a document has: those of standard output, and of what `compare` refuses the first of standard
    error."""
    lines = ran.out.split(b"\n")[:-1]
    return lines + ran.err.split(b"\n")[:1] if words[0] == "compare" and ran.status == 2 else lines


def fault_in(words, folder, ran, given=None):
    """What is wrong with the document of a command that did this without `--json`; None where nothing is."""
    written = run([words[0], "--json", *words[1:]], folder, given=given)
    if written.status != ran.status or written.err:
        return f"status {written.status}, standard error {written.err[:200]!r}"
    try:
        document = json.loads(written.out.decode())
    except ValueError as error:
        return f"{error}: {written.out[:200]!r}"
    facts = (document["version"], document["command"], document["status"])
    if facts != (1, words[0], ran.status) or written.out.count(b"\n") != 1:
        return f"version, command, status: {facts}, in {written.out.count(b'%c' % 10)} lines"
    if [bytes_in(it) for it in document["text"]] != lines_of(words, ran):
        return f"text: {document['text']}"
    return None

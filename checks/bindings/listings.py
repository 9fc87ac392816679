#!/usr/bin/env python3
"""Writes the listing of README.md, the first ones of docs/GO.md and docs/RUST.md, and checks/bindings/programs with the
listings of docs/RUST.md in them, as modules that compile: listings.py FOLDER. It also compares the other listings of
docs/GO.md and docs/RUST.md with the tests that run them.

FOLDER/go and FOLDER/rust get the program; their go.mod, Cargo.toml and .cargo/config.toml are those of the page, with
the path of this repository.
"""
import re
import sys
import textwrap
from pathlib import Path

TOP = Path(__file__).resolve().parent.parent.parent


def write(path: Path, text: str) -> None:
    path.parent.mkdir(parents=True, exist_ok=True)
    path.write_text(text.replace("/path/to/this/repository", str(TOP)), encoding="utf-8")


README_MODULE = """package readme

import (
	"io"
	"os"

	"example.org/yulimosar/noise"
)

func listing() ([]byte, error) {
%s	return text, err
}
"""


def listings(page: str, language: str, folder: str = "docs") -> list[str]:
    """The blocks of a language."""
    text = (TOP / folder / page).read_text(encoding="utf-8")
    return re.findall(rf"^```{language}\n(.*?)^```$", text, re.S | re.M)


def indented(page: str, first: str) -> str:
    """The indented block that begins with a line."""
    text = (TOP / "docs" / page).read_text(encoding="utf-8")
    found = re.search(rf"^    {re.escape(first)}\n(?:(?:    .*)?\n)*", text, re.M)
    assert found, f"{page}: no listing begins with {first}"
    return re.sub(r"^    ", "", found[0], flags=re.M)


def stripped(text: str) -> str:
    """The lines without what is before them: indentation, and the mark of a comment of Rust."""
    return "\n".join(re.sub(r"^\s*(///)?\s*", "", line) for line in text.splitlines())


def stands(page: str, listing: str, test: str) -> None:
    """Whether a listing of a page stands in a test."""
    if stripped(listing) not in stripped((TOP / test).read_text(encoding="utf-8")):
        sys.exit(f"listings: {page}: {test} doesn't have\n{listing}")


def programs(folder: Path) -> None:
    """checks/bindings/programs, with the page's listings in the place of the comments that have their first lines."""
    by_line = {listing.splitlines()[0]: listing for listing in listings("RUST.md", "rust")}
    for path in (TOP / "checks/bindings/programs").rglob("*.*"):
        text = path.read_text(encoding="utf-8")
        for indentation, line in re.findall(r"^( *)// page: (.*)$", text, re.M):
            listing = textwrap.indent(by_line.pop(line), indentation)
            text = text.replace(f"{indentation}// page: {line}\n", listing)
        text = text.replace("../../../bindings/rust", str(TOP / "bindings/rust"))
        write(folder / path.relative_to(TOP / "checks/bindings/programs"), text)


def main() -> None:
    folder = Path(sys.argv[1])
    first, *others = listings("GO.md", "go")
    assert first == (TOP / "bindings/go/examples/hello/main.go").read_text(
        encoding="utf-8"
    ), "GO.md: the first listing isn't bindings/go/examples/hello"
    write(folder / "go/go.mod", indented("GO.md", "module example.org/hello"))
    write(folder / "go/main.go", first)
    (lines,) = listings("README.md", "go", ".")
    write(folder / "go/readme/readme.go", README_MODULE % textwrap.indent(lines, "\t"))
    for listing in others:
        stands("GO.md", listing, "bindings/go/example_test.go")
    write(folder / "rust/Cargo.toml", indented("RUST.md", "[package]"))
    write(folder / "rust/.cargo/config.toml", indented("RUST.md", "[source.crates-io]"))
    write(folder / "rust/src/main.rs", listings("RUST.md", "rust")[0])
    programs(folder / "programs")
    write(folder / "programs/.cargo/config.toml", indented("RUST.md", "[source.crates-io]"))
    for listing in listings("RUST.md", "rust")[1:]:
        stands("RUST.md", listing, "bindings/rust/tests/guide.rs")


main()

"""The names and numbers of the package are those of noise.h."""
import enum
import re
import shutil
import subprocess
from pathlib import Path

import pytest

import yulimosar
from yulimosar import Code, _noise, codes

HEADER = Path(__file__).resolve().parent.parent / "src" / "noise.h"


@pytest.fixture(scope="module")
def header() -> str:
    return re.sub(r"/\*.*?\*/", " ", HEADER.read_text(), flags=re.S)


def test_codes(header):
    named = re.search(r"enum noise_code \{(.*?)\}", header, re.S)[1]
    assert {name: int(number) for name, number in re.findall(r"NOISE_(\w+)\s*=\s*(\d+)", named)} \
        == {code.name: code.value for code in Code}


def test_sizes(header):
    sizes = re.findall(r"NOISE_(\w+)\s*=\s*(\d+)", re.search(r"enum \{(.*?)\}", header, re.S)[1])
    assert len(sizes) == 9
    for name, number in sizes:
        assert getattr(codes, name) == int(number), name


def test_tokens(header):
    named = re.search(r"enum noise_token \{(.*?)\}", header, re.S)[1]
    assert {int(number): name.lower() for name, number in re.findall(r"NOISE_TOKEN_(\w+)\s*=\s*(\d+)", named)} \
        == {number: name for number, name in enumerate(codes.TOKENS) if number}


def test_sentences():
    assert str(Code.OK) == "The call succeeded."
    assert str(Code.TAG) == "A tag is wrong: keys, psks or prologues differ, or bytes changed."
    assert str(Code.CUT) == "The connection ended before the stream did."
    assert len({str(code) for code in Code}) == len(Code)


def test_version(header):
    parts = re.findall(r"#define NOISE_VERSION_[A-Z]+ (\d+)", header)
    assert yulimosar.__version__ == ".".join(parts)


def test_the_extension_shows_only_its_beginning():
    """Else its calls could be those of another copy of the library in the process."""
    if shutil.which("nm") is None:
        pytest.skip("nm")
    listed = subprocess.run(["nm", "-D", "--defined-only", _noise.__file__], capture_output=True, text=True, check=True)
    assert [line.split()[-1] for line in listed.stdout.splitlines()] == ["PyInit__noise"]


def test_every_public_name_is_there():
    for name in yulimosar.__all__:
        assert getattr(yulimosar, name) is not None
        assert name in dir(yulimosar)
    with pytest.raises(AttributeError):
        yulimosar.nothing
    assert issubclass(Code, enum.IntEnum)

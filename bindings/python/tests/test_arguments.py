"""A wrong argument raises, whatever it is and wherever it stands, and doesn't crash the interpreter."""
import os
import shutil
import subprocess
import sys
from pathlib import Path

import pytest

import yulimosar

HERE = Path(__file__).resolve().parent


def interpreter(version):
    """One that can import the package, which is built for all of them."""
    found = shutil.which(f"python{version}")
    if found is None:
        pytest.skip(f"python{version}")
    ran = subprocess.run([found, "-c", "import cffi, yulimosar"], env=environment(), capture_output=True, text=True)
    if ran.returncode:
        pytest.skip(f"python{version} with cffi")
    return found


def environment():
    return {**os.environ, "PYTHONPATH": f"{Path(yulimosar.__file__).parent.parent}:{HERE}"}


def tried(python, *words):
    ran = subprocess.run([python, "-X", "faulthandler", HERE / "arguments.py", *words], env=environment(),
                         capture_output=True, text=True, timeout=300)
    assert ran.returncode == 0, ran.stderr[-3000:]
    raised, count = map(int, ran.stdout.split())
    assert count > 350 and raised > 320, ran.stdout


@pytest.mark.parametrize("words", [(), ("1",)], ids=["collected after each call", "collected at each new object"])
def test_every_argument_is_failed(words):
    tried(sys.executable, *words)


@pytest.mark.parametrize("words", [(), ("1",)], ids=["collected after each call", "collected at each new object"])
@pytest.mark.parametrize("version", ["3.12", "3.13"])
def test_every_argument_is_failed_by_another_python(version, words):
    tried(interpreter(version), *words)

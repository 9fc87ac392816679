"""python3 -m yulimosar connect, listen, keygen and pubkey."""
import concurrent.futures
import contextlib
import dataclasses
import os
import socket
import stat
import subprocess
import sys
import threading

import pytest
from toys import configs

from yulimosar import KeyPair, __main__, connect

SECONDS = 100
NOISECAT = os.environ.get("NOISECAT")    # the command of bindings/go, if it is there


def command(*words, **options):
    return subprocess.run([sys.executable, "-m", "yulimosar", *map(str, words)], capture_output=True, timeout=SECONDS,
                          **options)


@pytest.fixture
def keys(tmp_path):
    """Two key files, and the public keys."""
    made = {}
    for name in ("client", "server"):
        done = command("keygen", "-o", tmp_path / name)
        made[name] = tmp_path / name, done.stderr.decode().split()[-1]
    return made


def listen(*words, program=None):
    """A listener at a free port, and the port."""
    program = program or [sys.executable, "-m", "yulimosar", "listen", "127.0.0.1:0"]
    process = subprocess.Popen([*program, *map(str, words)], stdin=subprocess.PIPE, stdout=subprocess.PIPE,
                               stderr=subprocess.PIPE)
    line = process.stderr.readline().decode()
    assert line.startswith("listening on "), line + process.stderr.read().decode()
    return process, line.rsplit(":", 1)[1].strip()


def finish(process, data=b""):
    """Begins to read what a process says: what is returned waits for its status, its output and its errors."""
    pool = concurrent.futures.ThreadPoolExecutor(1)
    future = pool.submit(process.communicate, data, SECONDS)
    pool.shutdown(wait=False)

    def wait():
        out, err = future.result(SECONDS)
        return process.returncode, out, err.decode()

    return wait


def test_keygen(tmp_path):
    done = command("keygen")
    assert done.returncode == 0
    assert KeyPair.from_secret(bytes.fromhex(done.stdout.decode())).public.hex() == done.stderr.decode().split()[-1]
    path = tmp_path / "key"
    assert command("keygen", "-o", path).returncode == 0
    assert stat.S_IMODE(path.stat().st_mode) == 0o600 and len(KeyPair.from_file(path).public) == 32
    again = command("keygen", "-o", path)
    assert again.returncode == 1 and b"exists" in again.stderr


def test_pubkey(tmp_path, keys):
    """The public key of a file; and what isn't such a file."""
    for path, public in keys.values():
        done = command("pubkey", path)
        assert (done.returncode, done.stdout.decode(), done.stderr) == (0, f"{public}\n", b"")
    wrong = tmp_path / "wrong"
    wrong.write_text("12")
    for path in (wrong, tmp_path / "missing"):
        done = command("pubkey", path)
        assert done.returncode == 1 and done.stderr.startswith(b"yulimosar: ") and not done.stdout


@pytest.mark.parametrize("words", [[], ["keygen", "extra"], ["connect"], ["connect", "nowhere"], ["talk"],
                                   ["connect", "127.0.0.1:1", "--peer", "12"], ["connect", "127.0.0.1:1"],
                                   ["connect", "127.0.0.1:1", "--any", "--pattern", "XY"]])
def test_wrong_options(words):
    done = command(*words)
    assert done.returncode == 2 and done.stderr and not done.stdout


def test_version_and_help():
    assert command("--version").stdout == b"yulimosar 1.0.0\n"
    assert b"--peer" in command("listen", "--help").stdout


@pytest.mark.parametrize("pattern", ["XX", "IK", "XXpsk3"])
def test_a_conversation(keys, pattern, tmp_path):
    data = os.urandom(1_000_000)
    (tmp_path / "psk").write_text("07" * 32)
    more = ["--pattern", pattern, "--prologue", "chat 1", "--interval", "5"]
    more += ["--psk", tmp_path / "psk"] if "psk" in pattern else []
    server, port = listen("--key", keys["server"][0], "--peer", keys["client"][1], "--peer", keys["server"][1], *more)
    served = finish(server, data[::-1])
    client = command("connect", f"127.0.0.1:{port}", "--key", keys["client"][0], "--peer", keys["server"][1], "-v",
                     *more, input=data)
    assert client.returncode == 0 and client.stdout == data[::-1], client.stderr
    assert b"handshake hash: " in client.stderr and keys["server"][1].encode() in client.stderr
    assert served()[:2] == (0, data)


def test_a_listener_goes_on_after_those_that_fail(keys):
    """Some say nothing, one sends what is no handshake, and one has a key that isn't accepted."""
    server, port = listen("--key", keys["server"][0], "--peer", keys["client"][1])
    served, address = finish(server, b"from the server"), f"127.0.0.1:{port}"
    with contextlib.ExitStack() as stack:
        for _ in range(20):
            stack.enter_context(socket.create_connection(("127.0.0.1", int(port))))
        noisy = stack.enter_context(socket.create_connection(("127.0.0.1", int(port))))
        noisy.sendall(b"GET / HTTP/1.0\r\n\r\n")
        other = command("connect", address, "--key", keys["server"][0], "--any", input=b"hello")
        client = command("connect", address, "--key", keys["client"][0], "--peer", keys["server"][1], input=b"hello")
    status, out, err = served()
    assert (status, out, client.returncode, client.stdout) == (0, b"hello", 0, b"from the server")
    assert "another static key" in err and "too long" in err
    assert other.returncode == 1 and other.stderr.startswith(b"yulimosar: ")


def test_a_full_disk(keys):
    """Both parties end with status 1."""
    with open("/dev/full", "wb") as full:
        server = subprocess.Popen([sys.executable, "-m", "yulimosar", "listen", "127.0.0.1:0", "--any", "--key",
                                   keys["server"][0]], stdin=subprocess.DEVNULL, stdout=full, stderr=subprocess.PIPE)
        port = server.stderr.readline().decode().rsplit(":", 1)[1].strip()
        client = command("connect", f"127.0.0.1:{port}", "--any", "--key", keys["client"][0], input=b"x" * 100000)
        assert server.wait(SECONDS) == 1 and b"No space" in server.stderr.read()
        server.stderr.close()
    assert client.returncode == 1


def test_input_that_cannot_be_read(keys):
    """Both parties end with status 1, though each has ended its own stream or would."""
    only_written = os.open("/dev/null", os.O_WRONLY)
    server = subprocess.Popen([sys.executable, "-m", "yulimosar", "listen", "127.0.0.1:0", "--any", "--key",
                               keys["server"][0]], stdin=only_written, stdout=subprocess.DEVNULL,
                              stderr=subprocess.PIPE)
    os.close(only_written)
    port = server.stderr.readline().decode().rsplit(":", 1)[1].strip()
    client = command("connect", f"127.0.0.1:{port}", "--any", "--key", keys["client"][0], input=b"x" * 100000)
    assert server.wait(SECONDS) == 1 and b"Bad file" in server.stderr.read()
    server.stderr.close()
    assert client.returncode == 1


@pytest.mark.skipif(NOISECAT is None, reason="NOISECAT isn't set")
@pytest.mark.parametrize("pattern", ["XX", "IK", "NNpsk0", "KK"])
def test_with_noisecat(keys, pattern, tmp_path):
    """Both ways round, with 1 MB each way."""
    data = os.urandom(1_000_000)
    (tmp_path / "psk").write_text("07" * 32)
    psk = ["-psk", tmp_path / "psk"] if "psk" in pattern else []
    for listens in ("python", "go"):
        names = ("server", "client") if listens == "python" else ("client", "server")
        own = [] if "NN" in pattern else ["--key", keys[names[0]][0], "--peer", keys[names[1]][1]]
        other = [] if "NN" in pattern else ["-key", keys[names[1]][0], "-peer", keys[names[0]][1]]
        own += ["--pattern", pattern, "--prologue", "live", *(f"-{word}" if word == "-psk" else word for word in psk)]
        other += ["-pattern", pattern, "-prologue", "live", *psk]
        if listens == "python":
            server, port = listen(*own)
            served = finish(server, data[::-1])
            client = subprocess.run([NOISECAT, "-connect", f"127.0.0.1:{port}", *map(str, other)], input=data,
                                    capture_output=True, timeout=SECONDS)
        else:
            server, port = listen(*other, program=[NOISECAT, "-listen", "127.0.0.1:0"])
            served = finish(server, data[::-1])
            client = command("connect", f"127.0.0.1:{port}", *own, input=data)
        assert client.returncode == 0 and client.stdout == data[::-1], client.stderr
        assert served()[:2] == (0, data)


@pytest.mark.parametrize("said", [b"", b"x"], ids=["silent", "after a byte"])
def test_strangers_who_wait_do_not_keep_out_a_client(said, monkeypatch):
    """More than a listener shakes hands with at once, without any limit of time."""
    monkeypatch.setattr(__main__, "SECONDS", None)
    client, server = (dataclasses.replace(it, handshake_timeout=None) for it in configs("XX"))
    made = []
    with socket.create_server(("127.0.0.1", 0)) as listener:
        handshakes = __main__._Handshakes(listener, server)
        thread = threading.Thread(target=lambda: made.append(handshakes.first()), daemon=True)
        thread.start()
        strangers = [socket.create_connection(listener.getsockname()) for _ in range(__main__.AT_ONCE + 6)]
        for it in strangers:
            it.sendall(said)
        sock = socket.create_connection(listener.getsockname(), 30)
        with connect(sock, client) as channel:
            thread.join(60)
            made[0].sendall(b"welcome")
            assert channel.recv() == b"welcome"
            made[0].abort()
            channel.abort()
    for it in strangers:
        it.close()

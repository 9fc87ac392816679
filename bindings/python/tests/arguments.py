"""Fails every argument of every call that takes bytes or a number, while the collector runs: it prints how many calls
have raised. CPython crashes where a frame of a traceback has bytes that the library still uses, and the collector frees
both. `arguments.py 1` collects at each new object, `arguments.py` after each call.
"""
from __future__ import annotations

import gc
import socket
import sys
from collections.abc import Callable, Iterator
from typing import Any

from toys import Xor, configs

from yulimosar import (Channel, CipherState, Config, DatagramChannel, Datagrams, Handshake, KeyPair, NoiseSocket,
                       Receiver, Sender, accept, check_pattern, connect, layout)

Call = Callable[..., Any]


def released() -> memoryview:
    view = memoryview(bytearray(64))
    view.release()
    return view


BAD: list[Callable[[], Any]] = [
    lambda: None, lambda: 1.5, lambda: 1 << 70, lambda: -(1 << 70), lambda: "text", lambda: [1, 2], lambda: object(),
    lambda: memoryview(bytearray(64))[::2], released,
]


def data(size: int = 40) -> memoryview:
    """What the collector could clear while the library uses it."""
    return memoryview(bytearray(size))


def handshakes(pattern: str = "NN", **words: Any) -> tuple[Handshake, Handshake]:
    ours, theirs = configs(pattern, **words)
    return Handshake(ours, True), Handshake(theirs, False)


def done() -> Handshake:
    a, b = handshakes()
    b.read(a.write())
    a.read(b.write())
    return a


def channels() -> Iterator[Channel]:
    ours, theirs = configs("NN")
    a, b = Channel(ours, True), Channel(theirs, False)
    for one, other in ((a, b), (b, a), (a, b)):
        while one.next_event() is not None:
            pass
        other.receive_data(one.data_to_send())
    return iter((a, b))


def sockets() -> tuple[NoiseSocket, NoiseSocket]:
    import threading
    ours, theirs = configs("NN")
    near, far = socket.socketpair()
    made: list[NoiseSocket] = []
    thread = threading.Thread(target=lambda: made.append(accept(far, theirs)))
    thread.start()
    one = connect(near, ours)
    thread.join()
    return one, made[0]


def of_transport() -> Iterator[tuple[Call, list[Any]]]:
    sender: Sender = done().split()[0]
    receiver: Receiver = done().split()[1]
    grams: Datagrams = done().datagrams()
    cipher: CipherState = done().ciphers()[0]
    other: CipherState = done().ciphers()[1]
    closed = done().split()[0]
    closed.close()
    yield sender.seal, [data]
    yield sender.seal, [lambda: data(70000)]
    yield sender.seal_in_place, [data, lambda: 20]
    yield sender.seal_in_place, [data, lambda: 30]
    yield closed.seal, [data]
    yield closed.seal_in_place, [data, lambda: 20]
    yield receiver.open, [data]
    yield receiver.open_in_place, [data]
    yield grams.seal, [data]
    yield grams.open, [data]
    yield cipher.encrypt_with_ad, [data, data]
    yield cipher.encrypt_with_ad, [lambda: data(70000), data]
    yield cipher.decrypt_with_ad, [data, data]
    yield other.decrypt_with_ad, [data, data]
    yield other.decrypt_with_ad, [lambda: data(70000), data]
    yield cipher.set_nonce, [lambda: 7]


def of_handshakes() -> Iterator[tuple[Call, list[Any]]]:
    a, b = handshakes()
    late = Handshake(Config(pattern="NNpsk0", ephemeral=Xor), True)
    yield a.read, [data]
    yield a.write, [data]
    yield b.try_read, [lambda: data(20)]
    yield a.write, [lambda: data(70000)]
    yield late.write, [data]
    yield late.set_psk, [lambda: data(31)]
    yield done().datagrams, [lambda: 65]
    yield lambda it: Handshake(Config(pattern="NN", accept_any_key=True, prologue=it), True), [lambda: data(70000)]
    yield lambda it: Handshake(Config(pattern="NNpsk0", psks=it), True), [lambda: [data(31)]]
    yield lambda it: Handshake(Config(pattern="NN", accept_any_key=True, interval=it), True), [lambda: -1]
    yield lambda it: Handshake(Config(pattern="XK", key=Xor(), peer_key=it), True), [lambda: data(31)]
    yield check_pattern, []
    yield layout, []
    yield KeyPair.from_secret, [lambda: data(31)]


def of_channels() -> Iterator[tuple[Call, list[Any]]]:
    a, b = channels()
    closed = next(channels())
    closed.close()
    fresh = Channel(configs("NN")[0], True)
    near, far = sockets()
    near.settimeout(0.01)    # a size of 2^70 is right, and nothing comes
    grams = DatagramChannel(configs("NN")[0], True)
    yield a.write, [data]
    yield a.receive_data, [data]
    yield fresh.write, [data]
    yield closed.write, [data]
    yield near.send, [data]
    yield near.sendall, [data]
    yield near.write, [data]
    yield near.recv_into, [data, lambda: 41]
    yield near.recv, [lambda: -1]
    yield near.read, [lambda: 41, data]
    yield grams.send, [data]
    yield grams.receive, []
    near.abort()
    yield near.send, [data]
    yield near.sendall, [data]
    far.abort()


def keep_in_a_cycle(call: Call, words: list[Any]) -> int:
    """The error, its frames and what these have are garbage afterwards, which the collector alone can free."""
    try:
        call(*words)
    except Exception as error:
        kept = error    # noqa: F841
        return 1
    return 0


def main() -> None:
    if len(sys.argv) > 1:
        gc.set_threshold(int(sys.argv[1]))
    raised = tried = 0
    for calls in (of_transport, of_handshakes, of_channels):
        for call, makers in calls():
            cases = [[make() for make in makers]]
            for index in range(max(1, len(makers))):
                for bad in BAD:
                    cases.append([bad() if index == at else make() for at, make in enumerate(makers or [data])])
            while cases:
                tried += 1
                raised += keep_in_a_cycle(call, cases.pop())
                gc.collect()
    print(raised, tried)


main()

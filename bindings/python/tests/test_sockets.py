"""Channels over blocking sockets: ends, cuts and refusals, timeouts, threads, and what is left."""
import contextlib
import copy
import http.client
import io
import os
import pickle
import select
import signal
import socket
import threading
import time

import pytest
from loops import descriptors, open_keys
from toys import Xor, configs

from yulimosar import (CallError, Channel, ChannelCut, Code, Config, ConfigError, HandshakeTimeout, MessageRefused,
                       NoiseSocket, accept, connect, sockets)

LONG = 60


@pytest.fixture(autouse=True)
def nothing_is_left():
    before, keys = descriptors(), open_keys()
    yield
    assert open_keys() <= keys and not descriptors() - before


def in_thread(call, *words):
    """Runs a call in a thread; `.result()` waits for it."""
    result = []

    def run():
        try:
            result.append((call(*words), None))
        except Exception as error:
            result.append((None, error))

    thread = threading.Thread(target=run, daemon=True)
    thread.start()

    def wait():
        thread.join(LONG)
        assert result, "it hangs"
        if result[0][1] is not None:
            raise result[0][1]
        return result[0][0]

    return wait


def pair(pattern="XX", tcp=False, **words):
    """Two parties of a channel, and their sockets."""
    first, second = configs(pattern, **words)
    if tcp:
        with socket.create_server(("127.0.0.1", 0)) as listener:
            a = socket.create_connection(listener.getsockname())
            b, _ = listener.accept()
    else:
        a, b = socket.socketpair()
    accepted = in_thread(accept, b, second)
    connected = connect(a, first)
    return connected, accepted(), a, b


def test_a_conversation():
    client, server, _, _ = pair(tcp=True)
    with client, server:
        assert isinstance(client, NoiseSocket)
        assert client.noise.hash == server.noise.hash and client.noise.initiator
        assert client.getpeername() == server.getsockname() and client.fileno() > 0
        client.sendall(b"hello")
        assert server.recv(2) == b"he" and server.pending() == 3
        room = bytearray(10)
        assert server.recv_into(room, 2) == 2 and server.recv_into(memoryview(room)[2:]) == 1
        assert room[:3] == b"llo" and server.pending() == 0
        assert server.recv(0) == b"" and server.send(b"") == 0
        server.sendall(bytearray(b"answer"))
        server.shutdown(socket.SHUT_WR)
        server.shutdown(socket.SHUT_WR)
        with pytest.raises(CallError) as caught:
            server.send(b"late")
        assert caught.value.code == Code.CLOSED
        with pytest.raises(ValueError):
            server.shutdown(socket.SHUT_RDWR)
        assert client.recv(100) == b"answer" and client.recv(100) == b"" and client.recv(1) == b""
        client.sendall(b"more")
        assert server.recv(100) == b"more"
    assert client.noise.hash == server.noise.hash
    for call in (lambda: client.recv(1), lambda: client.send(b"x"), lambda: client.sendall(b"x"),
                 lambda: client.shutdown(socket.SHUT_WR)):
        with pytest.raises(CallError) as caught:
            call()
        assert caught.value.code is None
    client.close()


def test_what_is_sealed_is_taken_by_the_sender_alone(monkeypatch):
    client, server, _, _ = pair("NN")
    takers, take = set(), Channel.data_to_send

    def taken(channel):
        takers.add(threading.get_ident())
        return take(channel)

    monkeypatch.setattr(Channel, "data_to_send", taken)
    with client, server:
        received = in_thread(client.recv, 10)
        client.sendall(b"there")
        server.sendall(b"and back")
        assert (received(), server.recv(10), takers) == (b"and back", b"there", {threading.get_ident()})


def test_much_both_ways_at_once():
    data = os.urandom(3_000_000)
    client, server, _, _ = pair("NN", interval=3)

    def send(channel):
        channel.sendall(data)
        channel.shutdown(socket.SHUT_WR)

    def receive(channel):
        got = bytearray()
        while part := channel.recv(50000):
            got += part
        return bytes(got)

    with client, server:
        waits = [in_thread(call, channel) for channel in (client, server) for call in (send, receive)]
        assert [wait() for wait in waits] == [None, data, None, data]


def test_files():
    client, server, _, _ = pair("NN")
    with client, server:
        with client.makefile("rwb") as file, server.makefile("wb") as out:
            out.write(b"a line\nanother\n")
            out.flush()
            assert file.readline() == b"a line\n" and file.readline() == b"another\n"
            file.write(b"back")
            file.flush()
        raw = server.makefile("rb", 0)
        assert isinstance(raw, io.RawIOBase) and raw.read(10) == b"back"
        client.shutdown(socket.SHUT_WR)
        assert raw.read(10) == b"" and server.makefile("rb").read() == b""
        with pytest.raises(ValueError):
            server.makefile("a")


def test_http_client_reads_an_answer_that_ends_with_the_connection():
    """It closes the socket before it has read the answer by a file, as a socket allows."""
    client, server, _, _ = pair("NN")

    def answer():
        with server, server.makefile("rb") as file:
            while file.readline().strip():
                pass
            server.sendall(b"HTTP/1.0 200 OK\r\n\r\n" + b"body " * 50000)
    wait = in_thread(answer)
    connection = http.client.HTTPConnection("host")
    connection.sock = client
    connection.request("GET", "/")
    answer = connection.getresponse()
    assert answer.status == 200 and answer.read() == b"body " * 50000
    assert wait() is None and client.fileno() == -1


def test_close_waits_for_a_file_that_reads():
    """As a socket's, whose file can be read after it; to leave a `with` closes at once."""
    client, server, _, _ = pair("NN")
    with server:
        files, writes = (client.makefile("rb"), client.makefile("r")), client.makefile("wb")
        client.close()
        client.close()
        server.sendall(b"an answer")
        server.shutdown(socket.SHUT_WR)
        assert files[0].read() == b"an answer"
        files[0].close()
        assert client.fileno() >= 0
        files[1].close()
        assert client.fileno() == -1 and not writes.closed and server.recv(1) == b""
    client, server, _, _ = pair("NN")
    with server:
        with client:
            file = client.makefile("rb")
        assert server.recv(1) == b"" and client.fileno() == -1
        with pytest.raises(CallError):
            file.read()


def test_close_sends_the_end_and_an_exception_does_not():
    client, server, _, _ = pair("NN")
    with server:
        with client:
            client.sendall(b"all")
        assert server.recv(10) == b"all" and server.recv(10) == b""
    client, server, _, _ = pair("NN")
    with server:
        with pytest.raises(KeyError), client:
            client.sendall(b"some")
            raise KeyError
        assert server.recv(10) == b"some"
        for _ in range(2):
            with pytest.raises(ChannelCut):
                server.recv(10)
        with pytest.raises(ConnectionError):
            server.sendall(b"x")


@pytest.mark.parametrize("end", ["FIN", "RST", "half"])
def test_a_cut(end):
    client, server, a, _ = pair("NN", tcp=True)
    with server:
        client.sendall(b"before")
        if end == "half":
            client._channel.write(b"half")
            a.sendall(client._channel.data_to_send()[:10])
        elif end == "RST":
            a.setsockopt(socket.SOL_SOCKET, socket.SO_LINGER, b"\1\0\0\0\0\0\0\0")
            assert server.recv(10) == b"before"
        a.close()
        if end != "RST":
            assert server.recv(10) == b"before"
        with pytest.raises(ChannelCut) as caught:
            server.recv(10)
        assert isinstance(caught.value, ConnectionResetError)
        assert (caught.value.__cause__ is not None) == (end == "RST")
        with pytest.raises(ChannelCut):
            server.send(b"x")
    client.abort()


def test_a_refused_message():
    client, server, a, _ = pair("NN")
    with server:
        a.sendall(b"\x00\x14" + bytes(20))
        with pytest.raises(MessageRefused) as caught:
            server.recv(10)
        assert caught.value.cause == Code.TAG
        for call in (lambda: server.recv(1), lambda: server.send(b"x"), lambda: server.sendall(b"x")):
            with pytest.raises(MessageRefused):
                call()
    with pytest.raises(ChannelCut):    # neither a message nor an end was sent
        client.recv(10)
    client.close()


def test_timeouts_leave_the_channel_as_it_is():
    client, server, a, b = pair("NN")
    with client, server:
        server.settimeout(0.05)
        assert server.gettimeout() == b.gettimeout() == 0.05
        with pytest.raises(TimeoutError):
            server.recv(10)
        client._channel.write(b"in two parts")
        frame = client._channel.data_to_send()
        a.sendall(frame[:7])
        with pytest.raises(TimeoutError):
            server.recv(100)
        a.sendall(frame[7:])
        assert server.recv(100) == b"in two parts"
        server.settimeout(0)
        with pytest.raises(BlockingIOError):
            server.recv(10)
        server.settimeout(None)
        client.sendall(b"x")
        assert server.recv(1) == b"x"


@pytest.mark.parametrize("timeout, error", [(0.05, TimeoutError), (0, BlockingIOError)])
def test_a_send_that_times_out_loses_nothing(timeout, error):
    client, server, _, _ = pair("NN")
    sent = 0
    with client, server:
        client.settimeout(timeout)
        payload = os.urandom(65519)
        with pytest.raises(error):
            while True:
                sent += client.send(payload)

        def receive():
            count = 0
            while part := server.recv(65519):
                assert part == payload[count % 65519:][:len(part)]
                count += len(part)
            return count

        received = in_thread(receive)
        client.settimeout(None)
        client.shutdown(socket.SHUT_WR)
        assert received() == sent


def test_a_sendall_that_times_out_sends_no_end(monkeypatch):
    monkeypatch.setattr(sockets, "CLOSE_TIMEOUT", 0.1)
    client, server, _, _ = pair("NN")
    with server:
        client.settimeout(0.05)
        with pytest.raises(TimeoutError):
            client.sendall(bytes(10_000_000))
        client.close()
        with pytest.raises(ChannelCut):
            while server.recv(65519):
                pass


def test_silent_and_slow_peers():
    for limit, own, error in ((0.1, None, HandshakeTimeout), (0.1, 5, HandshakeTimeout), (10, 0.1, TimeoutError)):
        for call in (connect, accept):
            a, b = socket.socketpair()
            a.settimeout(own)
            with b, pytest.raises(error):
                call(a, configs("XX", handshake_timeout=limit)[call is accept])
            assert a.fileno() == -1
    a, b = socket.socketpair()
    with b:
        waiting = in_thread(accept, a, configs("XX", handshake_timeout=0.5)[1])
        started = time.monotonic()
        for byte in b"\x00\x20" + bytes(31):
            try:
                b.sendall(bytes([byte]))
            except OSError:
                break
            time.sleep(0.05)
        with pytest.raises(HandshakeTimeout):
            waiting()
        assert time.monotonic() - started < LONG


def test_faults_of_the_handshake_close_the_socket():
    async def verify(_key):
        return True

    first, second = configs("XX")
    for config, error in ((Config(pattern="XX"), ConfigError),
                          (Config(pattern="KK", key=Xor(), peer_key=bytes(32), verify=verify, ephemeral=Xor),
                           MessageRefused),
                          (first, ChannelCut)):
        a, b = socket.socketpair()
        b.shutdown(socket.SHUT_WR)
        with b, pytest.raises(error):
            connect(a, config)
        assert a.fileno() == -1
    a, b = socket.socketpair()
    refused = in_thread(accept, b, Config(pattern="XX", key=second.key, verify=lambda key: False, prologue=b"test",
                                          ephemeral=Xor))
    client = connect(a, first)
    with pytest.raises(MessageRefused) as caught:
        refused()
    assert caught.value.message == 3
    with pytest.raises(ChannelCut):
        client.recv(1)
    client.close()


@pytest.mark.parametrize("end", ["close", "abort"])
def test_close_under_a_call_that_waits(end):
    client, server, _, _ = pair("NN", tcp=True)
    receiving = in_thread(client.recv, 10)
    sending = in_thread(client.sendall, bytes(50_000_000))
    assert select.select([server], [], [], LONG)[0]    # it is being sent
    time.sleep(0.1)
    getattr(client, end)()
    with pytest.raises(CallError):
        receiving()
    with pytest.raises((CallError, OSError)):
        sending()
    with server, pytest.raises(ChannelCut):    # a send was running, so there is no end
        while server.recv(65519):
            pass


def full(channel):
    """Sends until the connection takes no more: a frame is on its way."""
    channel.settimeout(0.05)
    with pytest.raises(TimeoutError):
        while True:
            channel.send(bytes(65519))
    channel.settimeout(None)


def test_abort_ends_a_close_that_waits():
    client, server, _, _ = pair("NN", tcp=True)
    full(client)
    closing = in_thread(client.close)
    while not client._closed:
        time.sleep(0.001)
    time.sleep(0.1)
    started = time.monotonic()
    client.abort()
    with pytest.raises(ChannelCut):    # bytes that `send` had taken are lost
        closing()
    assert time.monotonic() - started < 5
    server.abort()


class Slow:
    """A socket that takes a byte at a time."""

    def __init__(self, sock):
        self.sock = sock

    def send(self, data):
        time.sleep(0.02)
        return self.sock.send(data[:1])

    def __getattr__(self, name):
        return getattr(self.sock, name)


def test_close_has_a_limit_though_the_peer_takes_a_little(monkeypatch):
    monkeypatch.setattr(sockets, "CLOSE_TIMEOUT", 0.3)
    client, server, a, _ = pair("NN")
    client._sock = Slow(a)
    client._channel.write(bytes(1000))
    client._pending = memoryview(client._channel.data_to_send())
    started = time.monotonic()
    with pytest.raises(ChannelCut) as caught:
        client.close()
    assert "bytes were left" in str(caught.value) and time.monotonic() - started < 15    # all would take 20
    with server, pytest.raises(ChannelCut):
        server.recv(1)


@contextlib.contextmanager
def handler_of_a_signal(call, is_due):
    """Has a handler of a signal make a call, once something holds."""
    def handler(*_):
        if is_due():
            signal.setitimer(signal.ITIMER_REAL, 0)
            call()

    before = signal.signal(signal.SIGALRM, handler)
    signal.setitimer(signal.ITIMER_REAL, 0.1, 0.1)
    try:
        yield
    finally:
        signal.setitimer(signal.ITIMER_REAL, 0)
        signal.signal(signal.SIGALRM, before)


@pytest.mark.parametrize("end", ["close", "abort"])
@pytest.mark.parametrize("call", ["recv", "send"])
def test_close_in_a_handler_of_a_signal(call, end):
    client, server, _, _ = pair("NN", tcp=True)

    def runs():
        if call == "recv":
            return client._receiving._is_taken
        return client._sending._is_taken and select.select([server], [], [], 0)[0]

    with handler_of_a_signal(getattr(client, end), runs), pytest.raises((CallError, OSError)):
        client.recv(1) if call == "recv" else client.sendall(bytes(50_000_000))
    assert client.fileno() == -1
    with server:
        if call == "recv" and end == "close":
            assert server.recv(1) == b""
        else:
            with pytest.raises(ChannelCut):    # a send was running, so there is no end
                while server.recv(65519):
                    pass


def test_a_handler_of_a_signal_makes_no_call_inside_another():
    client, server, _, _ = pair("NN")
    raised = []

    def calls():
        for again in (lambda: client.recv(1), lambda: client.send(b"inside")):
            try:
                again()
            except RuntimeError as error:
                raised.append(error)
        server.sendall(b"x")

    with client, server, handler_of_a_signal(calls, lambda: client._receiving._is_taken):
        assert client.recv(1) == b"x" and len(raised) == 1
        assert server.recv(10) == b"inside"


def test_one_way():
    client, server, _, _ = pair("N")
    with client, server:
        client.sendall(b"letter")
        client.shutdown(socket.SHUT_WR)
        assert server.recv(10) == b"letter" and server.recv(10) == b""
        for call in (lambda: client.recv(1), lambda: server.sendall(b"x"), lambda: server.shutdown(socket.SHUT_WR)):
            with pytest.raises(CallError) as caught:
                call()
            assert caught.value.code == Code.ONE_WAY


def test_two_threads_send_whole_messages():
    client, server, _, _ = pair("NN")
    with server:
        def send(byte):
            for _ in range(100):
                client.sendall(bytes([byte]) * 1000)

        waits = [in_thread(send, byte) for byte in (1, 2)]
        got = b"".join(iter(lambda: server.recv(1000) if len(seen) < 200 and not seen.append(1) else b"", b""))
        for wait in waits:
            wait()
        client.close()
        assert server.recv(1) == b"" and all(len(set(got[n:n + 1000])) == 1 for n in range(0, 200_000, 1000))


seen = []


def test_fork():
    """The child of a fork can't use the parent's channel, and its close sends nothing."""
    client, server, _, _ = pair("NN")
    with client, server:
        child = os.fork()
        if child == 0:
            try:
                client.sendall(b"from the child")
                os._exit(1)
            except CallError:
                client._sock.detach()
                client.close()
                os._exit(0)
        assert os.waitstatus_to_exitcode(os.waitpid(child, 0)[1]) == 0
        client.sendall(b"from the parent")
        assert server.recv(100) == b"from the parent"


def test_what_has_keys_is_not_copied():
    near, far, _, _ = pair()
    with near, far:
        for it in (near, near._channel):
            for call in (copy.copy, copy.deepcopy, pickle.dumps):
                with pytest.raises(TypeError, match="isn't copied"):
                    call(it)

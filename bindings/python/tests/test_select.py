"""A NoiseSocket under select, in a forked process, and with the calls of an ssl.SSLSocket."""
import io
import os
import select
import socket
import threading
import time

import pytest
from test_sockets import LONG, in_thread, nothing_is_left, pair

from yulimosar import CallError, ChannelCut, MessageRefused, sockets

assert nothing_is_left    # a fixture of each test here, too


def readable(channel, seconds=0.0):
    return bool(select.select([channel], [], [], seconds)[0])


# What select doesn't know.

def test_pending_counts_what_was_read_ahead():
    """The descriptor can't be read any more, and yet two messages and the end can be received."""
    client, server, a, _ = pair("NN")
    with client, server:
        frames = []
        for text in (b"one", b"two", b"three"):
            client._channel.write(text)
            frames.append(client._channel.data_to_send())
        a.sendall(b"".join(frames) + frames_of_end(client))
        assert server.recv(100) == b"one" and not readable(server)
        assert server.pending() == 8
        assert server.recv(2) == b"tw" and server.pending() == 6
        assert server.recv(100) == b"othree"
        assert server.pending() == 1 and server.recv(100) == b""    # the end


def frames_of_end(channel):
    channel._channel.write_eof()
    return channel._channel.data_to_send()


def test_pending_at_a_part_of_a_message_and_at_a_fault():
    client, server, a, _ = pair("NN")
    with server:
        client._channel.write(b"text")
        frame = client._channel.data_to_send()
        a.sendall(frame + frame[:9])
        assert server.recv(100) == b"text" and server.pending() == 0
        a.sendall(frame[9:])    # the same message a second time
        assert server.pending() == 0
        with pytest.raises(MessageRefused):
            server.recv(100)
        assert server.pending() == 1
        with pytest.raises(MessageRefused):
            server.recv(100)
    with pytest.raises(ChannelCut):
        client.recv(1)
    client.close()


def test_pending_gives_what_came_before_a_fault():
    client, server, a, _ = pair("NN")
    with server:
        client._channel.write(b"first")
        client._channel.write(b"second")
        a.sendall(client._channel.data_to_send() + b"\x00\x12" + bytes(18))
        assert server.recv(100) == b"first" and server.pending() == 6 and server.recv(100) == b"second"
        assert server.pending() == 1
        with pytest.raises(MessageRefused):
            server.recv(100)
    client.abort()


def test_pending_while_another_thread_receives():
    client, server, _, _ = pair("NN")
    with client, server:
        received = in_thread(server.recv, 10)
        time.sleep(0.05)
        assert in_thread(server.pending)() == 0
        client.sendall(b"text")
        assert received() == b"text"


def test_a_loop_of_select_sees_every_message():
    """An echo of many messages by select, pending, unsent and flush alone: it never waits for what came."""
    data = os.urandom(400_000)
    client, server, _, _ = pair("NN")

    def serve():
        server.setblocking(False)
        owed, ended = b"", False
        while not ended or owed or server.unsent():
            wait = 0 if server.pending() else LONG
            reads = [] if ended or len(owed) > 200_000 else [server]
            writes = [server] if owed or server.unsent() else []
            ready = select.select(reads, writes, [], wait)
            if reads and (ready[0] or server.pending()):
                try:
                    part = server.recv(5000)
                    ended, owed = not part, owed + part
                except BlockingIOError:
                    pass
            if ready[1]:
                try:
                    server.flush()
                    owed = owed[server.send(owed[:3000]):]
                except BlockingIOError:
                    pass
        server.setblocking(True)
        server.shutdown(socket.SHUT_WR)

    with client, server:
        served = in_thread(serve)
        got = in_thread(lambda: b"".join(iter(lambda: client.recv(65536), b"")))
        for start in range(0, len(data), 777):
            client.sendall(data[start:start + 777])
        client.shutdown(socket.SHUT_WR)
        assert got() == data
        served()


def keep(channel):
    """Sends until the channel keeps bytes; how many bytes it took."""
    channel.setblocking(False)
    count = 0
    while not channel.unsent():
        count += channel.send(bytes(65519))
    return count


def take(channel, count):
    while count:
        count -= len(channel.recv(min(count, 65536)))


def test_a_send_that_kept_bytes_says_so():
    client, server, _, _ = pair("NN")
    with client, server:
        count = keep(client)
        assert client.unsent() > 0 and client.getblocking() is False
        with pytest.raises(BlockingIOError):
            client.flush()
        client.setblocking(True)
        taken = in_thread(take, server, count)
        client.flush()
        assert client.unsent() == 0
        taken()


@pytest.mark.parametrize("timeout", [None, 30, 0])
def test_recv_sends_what_was_kept_before_it_waits(timeout):
    """Else both parties wait: one for the rest of a request, the other for the answer."""
    client, server, _, _ = pair("NN")

    def answer(count):
        take(server, count)
        server.sendall(b"answer")

    with client, server:
        count = keep(client)
        client.settimeout(timeout)
        answered = in_thread(answer, count)
        got, end = b"", time.monotonic() + LONG
        while not got and time.monotonic() < end:
            try:
                got = client.recv(100)
            except BlockingIOError:
                select.select([client], [client] if client.unsent() else [], [], 1)
        assert got == b"answer" and client.unsent() == 0
        answered()


def test_recv_with_kept_bytes_times_out_and_takes_what_comes():
    client, server, _, _ = pair("NN")
    with server:
        keep(client)
        client.settimeout(0.1)
        started = time.monotonic()
        with pytest.raises(TimeoutError):
            client.recv(10)
        assert 0.05 < time.monotonic() - started < LONG and client.unsent() > 0
        server.sendall(b"come")
        assert client.recv(10) == b"come" and client.unsent() > 0
        client.abort()


def test_close_tells_of_bytes_that_were_taken_and_lost(monkeypatch):
    monkeypatch.setattr(sockets, "CLOSE_TIMEOUT", 0.2)
    client, server, _, _ = pair("NN")
    keep(client)
    with pytest.raises(ChannelCut) as caught:
        client.close()
    assert "bytes were left" in str(caught.value) and client.fileno() == -1
    client.close()
    server.abort()


def test_recv_into_looks_at_the_buffer_first():
    client, server, _, _ = pair("NN")
    with client, server:
        client.sendall(bytes(range(50)))
        for buffer, size, error in ((bytes(50), 0, TypeError), (memoryview(b"x" * 50), 0, TypeError),
                                    (bytearray(10), 50, ValueError), (bytearray(10), -1, ValueError),
                                    (memoryview(bytearray(50))[::2], 0, TypeError)):
            with pytest.raises(error):
                server.recv_into(buffer, size)
        room = bytearray(50)
        assert server.recv_into(room) == 50 and room == bytes(range(50))


# An end that came whole.

@pytest.mark.parametrize("sends", [False, True])
def test_an_end_that_came_is_told_before_a_lost_connection(sends):
    """The server says bye and closes, while the client has sent what nobody reads: the connection is reset."""
    for _ in range(20):
        client, server, _, b = pair("NN", tcp=True)
        client.sendall(b"a request that nobody reads")
        server.sendall(b"bye")
        server.close()
        assert b.fileno() == -1
        if sends:
            with pytest.raises(OSError):
                for _ in range(100):
                    client.sendall(b"more")
                    time.sleep(0.001)
        assert client.recv(100) == b"bye" and client.recv(100) == b""
        client.close()


# Forked processes.

def in_child(call):
    """The status of a forked process that makes a call; 9 if it hangs."""
    child = os.fork()
    if child == 0:
        status = 1
        try:
            call()
            status = 0
        finally:
            os._exit(status)
    for _ in range(100 * LONG):
        done, status = os.waitpid(child, os.WNOHANG)
        if done:
            return os.waitstatus_to_exitcode(status)
        time.sleep(0.01)
    os.kill(child, 9)
    os.waitpid(child, 0)
    return 9


def leave(channel):
    with channel:
        pass


def leave_by_an_error(channel):
    with pytest.raises(KeyError), channel:
        raise KeyError


def try_calls(channel):
    for call in (lambda: channel.recv(1), lambda: channel.send(b"x"), lambda: channel.sendall(b"x"), channel.flush,
                 lambda: channel.shutdown(socket.SHUT_WR)):
        with pytest.raises(CallError) as caught:
            call()
        assert "forked" in str(caught.value)
    assert channel.pending() == 0 and channel.unsent() == 0
    channel.close()
    assert channel.fileno() == -1


@pytest.mark.parametrize("what", [leave, leave_by_an_error, try_calls, lambda it: it.close(), lambda it: it.abort()])
def test_a_child_leaves_the_parents_channel_alone(what):
    client, server, _, _ = pair("NN", tcp=True)
    with client, server:
        client.sendall(b"before")
        assert server.recv(10) == b"before"
        assert in_child(lambda: what(client)) == 0
        client.sendall(b"after")
        server.sendall(b"and back")
        assert (server.recv(10), client.recv(10)) == (b"after", b"and back")
        client.shutdown(socket.SHUT_WR)
        assert server.recv(10) == b""


@pytest.mark.parametrize("what", [leave, try_calls, lambda it: it.abort()])
def test_a_child_does_not_wait_for_the_parents_threads(what):
    """Others of the parent's threads receive, and send what isn't taken: they hold the locks."""
    client, server, _, _ = pair("NN", tcp=True)
    receiving = in_thread(client.recv, 10)
    sending = in_thread(client.sendall, bytes(20_000_000))
    time.sleep(0.1)
    assert in_child(lambda: what(client)) == 0
    server.sendall(b"text")
    assert receiving() == b"text"
    take(server, 20_000_000)
    sending()
    client.close()
    assert server.recv(10) == b""
    server.close()


def test_a_child_sends_nothing_that_the_parent_kept():
    client, server, _, _ = pair("NN")
    with client, server:
        count = keep(client)
        assert in_child(lambda: leave(client)) == 0
        client.setblocking(True)
        taken = in_thread(take, server, count)
        client.sendall(b"")
        taken()


# The calls of an ssl.SSLSocket.

def test_calls_of_an_sslsocket():
    client, server, a, _ = pair("XX", tcp=True)
    with client, server:
        assert (client.family, client.type, client.proto) == (a.family, a.type, a.proto)
        assert client.version() == "Noise_XX_25519_ChaChaPoly_SHA256"
        assert (client.server_side, server.server_side) == (False, True)
        client.setsockopt(socket.IPPROTO_TCP, socket.TCP_NODELAY, 1)
        assert client.getsockopt(socket.IPPROTO_TCP, socket.TCP_NODELAY)
        client.setblocking(False)
        assert not client.getblocking() and client.timeout == 0
        client.setblocking(True)
        assert client.timeout is None and client.write(b"text") == 4
        room = bytearray(2)
        assert server.read(2, room) == 2 and room == b"te" and server.read() == b"xt"
        assert client.sendfile(io.BytesIO(b"0123456789"), 2, 5) == 5 and server.recv(10) == b"23456"
        assert client.sendfile(io.BytesIO(bytes(200_000))) == 200_000
        take(server, 200_000)
        for call in (lambda: client.recv(1, 1), lambda: client.send(b"x", 1), lambda: client.sendall(b"x", 1),
                     lambda: client.recv_into(bytearray(1), 1, 1)):
            with pytest.raises(ValueError):
                call()


def test_files_of_text():
    client, server, _, _ = pair("NN")
    with client, server:
        with client.makefile("rw", encoding="utf-8", newline="\n") as file, server.makefile("w") as out:
            out.write("Grüße\nzwei\n")
            out.flush()
            assert file.readline() == "Grüße\n" and next(file) == "zwei\n"
            file.write("back\n")
            file.flush()
        assert server.makefile(encoding="utf-8").readline() == "back\n"    # as a socket's, it is of text
        for words in (("a",), ("r", 0)):
            with pytest.raises(ValueError):
                server.makefile(*words)
        server.setblocking(False)
        assert server.makefile("rb", 0).read(1) is None


def test_detach_gives_the_connection_away():
    client, server, _, _ = pair("NN")
    with server:
        sock = socket.socket(fileno=client.detach())
        with sock:
            for call in (lambda: client.recv(1), lambda: client.sendall(b"x")):
                with pytest.raises(CallError):
                    call()
            client.close()
            sock.sendall(b"\x00\x12" + bytes(18))    # the connection is open, and a stranger's message is refused
            with pytest.raises(MessageRefused):
                server.recv(1)


def test_sentences_after_a_close():
    client, server, _, _ = pair("NN")
    client.close()
    with pytest.raises(CallError) as caught:
        client.recv(1)
    assert "this party has closed" in str(caught.value) and "forked" not in str(caught.value)
    server.close()
    assert threading.active_count() >= 1

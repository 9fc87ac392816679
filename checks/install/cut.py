#!/usr/bin/env python3
"""The server and the client of examples/programs/c through a relay that damages what the server sends: cut.py SERVER
CLIENT.

Cut after some bytes, or with one of them flipped, doubled or left out, the client has to end with a status other than
0; with nothing done to it, with 0. So a client never takes a part of the answer for the whole. Meanwhile another server
has a client that sends a byte of a handshake each second: the server has to end with status 1 after some 10 seconds,
all of the handshake's time. Before, several servers start at once, in one folder: each has to take a client.
"""
import socket
import subprocess
import sys
import threading
import time

TEXT = "an answer that has to come whole"
STEP = 17
SERVER_PORT, CLIENT_PORT, SLOW_PORT = 4051, 4052, 4055
TOGETHER = range(4061, 4069)    # the ports of servers that start at once
PATIENCE = 60   # seconds for a program to start or to end on a machine that has other work


def damaged(data, start, kind, at):
    """What the relay makes of bytes that begin at the place `start`, and whether it closes then."""
    here = at - start
    if kind == "nothing" or not 0 <= here < len(data):
        return data, False
    if kind == "cut":
        return data[:here], True
    byte = {"flip": bytes([data[here] ^ 4]), "double": data[here:here + 1] * 2, "drop": b""}[kind]
    return data[:here] + byte + data[here + 1:], False


def pump(source, target, kind="nothing", at=0):
    count = 0
    try:
        while data := source.recv(65536):
            out, closes = damaged(data, count, kind, at)
            count += len(data)
            target.sendall(out)
            if closes:
                break
    except OSError:
        pass
    for it in (source, target):
        try:
            it.shutdown(socket.SHUT_RDWR)
        except OSError:
            pass
    return count


def run(server, client, kind, at):
    """The status of the client, and how many bytes the server has sent."""
    quiet = {"stdout": subprocess.DEVNULL, "stderr": subprocess.DEVNULL}
    with (
        socket.create_server(("127.0.0.1", CLIENT_PORT), reuse_port=False) as relay,
        subprocess.Popen([server, "XX", str(SERVER_PORT)], **quiet) as serving,
        subprocess.Popen([client, "XX", TEXT, str(CLIENT_PORT)], **quiet) as asking,
    ):
        try:
            relay.settimeout(PATIENCE)
            near, _ = relay.accept()
            near.settimeout(None)
            with near, connect(SERVER_PORT, serving) as far:
                up = threading.Thread(target=pump, args=(near, far))
                up.start()
                sent = pump(far, near, kind, at)
                up.join()
                status = asking.wait(PATIENCE)
                serving.wait(PATIENCE)
        finally:
            asking.kill()
            serving.kill()
    return status, sent


def connect(port, serving):
    begun = time.monotonic()
    while time.monotonic() - begun < PATIENCE:
        try:
            return socket.create_connection(("127.0.0.1", port))
        except ConnectionRefusedError:
            if serving.poll() is not None:
                sys.exit("cut.py: the server has ended")
            time.sleep(0.02)
    serving.kill()
    sys.exit("cut.py: no server")


def start_together(server):
    quiet = {"stdout": subprocess.DEVNULL, "stderr": subprocess.DEVNULL}
    started = [(port, subprocess.Popen([server, "XX", str(port)], **quiet)) for port in TOGETHER]
    try:
        for port, serving in started:
            connect(port, serving).close()
            serving.wait(PATIENCE)
    finally:
        for _, serving in started:
            serving.kill()
            serving.wait()


def be_slow(server, said):
    """Sends a frame's bytes one a second, and tells when the server has had enough."""
    quiet = {"stdout": subprocess.DEVNULL, "stderr": subprocess.DEVNULL}
    with (
        subprocess.Popen([server, "XX", str(SLOW_PORT)], **quiet) as serving,
        connect(SLOW_PORT, serving) as slow,
    ):
        begun = time.monotonic()
        while serving.poll() is None and time.monotonic() - begun < PATIENCE:
            try:
                slow.sendall(b"\1")
            except OSError:
                pass
            time.sleep(1)
        said.append((time.monotonic() - begun, serving.poll()))
        serving.kill()


def main():
    server, client = sys.argv[1:]
    start_together(server)
    slow = []
    slowness = threading.Thread(target=be_slow, args=(server, slow))
    slowness.start()
    status, sent = run(server, client, "nothing", 0)
    if status != 0 or sent < 100:
        sys.exit(f"cut.py: with nothing done the client ends with {status} after {sent} bytes")
    places = sorted({*range(0, sent, STEP), *range(sent - 20, sent)})
    runs = 0
    for kind in ("cut", "flip", "double", "drop"):
        for at in places if kind in ("cut", "flip") else places[::3]:
            status, _ = run(server, client, kind, at)
            # (a byte after the end takes nothing from the answer)
            if status == 0 and not (kind == "double" and at == sent - 1):
                sys.exit(f"cut.py: {kind} at byte {at} of {sent}, and the client ends with 0")
            runs += 1
    slowness.join()
    seconds, status = slow[0]
    if status != 1 or seconds < 8:    # it gives a handshake 10; a busy machine sees that later
        sys.exit(f"cut.py: with a slow client the server ends with {status} after {seconds:.0f} seconds")
    print(f"install: the example's client knew of {runs} damaged connections out of {runs}")


main()

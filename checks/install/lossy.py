#!/usr/bin/env python3
"""The example over UDP through a relay that loses, repeats and forges datagrams: lossy.py UDP.

Each of the first datagrams of each direction is lost, repeated or changed in turn, and others are sent in between that
nobody has sealed. The client has to print the server's text each time, and both have to end with 0. server.public is
there from an earlier run of the server.
"""
import select
import socket
import subprocess
import sys
import time

TEXT = "a text that comes, though datagrams are lost"
SERVER_PORT, CLIENT_PORT = 4053, 4054
JUNK = [b"", b"x", bytes(24), bytes(range(96)), bytes(48), bytes(96)]


def outcome(kind, data):
    if kind == "lose":
        return []
    if kind == "repeat":
        return [data, data, data]
    if kind == "change":
        return [data[:-1] + bytes([data[-1] ^ 1])]
    return [*JUNK, data] if kind == "junk" else [data]


def pass_on(far, data):
    """Sends a datagram to the server. Where the server isn't there yet it is lost, and the client sends it again."""
    try:
        far.send(data)
    except ConnectionRefusedError:
        pass


def relay(near, far, asking, direction, kind, number):
    """Passes datagrams until the client has ended; does something to the one of this number in one direction."""
    client, counts, until = None, [0, 0], time.monotonic() + 60
    while asking.poll() is None and time.monotonic() < until:
        for it in select.select([near, far], [], [], 0.05)[0]:
            way = 0 if it is near else 1
            try:
                data, sender = it.recvfrom(65536)
            except ConnectionRefusedError:                       # the server isn't there yet
                continue
            if way == 0:
                client = sender
            what = kind if way == direction and counts[way] == number else "nothing"
            counts[way] += 1
            for out in outcome(what, data):
                if way == 0:
                    pass_on(far, out)
                else:
                    near.sendto(out, client)


def run(udp, direction, kind, number):
    with (
        socket.socket(socket.AF_INET, socket.SOCK_DGRAM) as near,
        socket.socket(socket.AF_INET, socket.SOCK_DGRAM) as far,
        subprocess.Popen([udp, "server", str(SERVER_PORT)], stdout=subprocess.DEVNULL) as serving,
    ):
        near.bind(("127.0.0.1", CLIENT_PORT))
        far.connect(("127.0.0.1", SERVER_PORT))
        try:
            with subprocess.Popen([udp, "client", TEXT, str(CLIENT_PORT)], stdout=subprocess.PIPE, text=True) as asking:
                relay(near, far, asking, direction, kind, number)
                if asking.poll() is None:
                    asking.kill()
                said, status = asking.communicate()[0], asking.wait()
            status = status or serving.wait(60)
        finally:
            serving.kill()
    if status != 0 or said != f"client: the server says: {TEXT}\n":
        sys.exit(
            f"lossy.py: {kind} datagram {number} of direction {direction}: status {status}, the client says {said!r}"
        )


def main():
    cases = [
        (direction, kind, number)
        for direction in (0, 1)
        for kind in ("lose", "repeat", "change", "junk")
        for number in (0, 1)
    ]
    for case in cases:
        run(sys.argv[1], *case)
    print(f"install: the example over UDP came through {len(cases)} lossy networks")


main()

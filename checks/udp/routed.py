"""A server behind a router, whose link takes packets of 1280 bytes: each in a network namespace of its own."""

from __future__ import annotations

import subprocess
import time
from pathlib import Path

CLIENT, NEAR, FAR, SERVER = "fd00:1::1", "fd00:1::2", "fd00:2::2", "fd00:2::1"


class Routed:
    """The client's end is in this namespace."""

    def __init__(self) -> None:
        self._router, self._end = (subprocess.Popen(["unshare", "-n", "sleep", "600"]) for _ in range(2))
        self.server, self.there = SERVER, ("nsenter", "-t", str(self._end.pid), "-n")

    def __enter__(self) -> Routed:
        for it in (self._router, self._end):
            while Path(f"/proc/{it.pid}/comm").read_text() != "sleep\n":
                time.sleep(0.01)
        there, between = self.there, ("nsenter", "-t", str(self._router.pid), "-n")
        _run("ip", "link", "add", "near", "type", "veth", "peer", "name", "client", "netns", str(self._router.pid))
        _run(*between, "ip", "link", "add", "far", "mtu", "1280", "type", "veth", "peer", "name", "server", "mtu",
             "1280", "netns", str(self._end.pid))
        _run(*between, "sh", "-c", "echo 1 >/proc/sys/net/ipv6/conf/all/forwarding")
        for before, link, address, to in (((), "near", CLIENT, NEAR), (between, "client", NEAR, None),
                                          (between, "far", FAR, None), (there, "server", SERVER, FAR)):
            _run(*before, "ip", "address", "add", f"{address}/64", "dev", link, "nodad")
            _run(*before, "ip", "link", "set", link, "up")
            if to is not None:
                _run(*before, "ip", "route", "add", "fd00::/16", "via", to)
        return self

    def __exit__(self, *_words: object) -> None:
        for it in (self._router, self._end):
            it.kill()
            it.wait()
        subprocess.run(["ip", "link", "delete", "near"], capture_output=True)    # it may have gone with its peer

    def fragments(self) -> int:
        """How many fragments this system has made."""
        lines = Path("/proc/net/snmp6").read_text().splitlines()
        return next(int(line.split()[1]) for line in lines if line.startswith("Ip6FragCreates"))

    def drop_fragments(self) -> None:
        """Has the server's system drop fragments: it has no memory to join them."""
        _run(*self.there, "sh", "-c",
             "cd /proc/sys/net/ipv6 && echo 0 >ip6frag_low_thresh && echo 0 >ip6frag_high_thresh")


def _run(*words: str) -> None:
    subprocess.run(words, check=True)

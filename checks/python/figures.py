"""Times this package beside dissononce, beside ChaCha20Poly1305 of `cryptography` in a loop, beside the library from C,
and beside asyncio's streams without and with TLS, in turns, in time of the processor: the least of each counts. It is
no check. PYTHONPATH has the package: checks/python/figures.py [asyncio | ssl]; the first word leaves out all but
asyncio, the second all but messages of some lengths beside those of `ssl`."""
import asyncio
import concurrent.futures
import datetime
import os
import socket
import ssl
import statistics
import subprocess
import sys
import tempfile
import time
from pathlib import Path

from cryptography import x509
from cryptography.hazmat.primitives import hashes, serialization
from cryptography.hazmat.primitives.asymmetric import ec
from cryptography.hazmat.primitives.ciphers.aead import ChaCha20Poly1305
from dissononce.cipher.chachapoly import ChaChaPolyCipher
from dissononce.dh.x25519.x25519 import X25519DH
from dissononce.hash.sha256 import SHA256Hash
from dissononce.processing.handshakepatterns.interactive.XX import XXHandshakePattern
from dissononce.processing.impl.cipherstate import CipherState
from dissononce.processing.impl.handshakestate import HandshakeState
from dissononce.processing.impl.symmetricstate import SymmetricState

from yulimosar import Config, Handshake, KeyPair, accept, connect, open_connection, start_server
from yulimosar._noise import ffi, lib
from yulimosar.codes import STREAM_OVERHEAD

SOURCES = Path(__file__).resolve().parent.parent.parent / "bindings/python/src"
# Both parties of NN, whose results of X25519 are the xor of the public keys; then the least time of a message, in ns.
LOOP = r"""
#include "noise.h"
#include <stdio.h>
#include <stdlib.h>
#include <time.h>

static int xor_of(void *own, uint8_t of_static, const uint8_t remote[32], uint8_t result[32]) {
    (void)of_static;
    for (int i = 0; i < 32; i++) result[i] = (uint8_t)(((uint8_t *)own)[i] ^ remote[i]);
    return 1;
}

static double now(void) {
    struct timespec at;
    clock_gettime(CLOCK_PROCESS_CPUTIME_ID, &at);
    return at.tv_sec * 1e9 + at.tv_nsec;
}

int main(int count, char **words) {
    static uint8_t keys[2][32] = {{1}, {2}}, room[65535];
    size_t size = (size_t)atoi(words[count - 1]);
    noise_handshake ends[2];
    noise_sender senders[2];
    noise_receiver receivers[2];
    noise_result result;
    uint32_t codes = 0;
    for (int i = 0; i < 2; i++) {
        noise_setup setup = {.responder = (uint8_t)i, .e = {.present = 1, .bytes = {(uint8_t)(i + 1)}}};
        codes |= noise_start(&ends[i], (const uint8_t *)"Noise_NN_25519_ChaChaPoly_SHA256", 32, NULL, 0, &setup);
    }
    for (int i = 0; i < 2; i++) {
        codes |= noise_write_with(&ends[i], NULL, 0, room, sizeof room, &result, xor_of, keys[i]);
        codes |= noise_read_with(&ends[1 - i], room, result.len, &result, xor_of, keys[1 - i]);
    }
    for (int i = 0; i < 2; i++) codes |= noise_finish(&ends[i], 0, &senders[i], &receivers[i]);
    double least = 1e18;
    for (int round = 0; round < 30; round++) {
        double start = now();
        for (int i = 0; i < 200; i++) {
            codes |= noise_seal_in_place(&senders[0], room, sizeof room, size, &result);
            codes |= noise_open(&receivers[1], room, size + 16, &result);
        }
        double taken = (now() - start) / 200;
        if (taken < least) least = taken;
    }
    printf("%f\n", least);
    return codes != 0;
}
"""
ROUNDS = 30
KEY = KeyPair.generate()
CONFIG = Config(pattern="XX", key=KEY, accept_any_key=True)
PLAIN = Config(pattern="NN", accept_any_key=True)
THEIRS = X25519DH().generate_keypair()


def ours():
    first, second = Handshake(CONFIG, True), Handshake(CONFIG, False)
    second.read(first.write())
    first.read(second.write())
    second.read(first.write())
    return first.split()[0], second.split()[1]


def theirs():
    ends = [HandshakeState(SymmetricState(CipherState(ChaChaPolyCipher()), SHA256Hash()), X25519DH()) for _ in (0, 1)]
    for initiator, end in zip((True, False), ends):
        end.initialize(XXHandshakePattern(), initiator, b"", s=THEIRS)
    for index in range(3):
        message = bytearray()
        made = ends[index % 2].write_message(b"", message)
        taken = ends[1 - index % 2].read_message(bytes(message), bytearray())
    return made[0], taken[0]


def turns(calls, count):
    """The least time of each call, of rounds that take turns, in seconds; each round makes it `count` times."""
    least = [float("inf")] * len(calls)
    for _ in range(ROUNDS):
        for index, call in enumerate(calls):
            start = time.process_time()
            for _ in range(count):
                call()
            least[index] = min(least[index], (time.process_time() - start) / count)
    return least


def messages(size):
    """A message, sealed and opened: with copies, in place, by dissononce, and by a user's own loop over a cipher."""
    (sender, receiver), (placing, taking), (sealing, opening), payload = ours(), ours(), theirs(), bytes(size)
    cipher, count, room = ChaCha20Poly1305(bytes(32)), 0, bytearray(size + 16)

    def in_place():
        placing.seal_in_place(room, size)
        taking.open_in_place(room)

    def own_loop():
        nonlocal count
        nonce = bytes(4) + count.to_bytes(8, "little")
        count += 1
        cipher.decrypt(nonce, cipher.encrypt(nonce, payload, b""), b"")

    return turns([lambda: receiver.open(sender.seal(payload)), in_place,
                  lambda: opening.decrypt_with_ad(b"", sealing.encrypt_with_ad(b"", payload)), own_loop], 200)


def from_c(sizes):
    """The least time of a message in a loop in C, in seconds."""
    with tempfile.TemporaryDirectory() as room:
        source, program = Path(room, "loop.c"), Path(room, "loop")
        source.write_text(LOOP)
        words = ["-O2", f"-I{SOURCES}", f"-Wa,-I{SOURCES / 'assembly'}", source, SOURCES / "assembly.S"]
        subprocess.run(["gcc", *words, "-o", program], check=True)
        return [float(subprocess.check_output([program, str(size)])) / 1e9 for size in sizes]


async def echo(reader, writer):
    """Reads to the end, and answers with a byte."""
    while await reader.read(1 << 16):
        pass
    writer.write(b"x")
    writer.close()


def clocks():
    return time.process_time(), time.perf_counter()


def rates(count, since):
    """The bytes a second by the processor's time, and by the clock on the wall."""
    return [count / (now - start) for now, start in zip(clocks(), since)]


async def carry(listen, connect, size=16384, count=1000):
    """The bytes a second through a connection, in writes of a size, with both parties in this thread."""
    server = await listen()
    reader, writer = await connect(*server.sockets[0].getsockname())
    payload, since = bytes(size), clocks()
    for _ in range(count):
        writer.write(payload)
        await writer.drain()
    if writer.can_write_eof():
        writer.write_eof()
        await reader.read()
    else:
        writer.close()    # TLS has no end of one direction
        await writer.wait_closed()
    made = rates(size * count, since)
    writer.close()
    server.close()
    return made


class Taker(asyncio.BufferedProtocol):
    """Opens what comes, and no more: what is left of the time of a channel without a reader."""

    def __init__(self, receiver, total, done):
        self.receiver, self.left, self.done = receiver, total, done
        self.room = bytearray(1 << 17)
        self.view, self.place = memoryview(self.room), ffi.from_buffer(self.room)
        self.start = self.end = 0
        self.result = ffi.new("noise_stream_result *")

    def get_buffer(self, sizehint):
        rest = self.end - self.start
        self.view[:rest] = self.view[self.start:self.end]
        self.start, self.end = 0, rest
        return self.view[rest:]

    def buffer_updated(self, count):
        self.end += count
        while not lib.noise_stream_read(self.receiver, self.place + self.start, self.end - self.start, self.result):
            self.start += self.result.used
            self.left -= self.result.len
        if not self.left:
            self.done.set_result(None)


async def bare(size=16384, count=1000):
    """The bytes a second of the same writes by protocols that do nothing but the library's calls."""
    ends = Handshake(PLAIN, True), Handshake(PLAIN, False)
    ends[1].read(ends[0].write())
    ends[0].read(ends[1].write())
    sender, receiver = ends[0].stream()[0], ends[1].stream()[1]
    loop, payload, result = asyncio.get_running_loop(), bytes(size), ffi.new("noise_stream_result *")
    done = loop.create_future()
    server = await loop.create_server(lambda: Taker(receiver._at[0], size * count, done), "127.0.0.1", 0)
    transport, protocol = await loop.create_connection(
        lambda: asyncio.StreamReaderProtocol(asyncio.StreamReader()), *server.sockets[0].getsockname())
    since = clocks()
    for _ in range(count):
        frame = bytearray(size + STREAM_OVERHEAD)
        with ffi.from_buffer(frame) as room:
            lib.noise_stream_write(sender._at[0], payload, size, room, len(frame), result)
        transport.write(frame)
        await protocol._drain_helper()
    await done
    made = rates(size * count, since)
    transport.close()
    server.close()
    return made


def tls():
    """The contexts of a server and a client, for the cipher of this package."""
    key, name = ec.generate_private_key(ec.SECP256R1()), x509.Name([])
    now = datetime.datetime.utcnow()
    words = x509.CertificateBuilder().subject_name(name).issuer_name(name).public_key(key.public_key())
    words = words.serial_number(1).not_valid_before(now).not_valid_after(now + datetime.timedelta(1))
    contexts = ssl.SSLContext(ssl.PROTOCOL_TLS_SERVER), ssl.SSLContext(ssl.PROTOCOL_TLS_CLIENT)
    contexts[1].check_hostname, contexts[1].verify_mode = False, ssl.CERT_NONE
    for it in contexts:
        it.maximum_version = ssl.TLSVersion.TLSv1_2    # where Python can choose the cipher
        it.set_ciphers("ECDHE-ECDSA-CHACHA20-POLY1305")
    with tempfile.NamedTemporaryFile() as file:
        form = serialization.PrivateFormat.PKCS8
        file.write(key.private_bytes(serialization.Encoding.PEM, form, serialization.NoEncryption()))
        file.write(words.sign(key, hashes.SHA256()).public_bytes(serialization.Encoding.PEM))
        file.flush()
        contexts[0].load_cert_chain(file.name)
    return contexts


def streams(rounds=ROUNDS):
    """Prints the bytes a second of each way through asyncio: the best round, the median, and beside this package."""
    server, client = tls()
    ways = {
        "this package": lambda: carry(lambda: start_server(echo, "127.0.0.1", 0, PLAIN),
                                      lambda *address: open_connection(*address, PLAIN)),
        "protocols that only call the library": bare,
        "plain streams": lambda: carry(lambda: asyncio.start_server(echo, "127.0.0.1", 0), asyncio.open_connection),
        "streams with ssl": lambda: carry(lambda: asyncio.start_server(echo, "127.0.0.1", 0, ssl=server),
                                          lambda *address: asyncio.open_connection(*address, ssl=client)),
    }
    made = {name: [] for name in ways}
    begun = os.getloadavg()[0]
    for _ in range(rounds):
        for name, way in ways.items():
            made[name].append([it / 1e6 for it in asyncio.run(way())])
    print(f"16 KiB through asyncio, MB/s, {rounds} rounds, at load {begun:.1f} to {os.getloadavg()[0]:.1f}:")
    for name, both in made.items():
        own, wall = zip(*both)
        times = statistics.median(it[0] / base[0] for it, base in zip(both, made["this package"]))
        print(f"  {name}: {max(own):.0f} of processor time at best, {statistics.median(own):.0f} as the median; "
              f"by the clock {max(wall):.0f} and {statistics.median(wall):.0f}; {times:.2f} of this package's speed")


def pairs(contexts):
    """Connected sockets, whose handshakes are done: of this package, and of ssl."""
    made = []
    for far_end, near_end in (
        (lambda it: accept(it, PLAIN), lambda it: connect(it, PLAIN)),
        (lambda it: contexts[0].wrap_socket(it, server_side=True), contexts[1].wrap_socket),
    ):
        near, far = socket.socketpair()
        with concurrent.futures.ThreadPoolExecutor() as pool:
            other = pool.submit(far_end, far)
            made.append((near_end(near), other.result()))
    return made


def carried(pair, size, count=400):
    """The seconds of the processor for a message over sockets, with both parties in this thread."""
    payload, room, since = bytes(size), memoryview(bytearray(size)), time.process_time()
    for _ in range(count):
        pair[0].sendall(payload)
        left = size
        while left:
            left -= pair[1].recv_into(room, left)
    return (time.process_time() - since) / count


def beside_ssl(rounds=ROUNDS):
    """Prints how much longer a message takes with ssl: the median of rounds in turns, over sockets and asyncio."""
    contexts = tls()
    both = pairs(contexts)
    ways = [
        lambda size: asyncio.run(carry(lambda: start_server(echo, "127.0.0.1", 0, PLAIN),
                                       lambda *address: open_connection(*address, PLAIN), size))[0],
        lambda size: asyncio.run(carry(lambda: asyncio.start_server(echo, "127.0.0.1", 0, ssl=contexts[0]),
                                       lambda *address: asyncio.open_connection(*address, ssl=contexts[1]), size))[0],
    ]
    print(f"a message with ssl, beside this package, {rounds} rounds, load {os.getloadavg()[0]:.1f}:")
    for size in (64, 1024, 16384):
        over = [carried(both[1], size) / carried(both[0], size) for _ in range(rounds)]
        through = [ways[0](size) / ways[1](size) for _ in range(rounds)]
        print(f"  {size} bytes: {said(over)} times the time over sockets, {said(through)} through asyncio's streams")


def said(times):
    """The median, and between what half of the rounds were."""
    first, median, last = statistics.quantiles(times, n=4)
    return f"{median:.2f} ({first:.2f} to {last:.2f})"


def imports():
    """The time of an import, less that of a process without it."""
    def run(words):
        before = os.times()
        subprocess.run([sys.executable, "-c", words], check=True)
        after = os.times()
        return after.children_user + after.children_system - before.children_user - before.children_system
    pairs = [(run("import yulimosar"), run("pass")) for _ in range(15)]
    return min(a for a, _ in pairs) - min(b for _, b in pairs), statistics.median(a - b for a, b in pairs)


def main():
    if sys.argv[1:] == ["asyncio"]:
        streams()
        return
    if sys.argv[1:] == ["ssl"]:
        beside_ssl()
        return
    own, other = turns([ours, theirs], 5)
    print(f"XX, both parties: {own * 1e3:.2f} ms, dissononce {other * 1e3:.2f} ms: {other / own:.1f} times")
    sizes = (64, 1024, 16384)
    for size, least in zip(sizes, from_c(sizes)):
        own, placed, other, loop = messages(size)
        print(f"{size} bytes, sealed and opened: {own * 1e6:.2f} us, {other / own:.1f} times as fast as dissononce, "
              f"{loop / own:.1f} as cryptography in a loop; in place {placed * 1e6:.2f} us, {placed / least:.2f} of C")
    streams()
    beside_ssl()
    least, median = imports()
    print(f"import: {least * 1e3:.0f} ms at least, {median * 1e3:.0f} ms as the median")


main()

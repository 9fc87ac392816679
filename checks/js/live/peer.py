"""The other party of a channel, by the standard and without the library: X25519, ChaCha20-Poly1305, SHA-256 and HMAC
are those of Python and cryptography.

peer.py PATTERN OWN_SECRET PEER_KEY PSK ADDRESS ORDER SIZE COUNT: COUNT connections to ADDRESS as the initiator, one
after another; where ADDRESS begins with '@' it listens there, prints the address, and is the responder. In each both
parties send SIZE bytes, number n is n % 251, and ORDER says how this one ends: `ends` at once, `waits` for the other's
end before, `closes` without reading. Of each it prints what it has got: how many bytes, their SHA-256, whether the
other has ended; whether this one has ended, and the error, if any. PSK is `-` where there is none.
"""

import hashlib
import hmac
import socket
import sys
import threading

from cryptography.exceptions import InvalidTag
from cryptography.hazmat.primitives.asymmetric.x25519 import X25519PrivateKey, X25519PublicKey
from cryptography.hazmat.primitives.ciphers.aead import ChaCha20Poly1305
from cryptography.hazmat.primitives.serialization import Encoding, PublicFormat

PATTERNS = {    # before the messages, and the messages (Noise, 7.5 and 9.4)
    "NN": ("", "e", "e ee"),
    "XX": ("", "e", "e ee s es", "s se"),
    "IK": ("r", "e es s ss", "e ee se"),
    "KK": ("ir", "e es ss", "e ee se"),
}
MOST = 65519


def raw(key):
    """The bytes of a public key."""
    return key.public_bytes(Encoding.Raw, PublicFormat.Raw)


def hkdf(chaining_key, text, count):
    """HKDF (4.3)."""
    temporary, outputs = hmac.digest(chaining_key, text, "sha256"), [b""]
    for number in range(1, count + 1):
        outputs.append(hmac.digest(temporary, outputs[-1] + bytes([number]), "sha256"))
    return outputs[1:]


class Cipher:
    """CipherState (5.1)."""

    def __init__(self, key):
        self.cipher, self.nonce = ChaCha20Poly1305(key), 0

    def next(self):
        """The next nonce."""
        self.nonce += 1
        return bytes(4) + (self.nonce - 1).to_bytes(8, "little")

    def encrypt(self, text, data=b""):
        """EncryptWithAd."""
        return self.cipher.encrypt(self.next(), text, data)

    def decrypt(self, text, data=b""):
        """DecryptWithAd."""
        return self.cipher.decrypt(self.next(), text, data)


class Handshake:
    """SymmetricState and HandshakeState (5.2 and 5.3), of which each message has an empty payload."""

    def __init__(self, name, initiator, static, remote, psk):
        base, _, self.place = name.partition("psk")
        self.initiator, self.static, self.remote, self.psk = initiator, static, remote, psk
        before, *messages = PATTERNS[base]
        self.messages = [message.split() for message in messages]
        if self.place:
            self.messages[max(int(self.place) - 1, 0)].insert(0 if self.place == "0" else 99, "psk")
        whole = f"Noise_{name}_25519_ChaChaPoly_SHA256".encode()
        self.hash = whole.ljust(32, b"\0") if len(whole) <= 32 else hashlib.sha256(whole).digest()
        self.chaining_key, self.cipher = self.hash, None
        self.ephemeral, self.remote_ephemeral = X25519PrivateKey.generate(), None
        self.mix_hash(b"live")
        for role in "ir":
            if role in before:
                self.mix_hash(raw(static.public_key()) if (role == "i") == initiator else remote)

    def mix_hash(self, text):
        """MixHash."""
        self.hash = hashlib.sha256(self.hash + text).digest()

    def mix_key(self, text):
        """MixKey."""
        self.chaining_key, key = hkdf(self.chaining_key, text, 2)
        self.cipher = Cipher(key)

    def encrypted(self, text):
        """EncryptAndHash."""
        text = self.cipher.encrypt(text, self.hash) if self.cipher else text
        self.mix_hash(text)
        return text

    def decrypted(self, text):
        """DecryptAndHash."""
        plain = self.cipher.decrypt(text, self.hash) if self.cipher else text
        self.mix_hash(text)
        return plain

    def shared(self, token):
        """A token that is the same at both: psk, or a DH."""
        if token == "psk":
            self.chaining_key, text, key = hkdf(self.chaining_key, self.psk, 3)
            self.mix_hash(text)
            self.cipher = Cipher(key)
            return
        own, other = token if self.initiator else token[::-1]
        remote = self.remote_ephemeral if other == "e" else self.remote
        pair = self.ephemeral if own == "e" else self.static
        self.mix_key(pair.exchange(X25519PublicKey.from_public_bytes(remote)))

    def write(self, tokens):
        """WriteMessage."""
        message = b""
        for token in tokens:
            if token == "e":
                key = raw(self.ephemeral.public_key())
                message += key
                self.mix_hash(key)
                if self.place:
                    self.mix_key(key)
            elif token == "s":
                message += self.encrypted(raw(self.static.public_key()))
            else:
                self.shared(token)
        return message + self.encrypted(b"")

    def read(self, tokens, message):
        """ReadMessage."""
        for token in tokens:
            if token == "e":
                key, message = message[:32], message[32:]
                self.remote_ephemeral = key
                self.mix_hash(key)
                if self.place:
                    self.mix_key(key)
            elif token == "s":
                size = 48 if self.cipher else 32
                key, message = self.decrypted(message[:size]), message[size:]
                if key != self.remote:
                    raise ValueError("another static key")
            else:
                self.shared(token)
        if self.decrypted(message) != b"":
            raise ValueError("a payload")

    def split(self):
        """Split: to send, and to receive."""
        first, second = map(Cipher, hkdf(self.chaining_key, b"", 2))
        return (first, second) if self.initiator else (second, first)


def exactly(connection, count):
    """So many bytes."""
    parts = b""
    while len(parts) < count:
        part = connection.recv(min(count - len(parts), 1 << 20))
        if not part:
            raise EOFError("cut")
        parts += part
    return parts


def framed(message):
    """A message after its length."""
    return len(message).to_bytes(2, "big") + message


def take(connection):
    """The message of the next frame."""
    return exactly(connection, int.from_bytes(exactly(connection, 2), "big"))


class End:
    """This party of one connection, and what it reports."""

    def __init__(self, connection, words, initiator):
        self.connection, self.got, self.other_ended, self.ended, self.error = (
            connection, hashlib.sha256(), False, False, "-",
        )
        self.count, self.order, self.size = 0, words.order, words.size
        self.arguments = (words.pattern, initiator, words.static, words.remote, words.psk)
        self.over = threading.Event()

    def shake(self):
        """The handshake."""
        handshake = Handshake(*self.arguments)
        for number, tokens in enumerate(handshake.messages):
            if (number % 2 == 0) == handshake.initiator:
                self.connection.sendall(framed(handshake.write(tokens)))
            else:
                handshake.read(tokens, take(self.connection))
        return handshake.split()

    def send(self, cipher):
        """Sends all, and the end when it is due."""
        payload, at, size = bytes(range(251)) * (self.size // 251 + 1), 0, 1
        try:
            while at < self.size:
                size = min(size * 3, MOST, self.size - at)
                self.connection.sendall(framed(cipher.encrypt(payload[at : at + size])))
                at += size
            if self.order == "waits":
                self.over.wait(120)
                if not self.other_ended:
                    return
            self.ended = True
            self.connection.sendall(framed(cipher.encrypt(b"")))
        except OSError as error:
            self.error = f"send:{type(error).__name__}"

    def receive(self, cipher):
        """Takes all that comes, up to the end."""
        try:
            while True:
                payload = cipher.decrypt(take(self.connection))
                if not payload:
                    self.other_ended = True
                    return
                self.got.update(payload)
                self.count += len(payload)
        finally:
            self.over.set()

    def run(self):
        """All of it."""
        try:
            sending, receiving = self.shake()
            sender = threading.Thread(target=self.send, args=(sending,))
            sender.start()
            try:
                if self.order != "closes":
                    self.receive(receiving)
            except (InvalidTag, EOFError, OSError, ValueError):
                self.connection.shutdown(socket.SHUT_RDWR)
                raise
            finally:
                sender.join()
        except (InvalidTag, EOFError, OSError, ValueError) as error:
            self.error = type(error).__name__
        self.connection.close()
        print(self.count, self.got.hexdigest(), int(self.other_ended), int(self.ended), self.error, flush=True)


class Words:
    """The words of the command."""

    def __init__(self, pattern, secret, peer, psk, address, order, size, count):
        self.pattern, self.static = pattern, X25519PrivateKey.from_private_bytes(bytes.fromhex(secret))
        self.remote, self.psk = bytes.fromhex(peer), b"" if psk == "-" else bytes.fromhex(psk)
        self.address, self.order, self.size, self.count = address, order, int(size), int(count)


def main():
    """Runs the connections."""
    words = Words(*sys.argv[1:])
    host, port = words.address.lstrip("@").split(":")
    listens = words.address.startswith("@")
    if listens:
        listener = socket.create_server((host, int(port)))
        print("%s:%d" % listener.getsockname(), flush=True)
    for _ in range(words.count):
        connection = listener.accept()[0] if listens else socket.create_connection((host, int(port)))
        connection.settimeout(120)
        End(connection, words, not listens).run()


main()

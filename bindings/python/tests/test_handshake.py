"""Handshakes message by message: all patterns, psks, refusals, and what an attacker or a careless caller does."""
import copy
import gc
import itertools
import os
import pickle
import threading
from pathlib import Path

import pytest
from toys import FUNDAMENTAL, Xor, configs, with_static

from yulimosar import (CallError, Code, Config, ConfigError, Handshake, KeyPair, LowOrderKey, MessageRefused, Needs,
                       PeerRefused, PskWanted, check_pattern, layout)

TOP = Path(os.environ.get("NOISE_TOP") or Path(__file__).resolve().parents[3])
TEXTS = {path.stem: path.read_text() for path in sorted((TOP / "examples/patterns").glob("*.pattern"))}
OWN = {name: text for name, text in TEXTS.items() if name != "broken"}


def psk_names():
    for name in FUNDAMENTAL:
        count = len(layout(name).messages)
        for places in itertools.chain.from_iterable(itertools.combinations(range(count + 1), n) for n in (0, 1, 2)):
            yield name + "+".join(f"psk{place}" for place in places)


def shake(initiator, responder, payloads=(b"one", b"", b"three" * 100)):
    """Runs a handshake to its end, and compares each message's length with the layout."""
    ends, sent = (initiator, responder), []
    read = layout(initiator.config.pattern)
    for index, message in enumerate(read.messages):
        writer, reader = ends if message.initiator else ends[::-1]
        payload = payloads[index % len(payloads)]
        assert writer.writes_next and not reader.writes_next and writer.message == index
        sent.append(writer.write(payload))
        assert len(sent[-1]) == message.length + len(payload)
        assert sent[-1][message.pieces[0].offset:] == sent[-1]
        assert reader.read(sent[-1]) == payload
    assert initiator.done and responder.done and initiator.hash == responder.hash
    return sent


def pair(pattern, **words):
    first, second = configs(pattern, **words)
    return Handshake(first, True), Handshake(second, False)


def check_transport(initiator, responder):
    """Both directions carry messages; in a one-way pattern only one does."""
    one_way = layout(initiator.config.pattern).one_way
    (send_a, receive_a), (send_b, receive_b) = initiator.split(), responder.split()
    for size in (0, 1, 64, 2047, 2048, 2049, 65519):
        payload = os.urandom(size)
        assert receive_b.open(send_a.seal(payload)) == payload
        if one_way:
            with pytest.raises(CallError) as caught:
                send_b.seal(payload)
            assert caught.value.code == Code.ONE_WAY
        else:
            assert receive_a.open(send_b.seal(payload)) == payload
    assert send_a.nonce == receive_b.nonce == 7


@pytest.mark.parametrize("pattern", list(psk_names()))
def test_fundamental_patterns(pattern):
    initiator, responder = pair(pattern, interval=3)
    shake(initiator, responder)
    statics = with_static(pattern)
    assert (responder.peer_key is not None, initiator.peer_key is not None) == statics
    assert initiator.protocol == f"Noise_{pattern}_25519_ChaChaPoly_SHA256"
    check_transport(initiator, responder)
    assert initiator.closed and initiator.hash == responder.hash


@pytest.mark.parametrize("name", OWN)
def test_patterns_of_texts(name):
    """The deferred patterns, and IKpsk2 as a text, whose hash is that of the name."""
    initiator, responder = pair(OWN[name])
    shake(initiator, responder)
    check_transport(initiator, responder)


def test_a_text_of_ones_own():
    text = "MINE7:\n  <- s\n  ...\n  -> e, es\n  <- e, ee\n"
    initiator, responder = pair(text)
    shake(initiator, responder)
    assert initiator.protocol == "Noise_MINE7_25519_ChaChaPoly_SHA256"


@pytest.mark.parametrize("pattern", FUNDAMENTAL)
def test_x25519(pattern):
    """With cryptography's key pairs in place of toys."""
    initiator, responder = pair(pattern, toy=False)
    shake(initiator, responder)
    check_transport(initiator, responder)


@pytest.mark.parametrize("text, code, line", [
    ("xx:\n", Code.HEADING, 1),
    ("AB:\n  -> e\n  ee\n", Code.ARROW, 3),
    ("AB:\n  -> e, x\n", Code.TOKEN, 2),
    ("AB:\n  -> ee\n  ...\n  -> e\n", Code.PRE_MESSAGE, 2),
    ("AB:\n  -> e\n  -> e\n", Code.TURN, 3),
    ("ABpsk1:\n  -> e\n", Code.PSK_PLACE, 2),
    ("NN:\n  -> e\n", Code.NAME_TAKEN, 1),
    ("AB:\n  -> e\n  <- e, ee", Code.ENDING, 3),
    ("AB:\n" + "  -> e\n  <- e\n" * 5, Code.LIMIT, 10),
])
def test_first_fault(text, code, line):
    fault = check_pattern(text)
    assert (fault.code, fault.line) == (code, line)
    assert f"line {line}: {code!s}" == str(fault)
    with pytest.raises(ConfigError) as caught:
        layout(text if text.endswith("\n") else text + "\0\n")
    assert caught.value.field == "pattern"


def test_broken_rule():
    broken = "MYKN:\n  -> s\n  ...\n  -> e\n  <- e, se\n"    # examples/patterns/broken.pattern
    fault = check_pattern(broken)
    assert fault.code == Code.RULE and fault.rule == 4    # as `./noise check` says of it
    with pytest.raises(ConfigError):
        Handshake(Config(pattern=broken, key=Xor(), accept_any_key=True), True)
    assert all(check_pattern(text) is None for text in OWN.values())


def test_layout_of_xxpsk3():
    read = layout("XXpsk3")
    assert [message.tokens for message in read.messages] \
        == [("e",), ("e", "ee", "s", "es"), ("s", "se", "psk")]
    assert [(piece.name, piece.offset, piece.length, piece.encrypted) for piece in read.messages[1].pieces] == [
        ("e", 0, 32, False), ("ee", 32, 0, False), ("s", 32, 32, True), ("tag", 64, 16, False), ("es", 80, 0, False),
        ("payload", 80, 0, True), ("tag", 80, 16, False)]
    assert read.messages[0].length == 48    # a psk handshake encrypts its first payload, too
    assert (read.psks, read.one_way, read.initiator_before, read.responder_before) == (1, False, (), ())
    assert read.needs(True) == read.needs(False) == Needs(True, True, False, False)
    read = layout("K")
    assert (read.one_way, read.initiator_before, read.responder_before) == (True, ("s",), ("s",))
    assert read.needs(True) == Needs(True, True, False, True) and read.needs(False) == Needs(False, True, False, True)


@pytest.mark.parametrize("name", ["", "XY", "Noise_XX_25519_AESGCM_SHA256", "XXpsk9", "XX\x00", "\ud800", "x" * 10000])
def test_unknown_names(name):
    with pytest.raises(ConfigError) as caught:
        layout(name)
    assert caught.value.field == "pattern" and caught.value.fault == Code.NAME


def test_each_byte_of_each_message():
    """A flipped bit is refused, at the token that it is in, and the handshake has ended; or the hashes differ."""
    for pattern in ("XX", "IKpsk2", "KK"):
        read = layout(pattern)
        for index, message in enumerate(read.messages):
            for at in range(message.length):
                check_flip(pattern, index, at)


def check_flip(pattern, index, at):
    initiator, responder = pair(pattern)
    ends = (initiator, responder)
    for number, message in enumerate(layout(pattern).messages):
        writer, reader = ends if message.initiator else ends[::-1]
        sent = bytearray(writer.write())
        if number == index:
            sent[at] ^= 1
        try:
            reader.read(sent)
        except MessageRefused as refused:
            assert refused.message > index and refused.token in (*message.tokens, "payload")
            assert isinstance(refused.cause, (Code, PeerRefused)) and reader.closed
            with pytest.raises(CallError):
                reader.write()
            return
    assert initiator.hash != responder.hash


def test_short_messages():
    message = pair("XX")[0].write()
    for size in range(len(message)):
        with pytest.raises(MessageRefused) as caught:
            pair("XX")[1].read(message[:size])
        assert (caught.value.message, caught.value.token, caught.value.cause) == (1, "e", Code.SHORT)
        assert str(caught.value) == f"handshake message 1, token e: {Code.SHORT!s}"


def test_refusal_names_the_token():
    first, second = pair("XX"), pair("XX")
    first[1].read(first[0].write())
    second[1].read(second[0].write())
    with pytest.raises(MessageRefused) as caught:
        first[0].read(second[1].write())
    assert (caught.value.message, caught.value.token, caught.value.cause) == (2, "s", Code.TAG)


def test_calls_out_of_turn_change_nothing():
    initiator, responder = pair("XX")
    for call, code in ((responder.write, Code.NOT_YOUR_TURN), (lambda: initiator.read(b"x"), Code.NOT_YOUR_TURN),
                       (lambda: initiator.write(bytes(65536)), Code.TOO_LONG), (initiator.split, Code.NOT_DONE),
                       (initiator.datagrams, Code.NOT_DONE), (initiator.ciphers, Code.NOT_DONE),
                       (lambda: initiator.datagrams(65), Code.WINDOW),
                       (lambda: initiator.set_psk(bytes(32)), Code.PSK_COUNT)):
        with pytest.raises(CallError) as caught:
            call()
        assert caught.value.code == code
    shake(initiator, responder)
    with pytest.raises(CallError) as caught:
        initiator.write()
    assert caught.value.code == Code.DONE
    with pytest.raises(CallError):
        responder.read(b"")
    initiator.split()
    for call in (initiator.split, initiator.ciphers, initiator.datagrams, initiator.write, lambda: initiator.read(b"")):
        with pytest.raises(CallError) as caught:
            call()
        assert caught.value.code == Code.ENDED and "used up" in str(caught.value)
    assert initiator.closed and initiator.done and initiator.message == 3 and initiator.hash == responder.hash
    initiator.close()
    for call in (initiator.split, initiator.write, lambda: initiator.message, lambda: initiator.hash):
        with pytest.raises(CallError) as caught:
            call()
        assert caught.value.code is None


def test_messages_of_any_length():
    initiator, responder = pair("NN")
    payload = os.urandom(65535 - 32)
    assert responder.read(initiator.write(payload)) == payload
    with pytest.raises(MessageRefused) as caught:
        pair("NN")[1].read(bytes(65536))
    assert caught.value.cause == Code.LENGTH


@pytest.mark.parametrize("initiator, words, field", [
    (True, {"pattern": "XX", "accept_any_key": True}, "key"),
    (True, {"pattern": "XX", "key": Xor()}, "verify"),
    (True, {"pattern": "NN"}, "verify"),
    (True, {"pattern": "NN", "verify": bool}, "verify"),
    (True, {"pattern": "IK", "key": Xor(), "accept_any_key": True}, "peer_key"),
    (True, {"pattern": "NK", "peer_key": bytes(31)}, "peer_key"),
    (False, {"pattern": "NK", "key": Xor(), "peer_key": bytes(32)}, "peer_key"),
    (True, {"pattern": "NNpsk0", "psks": [bytes(31)]}, "psks"),
    (True, {"pattern": "NNpsk0", "psks": [bytes(32)] * 2}, "psks"),
    (True, {"pattern": "NN", "psks": [bytes(32)], "accept_any_key": True}, "psks"),
    (True, {"pattern": "NN", "psks": [bytes(32)] * 10, "accept_any_key": True}, "psks"),
    (True, {"pattern": "NNpsk0", "psk_for": bytes}, "psk_for"),
    (False, {"pattern": "XXpsk2", "key": Xor(), "psk_for": bytes}, "psk_for"),
    (False, {"pattern": "XXpsk3", "key": Xor(), "psk_for": bytes, "psks": [bytes(32)]}, "psk_for"),
    (True, {"pattern": "NN", "psk_for": bytes, "accept_any_key": True}, "psk_for"),
    (True, {"pattern": "NN", "prologue": bytes(65536), "accept_any_key": True}, "prologue"),
    (True, {"pattern": "NN", "interval": -1, "accept_any_key": True}, "interval"),
    (True, {"pattern": "NN", "interval": 1 << 64, "accept_any_key": True}, "interval"),
    (True, {"pattern": "XX", "handshake_limit": 95, "key": Xor(), "accept_any_key": True}, "handshake_limit"),
    (True, {"pattern": "EE:\n  <- e\n  ...\n  -> e, ee\n", "accept_any_key": True}, "pattern"),
])
def test_faults_of_a_config(initiator, words, field):
    with pytest.raises(ConfigError) as caught:
        Config(**words).check(initiator)
    assert caught.value.field == field and f"Config.{field}: " in str(caught.value)
    with pytest.raises(ValueError):
        Config(**words).check(initiator)


def test_psks_late():
    first, second = configs("XXpsk3")
    initiator, responder = Handshake(first, True), Handshake(Config(pattern="XXpsk3", key=second.key, prologue=b"test",
                                                                    verify=lambda key: True, ephemeral=Xor), False)
    responder.read(initiator.write())
    initiator.read(responder.write())
    message = initiator.write()
    with pytest.raises(PskWanted) as caught:
        responder.read(message)
    assert caught.value.peer_key == first.key.public and not responder.closed
    with pytest.raises(ValueError):
        responder.set_psk(b"short")
    responder.set_psk(first.psks[0])
    responder.read(message)
    assert initiator.hash == responder.hash


@pytest.mark.parametrize("pattern, message", [("XXpsk3", 3), ("IKpsk2", 2), ("IKpsk1", 1)])
def test_psk_for(pattern, message):
    """A secret for each peer; what else the function may do; and a peer with another's secret."""
    secret = bytes([1] * 32)
    for answer, ends_well in (([secret], True), ([bytes(32)], False), ([], False), ([b"x"], False), (None, False)):
        first, second = configs(pattern, psks=[secret])
        asked = []

        def psk_for(key):
            asked.append(key)
            if answer is None:
                raise KeyError("not on the list")
            return answer

        words = {name: getattr(second, name) for name in ("pattern", "key", "prologue", "ephemeral")}
        ends = Handshake(first, True), Handshake(Config(**words, psk_for=psk_for, verify=lambda key: True), False)
        try:
            shake(*ends)
            assert ends_well
        except MessageRefused as refused:
            assert not ends_well and refused.message == message
            assert isinstance(refused.cause, (Code, ConfigError, KeyError))
        assert asked == [first.key.public]


def test_verify_is_called_before_anything_else():
    """At once if the key is known from the start; else when its message has been read."""
    for pattern, initiator, message in (("KK", True, 0), ("KK", False, 0), ("XX", True, 2), ("XX", False, 3)):
        for answer in (False, None, 1, "yes", KeyError("database")):
            asked = []

            def verify(key):
                asked.append(key)
                if isinstance(answer, Exception):
                    raise answer
                return answer

            first, second = configs(pattern)
            mine, other = (first, second) if initiator else (second, first)
            words = {name: getattr(mine, name) for name in ("pattern", "key", "prologue", "peer_key", "ephemeral")}
            mine = Config(**words, verify=verify)
            ends = [Handshake(mine, initiator), Handshake(other, not initiator)]
            with pytest.raises(MessageRefused) as caught:
                shake(*(ends if initiator else ends[::-1]))
            assert caught.value.message == message and caught.value.token is None
            assert isinstance(caught.value.cause, (PeerRefused, KeyError)) and ends[0].closed
            assert asked == [other.key.public]


def test_another_key_than_the_one_expected():
    first, second = configs("XX")
    initiator = Handshake(Config(pattern="XX", key=Xor(), peer_key=bytes(32), prologue=b"test", ephemeral=Xor), True)
    responder = Handshake(second, False)
    responder.read(initiator.write())
    with pytest.raises(MessageRefused) as caught:
        initiator.read(responder.write())
    assert caught.value.message == 2 and isinstance(caught.value.cause, PeerRefused)


def test_close_from_inside_verify():
    handshakes = []

    def verify(key):
        handshakes[0].close()
        return True

    first, second = configs("XX")
    responder = Handshake(second, False)
    initiator = Handshake(Config(pattern="XX", key=first.key, verify=verify, prologue=b"test", ephemeral=Xor), True)
    handshakes.append(initiator)
    responder.read(initiator.write())
    with pytest.raises(CallError):
        initiator.read(responder.write())


def test_low_order_keys():
    """The seven points of order 1, 2, 4 and 8, as https://cr.yp.to/ecdh.html#validate lists them, give zeros."""
    for point in ("00" * 32, "01" + "00" * 31, "e0eb7a7c3b41b8ae1656e3faf19fc46ada098deb9c32b1fd866205165f49b800",
                  "5f9c95bca3508c24b1d0b1559c83ef5b04445cc4581c8e86d8224eddd09f1157", "ecffffff" + "ff" * 27 + "7f",
                  "edffffff" + "ff" * 27 + "7f", "eeffffff" + "ff" * 27 + "7f"):
        with pytest.raises(LowOrderKey):
            KeyPair.generate().agree(bytes.fromhex(point))
        responder = Handshake(Config(pattern="NN", accept_any_key=True), False)
        responder.read(bytes.fromhex(point))
        with pytest.raises(MessageRefused) as caught:
            responder.write()
        assert isinstance(caught.value.cause, LowOrderKey) and responder.closed


def test_x25519_of_rfc_7748():
    """Section 6.1."""
    alice = KeyPair.from_secret(bytes.fromhex("77076d0a7318a57d3c16c17251b26645df4c2f87ebc0992ab177fba51db92c2a"))
    assert alice.public.hex() == "8520f0098930a754748b7ddcb43ef75a0dbf3a0d26381af4eba4a98eaa9b4e6a"
    bob = KeyPair.from_secret(bytes.fromhex("5dab087e624a8a4b79e17f8b83800ee66f3bb1292618b6fd1c2f8b27ff88e0eb"))
    assert alice.agree(bob.public).hex() == "4a5d9d5ba4ce2de1728e3bf480350f25e07e21c947d19e3376f09b3c1e161742"
    assert bob.agree(alice.public) == alice.agree(bob.public)


@pytest.mark.parametrize("result", [b"", bytes(31), bytes(33), bytes(32), OSError("the device is away")])
def test_results_of_a_device(result):
    class Device(Xor):
        def agree(self, remote):
            if isinstance(result, Exception):
                raise result
            return result

    first, second = configs("KN")
    responder = Handshake(second, False)
    initiator = Handshake(Config(pattern="KN", key=Device(first.key.public), accept_any_key=True, prologue=b"test",
                                 ephemeral=Xor), True)
    responder.read(initiator.write())
    with pytest.raises(MessageRefused) as caught:
        initiator.read(responder.write())
    assert isinstance(caught.value.cause, (ValueError, LowOrderKey, OSError)) and initiator.closed


def test_asynchronous_functions_are_refused():
    async def verify(key):
        return True

    first, second = configs("KK")
    config = Config(pattern="KK", key=first.key, peer_key=second.key.public, verify=verify, ephemeral=Xor)
    with pytest.raises(MessageRefused) as caught:
        Handshake(config, True).write()
    assert isinstance(caught.value.cause, TypeError)


def test_secrets_are_overwritten_and_not_copied():
    for end in ("close", "with", "refused"):
        initiator, responder = pair("NNpsk0")
        struct = initiator._at[0]
        if end == "close":
            initiator.close()
        elif end == "with":
            with initiator:
                pass
        else:
            initiator.write()
            with pytest.raises(MessageRefused):
                initiator.read(bytes(48))
        from yulimosar._noise import ffi
        assert not any(ffi.buffer(struct)[:])
        initiator.close()
        with pytest.raises(CallError), initiator:
            pass
    initiator, responder = pair("NN")
    shake(initiator, responder)
    sender, receiver = initiator.split()
    for it in (initiator, responder, sender, receiver):
        for call in (copy.copy, copy.deepcopy, pickle.dumps):
            with pytest.raises(TypeError):
                call(it)
    with pytest.raises(TypeError):
        copy.copy(KeyPair.generate())


def test_no_secret_in_a_text():
    key = KeyPair.generate()
    config = Config(pattern="XXpsk3", key=key, psks=[b"\x17" * 32], accept_any_key=True)
    for text in (repr(config), repr(key), str(key)):
        assert key.secret().hex() not in text and "\\x17" not in text
    key.close()
    with pytest.raises(ValueError):
        key.secret()


def test_a_forked_process_has_no_keys():
    initiator, responder = pair("NN")
    shake(initiator, responder)
    sender, _ = initiator.split()
    holding = threading.Event()

    def hold():    # a thread that isn't in the child
        with sender._lock:
            holding.set()
            done.wait()

    done = threading.Event()
    thread = threading.Thread(target=hold)
    thread.start()
    holding.wait()
    child = os.fork()
    if child == 0:
        try:
            sender.seal(b"")
        except CallError as error:
            os._exit(0 if error.code is None else 2)
        os._exit(1)
    done.set()
    thread.join()
    assert os.waitstatus_to_exitcode(os.waitpid(child, 0)[1]) == 0
    sender.seal(b"")    # the parent's are as they were


def test_two_threads_never_use_a_nonce_twice():
    initiator, responder = pair("NN")
    shake(initiator, responder)
    (sender, _), (_, receiver) = initiator.split(), responder.split()
    sealed = []

    def seal():
        for _ in range(500):
            sealed.append(sender.seal(b"a payload of some length" * 20))

    threads = [threading.Thread(target=seal) for _ in range(4)]
    for thread in threads:
        thread.start()
    for thread in threads:
        thread.join()
    assert sender.nonce == 2000 and len(set(sealed)) == 2000
    opened, left = 0, set(sealed)
    while left:    # each nonce has its message
        for message in list(left):
            try:
                receiver.open(message)
            except MessageRefused:
                continue
            left.remove(message)
            opened += 1
            if opened > 20:
                return


def test_nothing_is_left():
    gc.collect()
    from yulimosar.memory import _all
    before = len(_all)
    for _ in range(50):
        initiator, responder = pair("XX")
        shake(initiator, responder)
        check_transport(initiator, responder)
    del initiator, responder
    gc.collect()
    assert len(_all) <= before


# A psk that was set for a message which is refused then.

def before_the_last():
    """A responder of XXpsk3 that gets its psk later, and message 3."""
    ours, theirs = configs("XXpsk3")
    config = Config(pattern="XXpsk3", key=theirs.key, prologue=b"test", ephemeral=Xor, accept_any_key=True)
    initiator, responder = Handshake(ours, True), Handshake(config, False)
    responder.try_read(initiator.write())
    initiator.read(responder.write())
    return responder, initiator.write(b"the right one")


def test_a_psk_of_a_refused_message_is_taken_back():
    """A stranger's message, with its psk, doesn't keep out the message of the client who comes next."""
    responder, message = before_the_last()
    for psk in (b"w" * 32, b"v" * 32):
        with pytest.raises(PskWanted):
            responder.try_read(message)
        responder.set_psk(psk)
        with pytest.raises(MessageRefused) as caught:
            responder.try_read(message)
        assert caught.value.cause == Code.TAG
    with pytest.raises(PskWanted):
        responder.try_read(message)
    responder.set_psk(bytes([1] * 32))
    assert responder.try_read(message) == b"the right one" and responder.done


def test_no_earlier_psk_is_taken_back():
    """Nor one that was set before a message asked for it, nor where a call raises something else."""
    responder, message = before_the_last()
    responder.set_psk(bytes([1] * 32))
    with pytest.raises(MessageRefused):
        responder.try_read(message[:-1])
    assert responder.try_read(message) == b"the right one"
    initiator = Handshake(configs("NNpsk0+psk2", psks=())[0], True)
    other = Handshake(configs("NNpsk0+psk2")[1], False)
    initiator.set_psk(bytes([1] * 32))
    other.read(initiator.write())
    message = other.write(b"here")
    with pytest.raises(PskWanted):
        initiator.try_read(message)
    initiator.set_psk(b"w" * 32)
    with pytest.raises(MessageRefused):
        initiator.try_read(message)
    with pytest.raises(PskWanted):
        initiator.try_read(message)
    initiator.set_psk(bytes([2] * 32))
    with pytest.raises(TypeError):
        initiator.try_read(None)
    assert initiator.try_read(message) == b"here" and initiator.done


def test_a_psk_is_taken_back_by_a_call():
    responder, message = before_the_last()
    with pytest.raises(PskWanted):
        responder.try_read(message)
    responder.set_psk(b"w" * 32)
    responder.unset_psk()
    responder.unset_psk()    # there is none
    with pytest.raises(PskWanted):
        responder.try_read(message)
    responder.set_psk(bytes([1] * 32))
    assert responder.try_read(message) == b"the right one"
    responder.close()
    with pytest.raises(CallError):
        responder.unset_psk()


def test_bytes_of_two_arguments_may_overlap():
    """No call writes from one buffer of the caller's to another: what has to be worked on in place is copied first."""
    initiator, responder = pair("NN")
    shake(initiator, responder)
    send, receive = initiator.ciphers()[0], responder.ciphers()[1]
    room = memoryview(bytearray(os.urandom(128)))
    for place in range(0, 97):
        ad, text = room[place:place + 16], room[40:72]
        message = send.encrypt_with_ad(ad, text)
        opened = memoryview(bytearray(message + bytes(64)))
        assert receive.decrypt_with_ad(bytes(ad), opened[:len(message)]) == bytes(text)
    for place in range(0, 49):
        whole = bytearray(64)
        whole[place:place + 16] = b"sixteen bytes ad"
        message = send.encrypt_with_ad(b"sixteen bytes ad", b"")
        whole[48:64] = message
        if place <= 32:
            assert receive.decrypt_with_ad(memoryview(whole)[place:place + 16], memoryview(whole)[48:]) == b""
        else:
            assert receive.decrypt_with_ad(b"sixteen bytes ad", memoryview(whole)[48:]) == b""

"""What errors say, that a pool of processes can return them, and that a Config's fields have their types."""
import concurrent.futures
import copy
import errno
import multiprocessing
import pickle

import pytest
from toys import Xor, configs

from yulimosar import (CallError, Channel, ChannelCut, Code, Config, ConfigError, Handshake, HandshakeTimeout,
                       LowOrderKey, MessageRefused, NoiseError, PeerRefused, PskWanted, layout)


class Strange(Exception):
    """An error that pickle can't make again."""

    def __init__(self, first, second):
        super().__init__(first)


ERRORS = [
    ConfigError("key", Code.STATIC_MISSING), ConfigError("verify", "nothing says who"), CallError(Code.ONE_WAY),
    CallError(None), MessageRefused(4, "s", Code.TAG), MessageRefused(None, None, Code.TAG),
    MessageRefused(2, None, PeerRefused("another key")), MessageRefused(0, None, KeyError("database")),
    MessageRefused(3, None, MessageRefused(1, "e", Code.SHORT)), ChannelCut(), HandshakeTimeout(),
    PeerRefused("another key"), LowOrderKey(), PskWanted(bytes(32)), PskWanted(None), NoiseError("words"),
]


@pytest.mark.parametrize("error", ERRORS, ids=lambda error: type(error).__name__)
def test_errors_are_pickled(error):
    error.partial = b"came"
    for again in (pickle.loads(pickle.dumps(error)), copy.copy(error), copy.deepcopy(error)):
        assert type(again) is type(error) and str(again) == str(error) and repr(again) == repr(error)
        assert again.partial == b"came"
        for name in ("message", "token", "code", "field", "fault", "peer_key", "text"):
            assert getattr(again, name, None) == getattr(error, name, None)


def raise_one(index):
    if index < 0:
        raise MessageRefused(1, None, Strange(1, 2)) from Strange(1, 2)
    raise ERRORS[index]


def test_errors_of_a_pool_of_processes():
    with concurrent.futures.ProcessPoolExecutor(1, multiprocessing.get_context("fork")) as pool:
        for index, error in enumerate(ERRORS):
            with pytest.raises(type(error)) as caught:
                pool.submit(raise_one, index).result(20)
            assert str(caught.value) == str(error)
        with pytest.raises(MessageRefused) as caught:
            pool.submit(raise_one, -1).result(20)
        assert "Strange" in repr(caught.value.cause)


def test_a_refusal_is_no_error_of_the_system():
    """Message 4 isn't EINTR, and no token is a file's name."""
    error = MessageRefused(4, "s", Code.TAG)
    assert error.errno is None and error.filename is None and errno.EINTR == 4
    assert repr(error) == "MessageRefused(message=4, token='s', cause=<Code.TAG: 16>)"
    assert "KeyError: 'database'" in str(MessageRefused(3, None, KeyError("database")))


def test_a_text_without_its_last_line_feed():
    for text in ("MINE:\n  -> e\n  <- e, ee", "MINE:\n"):
        with pytest.raises(ConfigError) as caught:
            layout(text)
        assert str(Code.ENDING) in str(caught.value) and "line" in str(caught.value)


def test_intervals_that_differ():
    channels = Channel(configs("NN", interval=2)[0], True), Channel(configs("NN", interval=3)[1], False)
    for _ in range(3):
        for one, other in (channels, channels[::-1]):
            while one.next_event():
                pass
            other.receive_data(one.data_to_send())
    for _ in range(3):
        channels[0].write(b"text")
    channels[1].receive_data(channels[0].data_to_send())
    assert [channels[1].next_event().payload for _ in range(2)] == [b"text"] * 2
    with pytest.raises(MessageRefused) as caught:
        channels[1].next_event()
    assert "intervals" in str(caught.value)


def test_text_in_place_of_bytes():
    """Whatever takes bytes says what a str is, and goes on."""
    first, second = (Handshake(config, index == 0) for index, config in enumerate(configs("NN")))
    calls = [first.write, second.read]
    second.read(first.write())
    first.read(second.write())
    (sender, receiver), (send, _) = first.split(), second.ciphers()
    channel = Channel(configs("NN")[0], True)
    calls = [first.write, second.read, sender.seal, receiver.open, lambda text: send.encrypt_with_ad(b"", text)]
    ends = Channel(configs("NN")[0], True), Channel(configs("NN")[1], False)
    for _ in range(3):
        for one, other in (ends, ends[::-1]):
            while one.next_event():
                pass
            other.receive_data(one.data_to_send())
    assert channel.agreed is None
    for call in (*calls[2:], ends[0].write, ends[0].receive_data):
        with pytest.raises(TypeError) as caught:
            call("text")
        assert "str" in str(caught.value) and "bytes-like" in str(caught.value)
    ends[0].write(b"text")
    ends[1].receive_data(ends[0].data_to_send())
    assert ends[1].next_event().payload == b"text"


def test_why_a_call_cannot_be_made():
    first, second = (Handshake(config, index == 0) for index, config in enumerate(configs("NN")))
    second.read(first.write())
    first.read(second.write())
    sender, receiver = first.split()
    sender.close()
    for call, words, code in ((lambda: sender.seal(b""), "closed", None), (first.write, "used up", Code.ENDED)):
        with pytest.raises(CallError) as caught:
            call()
        assert caught.value.code == code and words in str(caught.value)
        assert not ("closed" in str(caught.value) and "used up" in str(caught.value))
    other = Handshake(configs("NN")[1], False)
    with pytest.raises(MessageRefused):
        other.read(b"short")
    with pytest.raises(CallError) as caught:
        other.write()
    assert "refused" in str(caught.value)


class NoAgree:
    public = bytes(32)


class ShortPublic(Xor):
    def __init__(self):
        super().__init__(bytes(31))


@pytest.mark.parametrize("words, field", [
    ({"pattern": b"NN"}, "pattern"), ({"pattern": None}, "pattern"), ({"prologue": "text"}, "prologue"),
    ({"prologue": None}, "prologue"), ({"key": bytes(32)}, "key"), ({"key": NoAgree()}, "key"),
    ({"key": ShortPublic()}, "key"), ({"peer_key": "00" * 16, "pattern": "NK"}, "peer_key"),
    ({"verify": True}, "verify"), ({"accept_any_key": "no"}, "accept_any_key"),
    ({"psks": ["text of thirty-two characters..."], "pattern": "NNpsk0"}, "psks"),
    ({"psks": bytes(32), "pattern": "NNpsk0"}, "psks"), ({"psks": None}, "psks"),
    ({"psk_for": bytes(32), "pattern": "KKpsk0"}, "psk_for"), ({"interval": 1.5}, "interval"),
    ({"interval": True}, "interval"), ({"interval": None}, "interval"), ({"payloads": [b"", b"theirs"]}, "payloads"),
    ({"payloads": ["text"]}, "payloads"), ({"payloads": b"text"}, "payloads"),
    ({"payloads": [b"", b"", b"x"]}, "payloads"), ({"payloads": [bytes(65535 - 31)]}, "payloads"),
    ({"handshake_timeout": "10"}, "handshake_timeout"), ({"handshake_timeout": -1}, "handshake_timeout"),
    ({"handshake_timeout": 0}, "handshake_timeout"), ({"handshake_limit": 1e4}, "handshake_limit"),
    ({"ephemeral": Xor()}, "ephemeral"),
])
def test_types_of_a_config(words, field):
    with pytest.raises(ConfigError) as caught:
        Config(**{"pattern": "NN", "accept_any_key": True, **words}).check(True)
    assert caught.value.field == field and str(caught.value)


def test_types_that_are_right():
    for words in ({"prologue": bytearray(b"x")}, {"payloads": (b"mine", b"")}, {"payloads": [bytes(65535 - 32)]},
                  {"handshake_timeout": 1}, {"handshake_timeout": None}, {"interval": 3}):
        Config(**{"pattern": "NN", "accept_any_key": True, **words}).check(True)
    Config(pattern="NN", accept_any_key=True, payloads=[b"", b"mine"]).check(False)


def ended():
    """Two handshakes that are done."""
    first, second = Handshake(Config(accept_any_key=True, pattern="NN"), True), Handshake(
        Config(accept_any_key=True, pattern="NN"), False)
    second.read(first.write())
    first.read(second.write())
    return first, second


CALLS = {
    "seal": lambda view: ended()[0].split()[0].seal(view),
    "seal_in_place": lambda view: ended()[0].split()[0].seal_in_place(view, len(view)),
    "open": lambda view: ended()[0].split()[1].open(view),
    "open_in_place": lambda view: ended()[0].split()[1].open_in_place(view),
    "datagrams.seal": lambda view: ended()[0].datagrams().seal(view),
    "datagrams.open": lambda view: ended()[0].datagrams().open(view),
    "encrypt_with_ad": lambda view: ended()[0].ciphers()[0].encrypt_with_ad(view, view),
    "decrypt_with_ad": lambda view: ended()[0].ciphers()[1].decrypt_with_ad(view, view),
    "write": lambda view: ended()[0].write(view),
    "read": lambda view: Handshake(Config(accept_any_key=True, pattern="NN"), False).read(view[:31]),
    "channel.write": lambda view: Channel(Config(accept_any_key=True, pattern="NN"), True).write(view),
}


@pytest.mark.parametrize("call", CALLS)
def test_a_call_that_raises_lets_go_of_its_buffer(call):
    """A memoryview that a frame of the traceback still uses crashes CPython, if its collector frees both."""
    view = memoryview(bytearray(65536))
    with pytest.raises(NoiseError) as caught:
        CALLS[call](view)
    view.release()    # which raises a BufferError while anything uses it
    assert caught.value.__traceback__ is not None

"""Channel, without input and output: the theorem on streams behind a relay, random bytes, awaited functions."""
import itertools
import os
import random
import threading

import pytest
from hypothesis import HealthCheck, given, settings
from hypothesis import strategies as st
from toys import FUNDAMENTAL, Xor, configs

from yulimosar import (Agreed, CallError, Channel, ChannelCut, Code, Config, ConfigError, Data, End,
                       MessageRefused, PeerRefused, Pending, layout)
from yulimosar._noise import ffi
from yulimosar.channel import ROOM, _Came, _spare

NO_LIMIT = settings(deadline=None, max_examples=int(os.environ.get("NOISE_EXAMPLES", 60)),
                    suppress_health_check=list(HealthCheck))


def pair(pattern="XX", **words):
    first, second = configs(pattern, **words)
    return Channel(first, True), Channel(second, False)


def join(*channels, cut=lambda data: [data]):
    """Moves bytes between two channels until nothing more comes; the events of each."""
    events = [[], []]
    moved = True
    while moved:
        moved = False
        for index, channel in enumerate(channels):
            while (event := channel.next_event()) is not None:
                events[index].append(event)
            for piece in cut(channel.data_to_send()):
                if piece:
                    channels[1 - index].receive_data(piece)
                    moved = True
    return events


def payload_of(events):
    return b"".join(event.payload for event in events if isinstance(event, Data))


@pytest.mark.parametrize("pattern", FUNDAMENTAL)
def test_both_directions(pattern):
    first, second = pair(pattern, payloads=[b"p0", b"p1", b"p2"], interval=2)
    events = join(first, second)
    assert [event[0] for event in events] == [first.agreed, second.agreed]
    assert first.agreed.hash == second.agreed.hash and first.agreed.initiator and not second.agreed.initiator
    count = len(layout(pattern).messages)
    assert first.agreed.payloads == tuple([None, b"p1", None][:count])
    assert second.agreed.payloads == tuple([b"p0", None, b"p2"][:count])
    texts = [b"a", b"", os.urandom(200000)]
    for text in texts:
        first.write(text)
    first.write_eof()
    if layout(pattern).one_way:
        with pytest.raises(CallError) as caught:
            second.write(b"x")
        assert caught.value.code == Code.ONE_WAY
    else:
        second.write(texts[2])
        second.write_eof()
    events = join(first, second)
    assert payload_of(events[1]) == b"".join(texts) and events[1][-1] == End()
    if not layout(pattern).one_way:
        assert payload_of(events[0]) == texts[2] and events[0][-1] == End()
    with pytest.raises(CallError) as caught:
        first.write(b"late")
    assert caught.value.code == Code.CLOSED


def test_calls_before_the_handshake_and_after_close():
    first, second = pair()
    for call in (lambda: first.write(b"x"), first.write_eof):
        with pytest.raises(CallError) as caught:
            call()
        assert caught.value.code == Code.NOT_DONE
    join(first, second)
    first.write(b"x")
    first.close()
    first.close()
    assert len(first.data_to_send()) == 19    # it was written before
    for call in (lambda: first.write(b"x"), first.write_eof, first.next_event):
        with pytest.raises(CallError) as caught:
            call()
        assert caught.value.code is None


@pytest.mark.parametrize("closes_first", [0, 1])
def test_a_cut_in_each_part(closes_first):
    """The connection ends after each count of bytes: what came before is given out, and then ChannelCut raised."""
    first, second = pair("NN")
    join(first, second)
    first.write(b"one")
    first.write(b"two")
    sent = first.data_to_send()
    for size in range(len(sent) + 1):
        first, second = pair("NN")
        join(first, second)
        first.write(b"one")
        first.write(b"two")
        second.receive_data(first.data_to_send()[:size])
        second.receive_eof()
        got = b""
        with pytest.raises(ChannelCut):
            while True:
                got += second.next_event().payload
        assert got == b"onetwo"[:3 * (size // 21)]
        with pytest.raises(ChannelCut):
            second.next_event()
        with pytest.raises(ChannelCut):
            second.write(b"x")
        assert second.data_to_send() == b"" and isinstance(second.fault, ChannelCut)


def test_a_cut_in_the_handshake():
    for at in range(3):
        first, second = pair("XX")
        ends = [first, second]
        for index in range(at):
            ends[index % 2].next_event()
            ends[1 - index % 2].receive_data(ends[index % 2].data_to_send())
        for end in ends:
            end.receive_eof()
            with pytest.raises(ChannelCut):
                while True:
                    end.next_event()


def test_nothing_of_a_refused_channel_is_sent():
    first, second = pair()
    join(first, second)
    first.write(b"hello")
    sent = bytearray(first.data_to_send())
    sent[5] ^= 1
    second.write(b"sealed, and not sent yet")
    second.receive_data(sent)
    with pytest.raises(MessageRefused) as caught:
        second.next_event()
    assert (caught.value.message, caught.value.token, caught.value.cause) == (None, None, Code.TAG)
    assert second.data_to_send() == b""
    for call in (lambda: second.write(b"x"), second.write_eof, second.next_event):
        with pytest.raises(MessageRefused):
            call()
    assert second.data_to_send() == b""


def test_after_the_end_nothing_is_left():
    first, second = pair()
    join(first, second)
    first.write_eof()
    assert join(first, second)[1] == [End()]
    second.receive_data(b"x" * 100000)
    assert second.next_event() is None and not second._came
    second.receive_eof()
    assert second.next_event() is None
    second.write(b"still")
    assert join(first, second)[0] == [Data(b"still")]


def test_memory_grows_with_what_comes():
    """A length that announces 65535 bytes takes no memory; a long message of the handshake is refused at its length."""
    for first_bytes in (b"\xff\xff", b"\x10\x22"):
        channel = pair()[1]
        channel.receive_data(first_bytes)
        with pytest.raises(MessageRefused) as caught:
            channel.next_event()
        assert caught.value.message == 1 and caught.value.cause == Code.TOO_LONG
    first, second = configs("XX", payloads=[bytes(4096)])
    assert join(Channel(first, True), Channel(second, False))
    first, second = configs("XX", payloads=[bytes(4097)])
    with pytest.raises(MessageRefused):
        join(Channel(first, True), Channel(second, False))
    first, second = configs("XX", payloads=[bytes(4098)], handshake_limit=4130)
    assert join(Channel(first, True), Channel(second, False))


def test_a_one_way_initiator_keeps_nothing():
    first, second = pair("N")
    join(first, second)
    for _ in range(3):
        first.receive_data(bytes(10000))
        assert first.next_event() is None
    assert not first._came and first.one_way


def test_a_responder_draws_nothing_for_who_says_nothing():
    drawn = []

    def draw():
        drawn.append(1)
        return Xor()

    channel = Channel(Config(pattern="NN", accept_any_key=True, ephemeral=draw), False)
    assert channel.next_event() is None and not drawn
    channel.receive_eof()
    with pytest.raises(ChannelCut):
        channel.next_event()


class Later:
    """An awaitable whose result the test supplies."""

    def __await__(self):
        yield


def test_functions_that_are_awaited():
    """`verify`, `psk_for` and `agree` may each return an awaitable."""
    first, second = configs("XXpsk3")
    asked = []

    class Device(Xor):
        def agree(self, remote):
            asked.append(("agree", super().agree(remote)))
            return Later()

    def verify(key):
        asked.append(("verify", True))
        return Later()

    def psk_for(key):
        asked.append(("psk_for", first.psks))
        return Later()

    config = Config(pattern="XXpsk3", key=Device(second.key.public), prologue=b"test", verify=verify, psk_for=psk_for,
                    ephemeral=Xor)
    channels = (Channel(first, True), Channel(config, False))
    agreed, moved = [], True
    while moved:
        moved = False
        for index, channel in enumerate(channels):
            while (event := channel.next_event()) is not None:
                if isinstance(event, Pending):
                    assert isinstance(event.awaitable, Later)
                    channel.answer(asked[-1][1])
                else:
                    agreed.append(event)
            if data := channel.data_to_send():
                channels[1 - index].receive_data(data)
                moved = True
    assert agreed[0].hash == agreed[1].hash
    assert [name for name, _ in asked] == ["agree", "psk_for", "verify"]


@pytest.mark.parametrize("answer", [False, None, KeyError("database"), "later"])
def test_a_verify_that_refuses(answer):
    first, second = configs("KK")
    channel = Channel(Config(pattern="KK", key=first.key, peer_key=second.key.public, ephemeral=Xor,
                             verify=lambda key: Later() if answer == "later" else answer), True)
    if answer == "later":
        assert isinstance(channel.next_event(), Pending)
        channel.fail(KeyError("database"))
    elif isinstance(answer, KeyError):
        channel = Channel(Config(pattern="KK", key=first.key, peer_key=second.key.public, ephemeral=Xor,
                                 verify=lambda key: {}[key]), True)
    with pytest.raises(MessageRefused) as caught:
        channel.next_event()
    assert caught.value.message == 0 and isinstance(caught.value.cause, (PeerRefused, KeyError))
    assert channel.data_to_send() == b""


def test_close_from_inside_verify():
    channels = []

    def verify(key):
        channels[0].close()
        return True

    first, second = configs("KK")
    config = Config(pattern="KK", key=first.key, peer_key=second.key.public, verify=verify, ephemeral=Xor)
    channels.append(Channel(config, True))
    with pytest.raises(CallError):
        channels[0].next_event()
    assert channels[0].data_to_send() == b""


def test_close_while_a_function_is_awaited():
    first, second = configs("KK")
    channel = Channel(Config(pattern="KK", key=first.key, peer_key=second.key.public, verify=lambda key: Later(),
                             ephemeral=Xor), True)
    assert isinstance(channel.next_event(), Pending)
    handshake = channel._handshake
    channel.close()
    assert handshake.closed


def test_a_config_is_checked_at_once():
    with pytest.raises(ConfigError):
        Channel(Config(pattern="XX"), True)


def test_one_thread_reads_while_another_writes():
    first, second = pair("NN")
    join(first, second)
    data, wire = os.urandom(1 << 20), []
    done = threading.Event()

    def write():
        for start in range(0, len(data), 5000):
            first.write(data[start:start + 5000])
            wire.append(first.data_to_send())
        done.set()

    thread = threading.Thread(target=write)
    thread.start()
    got = b""
    while not done.is_set() or wire:
        if wire:
            second.receive_data(wire.pop(0))
        while (event := second.next_event()) is not None:
            got += event.payload
    thread.join()
    assert got == data


# The theorem on streams, behind a relay.

TEXTS = ([b"a first text", b"b", b"the last of the client"], [b"1", b"what the server has to say", b"and good bye"])


class Relay:
    """One direction, with one fault, or none, at a byte."""

    def __init__(self, fault, at, bit):
        self.fault, self.at, self.bit, self.waiting, self.closed = fault, at, bit, bytearray(), False
        self.came = bytearray()

    def is_after_the_end(self):
        """Whether the fault is one more byte after all that came: the last one, or one of equal ones, is repeated."""
        return self.fault == "repeat" and len(set(self.came[self.at:])) == 1

    def send(self, data):
        at = self.at - len(self.came)
        self.came += data
        if self.closed:
            return
        if self.fault == "nothing" or not 0 <= at < len(data):
            self.waiting += data
            return
        here = {"flip": bytes([data[at] ^ 1 << self.bit]), "repeat": data[at:at + 1] * 2}.get(self.fault, b"")
        self.closed = self.fault == "cut"
        self.waiting += data[:at] + here + (b"" if self.closed else data[at + 1:])


class Party:
    """One end: it writes its texts, and ends its stream, at once or, where it waits, after the other's end."""

    def __init__(self, channel, texts, waits):
        self.channel, self.texts, self.waits = channel, texts, waits
        self.got, self.got_end, self.ended, self.fault = b"", False, False, None
        self.wrote = False

    def step(self):
        try:
            while (event := self.channel.next_event()) is not None:
                self.got += event.payload if isinstance(event, Data) else b""
                self.got_end = self.got_end or event == End()
            if self.channel.agreed and not self.wrote:
                for text in self.texts:
                    self.channel.write(text)
                self.wrote = True
            if self.wrote and not self.ended and (self.got_end or not self.waits):
                self.channel.write_eof()
                self.ended = True
        except (MessageRefused, ChannelCut) as fault:
            self.fault = fault


def pass_relay(configured, waits, faults, pieces):
    parties = [Party(Channel(configured[role], role == 0), TEXTS[role], waits[role]) for role in (0, 1)]
    relays = [Relay(*fault) for fault in faults]
    moved = True
    while moved:
        moved = False
        for role, party in enumerate(parties):
            if party.fault is None:
                party.step()
                sent = party.channel.data_to_send()
                relays[role].send(sent)
                moved = moved or bool(sent)
            other = parties[1 - role].channel
            piece = bytes(relays[role].waiting[:pieces.randint(1, 70)])
            del relays[role].waiting[:len(piece)]
            if piece:
                other.receive_data(piece)
                moved = True
    for party in parties:    # where both wait, or one is broken, the connections are lost
        party.channel.receive_eof()
        if party.fault is None:
            party.step()
        if party.fault is not None:    # nothing is sent after a refusal, and no end
            for call in (party.channel.write_eof, lambda: party.channel.write(b"late")):
                with pytest.raises(type(party.fault)):
                    call()
            assert party.channel.data_to_send() == b""
    check_parties(parties)
    return parties, relays


def check_parties(parties):
    """What each party says is what the theorem on streams allows."""
    for role, party in enumerate(parties):
        written = b"".join(TEXTS[1 - role])
        assert written.startswith(party.got), "what was read isn't the first of what was written"
        if party.got_end:
            assert parties[1 - role].ended and party.got == written, "an end, and not all of it came"
        else:
            assert party.fault is not None, "neither an end nor an error"


def test_relay():
    """Each byte of each direction is flipped, cut off, repeated and dropped once, with each order of the ends."""
    pieces, sessions = random.Random(20261126), 0
    for waits in ((False, False), (True, False), (False, True)):
        configured = configs("XX", interval=2)
        none = ("nothing", -1, 0)
        parties, relays = pass_relay(configured, waits, [none, none], pieces)
        assert all(party.got_end and party.fault is None for party in parties)
        for direction, kind in itertools.product((0, 1), ("flip", "cut", "repeat", "drop")):
            for at in range(len(relays[direction].came)):
                fault = (kind, at, pieces.randrange(8))
                faults = [fault, none] if direction == 0 else [none, fault]
                parties, damaged = pass_relay(configured, waits, faults, pieces)
                after = damaged[direction].is_after_the_end()
                assert after or not parties[1 - direction].got_end, (waits, direction, fault)
                sessions += 1
    assert sessions > 4000


# Random bytes.

@NO_LIMIT
@given(st.lists(st.binary(max_size=200), max_size=8), st.booleans(), st.sampled_from([*FUNDAMENTAL, "XXpsk3"]))
def test_any_bytes_from_the_wire(pieces, initiator, pattern):
    """Whatever comes first, a channel waits, or says that it was refused or cut."""
    channel = pair(pattern)[0 if initiator else 1]
    try:
        for piece in pieces:
            channel.receive_data(piece)
            while channel.next_event() is not None:
                pass
        channel.receive_eof()
        while channel.next_event() is not None:
            pass
    except (MessageRefused, ChannelCut):
        assert channel.data_to_send() == b""
    else:
        assert initiator and layout(pattern).one_way


@NO_LIMIT
@given(st.lists(st.binary(min_size=0, max_size=300), max_size=6), st.integers(1, 400), st.booleans(), st.data())
def test_any_bytes_after_the_handshake(payloads, size, ended, data):
    """Whatever is put in the place of what was sent: what is given out is the first of what was written."""
    first, second = pair("NN", interval=2)
    join(first, second)
    for payload in payloads:
        first.write(payload)
    if ended:
        first.write_eof()
    sent = first.data_to_send()
    start = data.draw(st.integers(0, len(sent)))
    end = data.draw(st.integers(start, len(sent)))
    came = sent[:start] + data.draw(st.binary(max_size=60)) + sent[end:]
    got, fault = [], None
    try:
        for at in range(0, len(came), size):
            second.receive_data(came[at:at + size])
            while (event := second.next_event()) is not None:
                got.append(event)
        second.receive_eof()
        while (event := second.next_event()) is not None:
            got.append(event)
    except (MessageRefused, ChannelCut) as error:
        fault = error
    assert b"".join(payloads).startswith(payload_of(got))
    if End() in got:
        assert ended and payload_of(got) == b"".join(payloads) and got[-1] == End() and fault is None
    else:
        assert fault is not None


@NO_LIMIT
@given(st.lists(st.binary(max_size=70000), max_size=5), st.lists(st.integers(1, 70000), min_size=1, max_size=5))
def test_any_cuts_of_what_was_sent(payloads, sizes):
    """Pieces of any lengths make the same stream."""
    first, second = pair("NN")
    join(first, second)
    for payload in payloads:
        first.write(bytearray(payload))
    first.write_eof()
    sent, got, cycle = first.data_to_send(), [], itertools.cycle(sizes)
    while sent:
        size = next(cycle)
        second.receive_data(memoryview(sent)[:size])
        sent = sent[size:]
        while (event := second.next_event()) is not None:
            got.append(event)
    assert payload_of(got) == b"".join(payloads) and got[-1] == End() and got.count(End()) == 1


def test_reading_is_linear():
    """64000 frames of one byte each, in one piece and byte by byte."""
    first, second = pair("NN")
    join(first, second)
    for _ in range(64000):
        first.write(b"x")
    second.receive_data(first.data_to_send())
    count = 0
    while (event := second.next_event()) is not None:
        count += len(event.payload)
    assert count == 64000


def test_agreed_shows_no_payload():
    assert "secret" not in repr(Agreed("Noise_NN_25519_ChaChaPoly_SHA256", True, bytes(32), None, (b"secret",)))


def test_what_came_is_kept_in_order():
    """Bytes come by receive_data and by an event loop, in any pieces, and are used and moved at any time."""
    dice = random.Random(81)
    for _ in range(30):
        came, model = _Came(), bytearray()
        for _ in range(300):
            piece = dice.randbytes(dice.choice((0, 1, 100, 20000, 70000)))
            match dice.randrange(7):
                case 0 | 1:
                    came.add(memoryview(piece)[::-1] if dice.randrange(2) else piece[::-1])
                    model += piece[::-1]
                case 2 | 3:
                    room = came.space()
                    assert len(room) >= ROOM // 4
                    piece = piece[:len(room)]
                    room[:len(piece)] = piece
                    came.took(len(piece))
                    model += piece
                case 4 | 5:
                    count = dice.randrange(len(model) + 1)
                    came.use(count)
                    del model[:count]
                case 6:
                    came.settle()
                    assert came._room.size < ROOM or model
            place, left = came.left()
            assert bytes(ffi.buffer(place, left)) == model and bool(came) == bool(model)
    assert len(_spare) <= 4 and all(room.size == ROOM for room in _spare) and len(set(map(id, _spare))) == len(_spare)

// Handshakes, transports, datagrams and streams, with a key agreement that is none: what these tests look
// at doesn't depend on it.
use std::io::{self, ErrorKind, Read, Write};
use std::net::{Shutdown, TcpStream};
use toy::{begun, streams, tcp, Party, Toy, PSK};
use yulimosar::{Builder, Connecting, Dh, DhError, Error, Event, HandshakeError, NoKey, Pattern, Stream};

mod toy;

fn done(pattern: &str) -> (Party, Party) {
    let (mut client, mut server) = begun(pattern);
    let mut message = [0; 1000];
    while !client.is_done() || !server.is_done() {
        let (writer, reader) =
            if client.writes_next() { (&mut client, &mut server) } else { (&mut server, &mut client) };
        assert_eq!(reader.write(b"", &mut [0; 100]), Err(Error::NotYourTurn));
        let len = writer.write(b"payload", &mut message).unwrap();
        assert_eq!(reader.read(&mut message[..len]).unwrap(), b"payload");
    }
    (client, server)
}

fn patterns() -> Vec<String> {
    let mut all = Vec::new();
    for base in "N K X NN NK NX KN KK KX XN XK XX IN IK IX".split(' ') {
        let messages = if base.len() == 1 { 1 } else { 2 + usize::from(base.starts_with('X')) };
        all.push(base.to_owned());
        all.extend((0..=messages).map(|place| format!("{base}psk{place}")));
    }
    all
}

#[test]
fn every_pattern_makes_a_transport() {
    for pattern in patterns() {
        let (client, server) = done(&pattern);
        assert_eq!(client.hash(), server.hash());
        let (mut client, mut server) = (client.finish().unwrap(), server.finish().unwrap());
        let mut message = [0; 21];
        assert_eq!(client.seal(b"hello", &mut message), Ok(21));
        assert_eq!(server.open(&mut message).unwrap(), b"hello");
        assert_eq!(server.seal(b"hello", &mut message).is_err(), Pattern::new(&pattern).unwrap().is_one_way());
    }
}

// Of the standard's patterns (7.4, 7.5) the letters say what each party brings; 9.4 says how many psks.
#[test]
fn what_a_pattern_has() {
    for pattern in patterns() {
        let (facts, base) = (Pattern::new(&pattern).unwrap(), pattern.split("psk").next().unwrap().as_bytes());
        let (first, last) = if base.len() == 1 { (base[0], b'K') } else { (base[0], base[1]) };
        assert_eq!(facts.is_one_way(), base.len() == 1, "{pattern}");
        assert_eq!(facts.messages(), if facts.is_one_way() { 1 } else { 2 + usize::from(first == b'X') }, "{pattern}");
        assert_eq!(facts.psks(), usize::from(pattern.contains("psk")), "{pattern}");
        let (initiator, responder) = (facts.initiator(), facts.responder());
        assert!(initiator.ephemeral && responder.ephemeral != facts.is_one_way(), "{pattern}");
        assert_eq!((initiator.static_key, initiator.remote_static), (first != b'N', last == b'K'), "{pattern}");
        assert_eq!((responder.static_key, responder.remote_static), (last != b'N', first == b'K'), "{pattern}");
    }
    assert_eq!(Pattern::new("XXpsk0+psk3").unwrap().psks(), 2);
    assert_eq!(Pattern::new("Noise_IK_25519_ChaChaPoly_SHA256").unwrap().messages(), 2);
    assert_eq!(Pattern::new("XX1:\n  -> e\n  <- e, ee, s, es\n  -> s, se\n").unwrap().messages(), 3);
    assert_eq!(Pattern::new("XX1:\n  -> e\n  -> e\n").err(), Some(Error::Pattern));
    assert_eq!(Pattern::new(&"X".repeat(1000)).err(), Some(Error::Name));
}

#[test]
fn builds_are_refused() {
    let fault = |builder: Builder<Toy>| builder.initiator_with::<Toy>().err().unwrap();
    let own = || Builder::new("XX").static_key(Toy(3));
    assert_eq!(fault(Builder::new("ZZ").static_key(Toy(3))), Error::Name);
    assert_eq!(fault(Builder::new(&"X".repeat(1000)).static_key(Toy(3))), Error::Name);
    assert_eq!(fault(Builder::new("NN:\n  -> ee\n").static_key(Toy(3))), Error::Pattern);
    assert_eq!(Builder::<NoKey>::new("XX").initiator_with::<Toy>().err(), Some(Error::StaticMissing));
    assert_eq!(fault(Builder::new("NK").static_key(Toy(3))), Error::RemoteMissing);
    assert_eq!(fault(own().remote_static(&[1; 32])), Error::RemoteUnexpected);
    assert_eq!(fault(own().psk(&PSK)), Error::PskCount);
    assert_eq!(fault(own().late_psks()), Error::PskCount);
    assert_eq!(fault(Builder::new("NNpsk0").static_key(Toy(3))), Error::PskCount);
    assert_eq!(fault(Builder::new("NNpsk0+psk2").static_key(Toy(3)).psk(&PSK)), Error::PskCount);
    assert_eq!(fault(Builder::new("NNpsk0").static_key(Toy(3)).psk(&PSK).late_psks()), Error::PskCount);
    assert_eq!(fault((0..300).fold(own(), |builder, _| builder.psk(&PSK))), Error::PskCount);
    assert_eq!(fault(own().prologue(&[0; 65536])), Error::TooLong);
}

#[test]
fn refusals_of_a_handshake() {
    let (mut client, mut server) = begun("XX");
    assert_eq!(server.read(&mut [1; 31]), Err(Error::Short { token: Some(0) }));
    assert_eq!(server.read(&mut [1; 32]), Err(Error::Ended));
    let mut message = [0; 200];
    assert_eq!(client.write(b"", &mut message[..31]), Err(Error::Room));
    assert_eq!(client.message_len(5), Some(37));
    let len = client.write(b"", &mut message).unwrap();
    let (_, mut server) = begun("XX");
    server.read(&mut message[..len]).unwrap();
    let len = server.write(b"", &mut message).unwrap();
    message[len - 1] ^= 1;
    assert_eq!(client.read(&mut message[..len]), Err(Error::Tag { token: Some(4) }));
    assert_eq!(client.finish().err(), Some(Error::Ended));
    assert_eq!(server.finish().err(), Some(Error::NotDone));
}

// A stranger's message, altered or cut at any byte, changes neither the handshake nor the message; then the one that
// was sent is read. Of each pattern: which messages end with a tag.
#[test]
fn what_a_stranger_sends_changes_nothing() {
    for (pattern, tags) in [("XX", [false, true, true]), ("IK", [true, true, true]), ("NNpsk0", [true, true, true])] {
        let ((mut client, mut server), mut message) = (begun(pattern), [0; 200]);
        for has_tag in tags.iter().take(if pattern == "XX" { 3 } else { 2 }) {
            let (writer, reader) =
                if client.writes_next() { (&mut client, &mut server) } else { (&mut server, &mut client) };
            let len = writer.write(b"payload", &mut message).unwrap();
            for at in (0..len).filter(|_| *has_tag) {
                let (hash, mut altered, mut cut) = (reader.hash(), message, message);
                altered[at] ^= 0x80;
                if altered[at] & 0x7f != 0 || at >= 32 {
                    let sent = altered;
                    assert!(reader.try_read(&mut altered[..len]).is_err(), "{pattern}: byte {at}");
                    assert_eq!(altered, sent);
                }
                assert!(reader.try_read(&mut cut[..at]).is_err(), "{pattern}: {at} bytes");
                assert!(cut == message && reader.hash() == hash && !reader.is_done() && !reader.writes_next());
            }
            assert_eq!(reader.try_read(&mut message[..len]).unwrap(), b"payload");
        }
        assert!(client.is_done() && server.is_done() && client.hash() == server.hash());
    }
}

#[test]
fn halves_are_the_transport() {
    let (client, server) = done("KK");
    let ((mut seals, mut opens), mut server) = (client.finish().unwrap().split(), server.finish().unwrap());
    for i in 0..5 {
        let (mut there, mut back) = ([0; 17], [0; 17]);
        seals.seal(&[i], &mut there).unwrap();
        server.seal(&[i], &mut back).unwrap();
        assert_eq!(server.open(&mut there).unwrap(), [i]);
        assert_eq!(opens.open(&mut back.clone()).unwrap(), [i]);
        assert_eq!(opens.open(&mut back), Err(Error::Tag { token: None }));
        assert_eq!((seals.nonce(), opens.nonce()), (u64::from(i) + 1, u64::from(i) + 1));
    }
}

#[test]
fn datagrams_come_in_any_order_and_once() {
    let (client, server) = done("IK");
    let (mut client, mut server) = (client.finish_datagrams(64).unwrap(), server.finish_datagrams(64).unwrap());
    let sealed: Vec<[u8; 25]> = (0..100)
        .map(|i| {
            let mut datagram = [0; 25];
            client.seal(&[i], &mut datagram).unwrap();
            datagram
        })
        .collect();
    for i in [0, 5, 3, 99, 40] {
        assert_eq!(server.open(&mut sealed[i].clone()).unwrap(), [i as u8]);
        assert_eq!(server.open(&mut sealed[i].clone()), Err(Error::Repeated));
    }
    assert_eq!(server.open(&mut sealed[35].clone()), Err(Error::Old));
    let mut short = sealed[36];
    assert_eq!(server.open(&mut short[..23]), Err(Error::Short { token: None }));
    assert_eq!(done("IK").0.finish_datagrams(65).err(), Some(Error::Window));
}

type Passed<T, S> = Result<Stream<T>, HandshakeError<T, S, Toy>>;

fn failure<T, S: Dh>(passed: Passed<T, S>) -> io::Error {
    passed.err().unwrap().into()
}

fn inner<T, S: Dh>(passed: Passed<T, S>) -> Error {
    failure(passed).get_ref().unwrap().downcast_ref::<Error>().unwrap().clone()
}

#[test]
fn streams_carry_all_both_ways_at_once() {
    let (client, server) = streams();
    assert_eq!(client.hash(), server.hash());
    assert_eq!(server.remote_static(), Some(&[3; 32]));
    let sent: Vec<u8> = (0..300_000_u32).map(|i| i as u8).collect();
    let ends = [client, server].map(|stream| {
        let ((mut reads, mut writes), sent) = (stream.split(TcpStream::try_clone).unwrap(), sent.clone());
        let writer = std::thread::spawn(move || writes.write_all(&sent).and_then(|_| writes.close_write()).unwrap());
        let reader = std::thread::spawn(move || {
            let mut got = Vec::new();
            reads.read_to_end(&mut got).unwrap();
            got
        });
        (writer, reader)
    });
    for (writer, reader) in ends {
        writer.join().unwrap();
        assert!(reader.join().unwrap() == sent);
    }
}

#[test]
fn ends_of_a_stream() {
    let kind = |bytes: &[u8]| {
        let (client, mut server) = streams();
        client.get_ref().write_all(bytes).unwrap();
        drop(client);
        let first = server.read(&mut [0; 9]).unwrap_err().kind();
        assert_eq!(server.read(&mut [0; 9]).unwrap_err().kind(), first);
        first
    };
    assert_eq!(kind(&[]), ErrorKind::UnexpectedEof);
    assert_eq!(kind(&[0]), ErrorKind::UnexpectedEof);
    assert_eq!(kind(&[0, 9, 1]), ErrorKind::UnexpectedEof);
    assert_eq!(kind(&[0, 2, 1, 1]), ErrorKind::InvalidData);
    assert_eq!(kind(&[&[0, 30], &[1; 30][..]].concat()), ErrorKind::InvalidData);
    let (mut client, mut server) = streams();
    client.close_write().unwrap();
    assert_eq!(server.read(&mut [0; 9]).unwrap(), 0);
    assert_eq!(client.write(b"x").unwrap_err().kind(), ErrorKind::BrokenPipe);
}

// `Stream::new` refuses a pattern by which the other party has no static key, before it reads or sends a byte.
#[test]
fn a_pattern_without_a_key_to_verify_is_refused_at_once() {
    for pattern in patterns() {
        let ((client, server), finished) = (begun(&pattern), done(&pattern));
        for (party, finished) in [(client, finished.0), (server, finished.1)] {
            // There is none where it only writes.
            let error = Stream::new(Script(&[]), party, |_| true).err().map(io::Error::from);
            let refused = error.map_or(false, |error| error.kind() == ErrorKind::PermissionDenied);
            assert_eq!(refused, finished.remote_static().is_none(), "{pattern}");
        }
    }
    let own = "XX1:\n  -> e\n  <- e, ee, s, es\n  -> s, se\n";
    let party = Builder::new(own).static_key(Toy(3)).initiator_with::<Toy>().unwrap();
    assert_eq!(inner(Stream::new(Script(&[]), party, |_| true)), Error::Cut);
    let own = "NX1:\n  -> e\n  <- e, ee, s, es\n";
    let party = Builder::new(own).static_key(Toy(3)).responder_with::<Toy>().unwrap();
    assert_eq!(inner(Stream::new(Closed, party, |_| true)), Error::Refused);
}

// A stream that nobody may read or write.
struct Closed;

impl Read for Closed {
    fn read(&mut self, _: &mut [u8]) -> io::Result<usize> {
        panic!("a read")
    }
}

impl Write for Closed {
    fn write(&mut self, _: &[u8]) -> io::Result<usize> {
        panic!("a write")
    }

    fn flush(&mut self) -> io::Result<()> {
        panic!("a flush")
    }
}

#[test]
fn the_silent_direction_of_a_one_way_pattern() {
    let ((a, b), (client, server)) = (tcp(), begun("X"));
    let mut client = Stream::anonymous(a, client).unwrap();
    client.flush().unwrap(); // the one message of the handshake
    let mut server = Stream::anonymous(b, server).unwrap();
    let one_way = |result: io::Result<usize>| assert_eq!(result.unwrap_err().kind(), ErrorKind::Unsupported);
    one_way(client.read(&mut [0]));
    one_way(server.write(b"x"));
    client.write_all(b"hello").and_then(|_| client.close_write()).unwrap();
    let mut text = String::new();
    server.read_to_string(&mut text).unwrap();
    assert_eq!(text, "hello");
    one_way(client.read(&mut [0]));
}

#[test]
fn kinds_of_errors() {
    let kind = |error: Error| io::Error::from(error).kind();
    assert_eq!(kind(Error::Refused), ErrorKind::PermissionDenied);
    assert_eq!(kind(Error::StaticMissing), ErrorKind::InvalidInput);
    assert_eq!(kind(Error::Tag { token: Some(1) }), ErrorKind::InvalidData);
    assert_eq!(kind(Error::Cut), ErrorKind::UnexpectedEof);
    assert_eq!(kind(Error::Zeros), ErrorKind::InvalidData);
    assert_eq!(kind(Error::KeyPair(DhError::new("none"))), ErrorKind::Other);
    assert_eq!(kind(Error::Closed), ErrorKind::BrokenPipe);
    assert_eq!(kind(Error::Aborted), ErrorKind::ConnectionAborted);
    // The error of the library is the cause, also of an error that is returned again.
    let (client, mut server) = streams();
    drop(client.into_inner());
    for _ in 0..2 {
        let error = server.read(&mut [0]).unwrap_err();
        assert_eq!(error.get_ref().unwrap().downcast_ref::<Error>(), Some(&Error::Cut));
    }
}

#[test]
fn debug_text_has_no_secret() {
    fn must_be_shared<T: Send + Sync>(_: &T) {}
    let builder = Builder::new("XXpsk3").static_key(Toy(3)).psk(&PSK);
    let text = format!("{builder:?}");
    must_be_shared(&builder);
    let ((client, _), (finished, datagrams), (stream, _)) = (begun("XXpsk3"), done("XXpsk3"), streams());
    let (transport, datagrams) = (finished.finish().unwrap(), datagrams.finish_datagrams(64).unwrap());
    must_be_shared(&client);
    must_be_shared(&stream);
    let text = format!("{text} {client:?} {transport:?} {datagrams:?} {stream:?}");
    let (reads, writes) = stream.split(TcpStream::try_clone).unwrap();
    let (connecting, ciphers) = (Connecting::anonymous(begun("NN").0).unwrap(), done("NN").0.finish_ciphers().unwrap());
    must_be_shared(&connecting);
    must_be_shared(&ciphers);
    let text = format!("{text} {reads:?} {writes:?} {connecting:?} {ciphers:?} {:?}", Event::Data(&PSK));
    assert!(text.contains("XXpsk3") && text.contains("WriteHalf { below: TcpStream") && !text.contains("7, 7, 7"));
    assert!(text.len() < 2000, "{text}");
}

// After a refused message and after a cut, whichever half it is that reads, nothing more is sent.
#[test]
fn nothing_is_sent_after_a_refusal_or_a_cut() {
    for bytes in [&[0, 2, 1, 1][..], &[0], &[]] {
        for is_split in [false, true] {
            let (client, mut server) = streams();
            client.get_ref().write_all(bytes).unwrap();
            client.get_ref().shutdown(Shutdown::Write).unwrap();
            let closed = |result: io::Result<()>| assert_eq!(result.unwrap_err().kind(), ErrorKind::ConnectionAborted);
            if is_split {
                let (mut reads, mut writes) = server.split(TcpStream::try_clone).unwrap();
                assert!(reads.read(&mut [0]).is_err());
                [writes.write(b"x").map(drop), writes.flush(), writes.close_write()].into_iter().for_each(closed);
            } else {
                assert!(server.read(&mut [0]).is_err());
                [server.write(b"x").map(drop), server.flush(), server.close_write()].into_iter().for_each(closed);
                drop(server);
            }
            assert_eq!(client.get_ref().read(&mut [0]).unwrap(), 0);
        }
    }
}

#[test]
fn the_other_key_is_verified() {
    let ((a, b), (client, server)) = (tcp(), begun("XX"));
    let server = std::thread::spawn(move || failure(Stream::new(b, server, |_| true)).kind());
    let refused = failure(Stream::new(a, client, |_| false));
    assert_eq!(refused.get_ref().unwrap().to_string(), Error::Refused.to_string());
    assert_eq!(server.join().unwrap(), ErrorKind::UnexpectedEof);
}

// A server that has the secrets [1; 32] and [2; 32] with the clients Toy(11) and Toy(13).
fn choose(key: &[u8; 32]) -> Option<[u8; 32]> {
    [([11; 32], [1; 32]), ([13; 32], [2; 32])].into_iter().find(|(known, _)| known == key).map(|(_, secret)| secret)
}

fn client_and_late_server(pattern: &str, key: Toy, secret: &[u8; 32]) -> (Party, Party) {
    let mut client = Builder::new(pattern).static_key(key).psk(secret);
    if pattern.starts_with("IK") {
        client = client.remote_static(&[5; 32]);
    }
    (client.initiator_with().unwrap(), Builder::new(pattern).static_key(Toy(5)).late_psks().responder_with().unwrap())
}

#[test]
fn each_peer_has_its_secret() {
    // The pattern, and whether the server reads the message that has the secret, and its last token.
    for (pattern, reads, token) in [("XXpsk3", true, 3), ("IKpsk2", false, 4), ("IKpsk1", true, 5)] {
        let run = |key, secret| {
            let ((a, b), (client, server)) = (tcp(), client_and_late_server(pattern, key, &secret));
            let server = std::thread::spawn(move || {
                let mut server = Stream::with_psk_for(b, server, choose)?;
                server.flush()?;
                Ok(server)
            });
            let mut client = Stream::new(a, client, |key| key == &[5; 32]);
            if let Ok(client) = &mut client {
                client.flush().unwrap(); // the last message of the handshake
            }
            (client, server.join().unwrap())
        };
        for (key, secret) in [(Toy(11), [1; 32]), (Toy(13), [2; 32])] {
            let (client, server) = run(key, secret);
            let (mut client, mut server) = (client.unwrap(), server.unwrap());
            assert_eq!(server.remote_static(), Some(&key.public()));
            client.write_all(b"hello").unwrap();
            let mut said = [0; 5];
            server.read_exact(&mut said).unwrap();
            assert_eq!(&said, b"hello");
        }
        let (client, server) = run(Toy(15), [1; 32]);
        assert_eq!(inner(server), Error::Refused);
        // No message 2 came.
        assert!(reads || inner(client) == Error::Cut);
        let (client, server) = run(Toy(11), [2; 32]);
        assert_eq!(inner(if reads { server } else { client }), Error::Tag { token: Some(token) });
    }
}

// A stranger names the key of a client, whose secret is chosen then: that of the client that comes next isn't that one.
#[test]
fn a_secret_of_a_refused_message_is_taken_back() {
    let (mut stranger, mut server) = client_and_late_server("IKpsk1", Toy(13), &[9; 32]);
    let mut message = [0; 200];
    let len = stranger.write(b"payload", &mut message).unwrap();
    for _ in 0..3 {
        assert_eq!(server.try_read(&mut message[..len]), Err(Error::WantedPsk { remote_static: Some([13; 32]) }));
        server.set_psk(&[2; 32]).unwrap();
        assert_eq!(server.try_read(&mut message[..len]), Err(Error::Tag { token: Some(5) }));
        assert!(server.lacks_psk());
    }
    let (mut client, _) = client_and_late_server("IKpsk1", Toy(11), &[1; 32]);
    let len = client.write(b"payload", &mut message).unwrap();
    assert_eq!(server.try_read(&mut message[..len]), Err(Error::WantedPsk { remote_static: Some([11; 32]) }));
    server.set_psk(&[1; 32]).unwrap();
    assert_eq!(server.try_read(&mut message[..len]).unwrap(), b"payload");
    assert!(!server.lacks_psk() && server.remote_static() == Some([11; 32]));
}

#[test]
fn a_wanted_secret_changes_nothing() {
    let (mut client, mut server) = client_and_late_server("IKpsk1", Toy(11), &[1; 32]);
    let mut message = [0; 200];
    let len = client.write(b"payload", &mut message).unwrap();
    let sent = message;
    for _ in 0..20 {
        assert_eq!(server.read(&mut message[..len]), Err(Error::WantedPsk { remote_static: Some([11; 32]) }));
        assert_eq!(message, sent);
    }
    assert!(server.lacks_psk());
    server.set_psk(&[1; 32]).unwrap();
    assert!(!server.lacks_psk());
    assert_eq!(server.set_psk(&[1; 32]), Err(Error::PskCount));
    assert_eq!(server.read(&mut message[..len]).unwrap(), b"payload");
    assert_eq!(client.hash(), server.hash());
    let mut first = Builder::new("NNpsk0").late_psks().initiator_with::<Toy>().unwrap();
    assert_eq!(first.write(b"", &mut message), Err(Error::WantedPsk { remote_static: None }));
}

#[test]
fn a_stream_has_all_secrets_or_asks_for_them() {
    let begun = || client_and_late_server("XXpsk3", Toy(11), &[1; 32]);
    assert_eq!(inner(Stream::new(Script(&[]), begun().1, |_| true)), Error::PskCount);
    assert_eq!(inner(Stream::anonymous(Script(&[]), begun().1)), Error::PskCount);
    assert_eq!(inner(Stream::with_psk_for(Script(&[]), begun().0, choose)), Error::PskCount);
    let early = Builder::new("NNpsk0").late_psks().initiator_with::<Toy>().unwrap();
    assert_eq!(inner(Stream::with_psk_for(Script(&[]), early, choose)), Error::WantedPsk { remote_static: None });
    let nobody = Builder::new("NNpsk2").late_psks().initiator_with::<Toy>().unwrap();
    assert_eq!(inner(Stream::with_psk_for(Closed, nobody, choose)), Error::WantedPsk { remote_static: None });
}

// A stream that has these bytes to read.
struct Script<'a>(&'a [u8]);

impl Read for Script<'_> {
    fn read(&mut self, into: &mut [u8]) -> io::Result<usize> {
        self.0.read(into)
    }
}

impl Write for Script<'_> {
    fn write(&mut self, bytes: &[u8]) -> io::Result<usize> {
        Ok(bytes.len())
    }

    fn flush(&mut self) -> io::Result<()> {
        Ok(())
    }
}

#[test]
fn no_bytes_of_the_wire_make_a_stream() {
    let mut state = 1_u64;
    let mut next = || {
        state = state.wrapping_mul(6364136223846793005).wrapping_add(1442695040888963407);
        (state >> 33) as usize
    };
    let patterns = patterns();
    for _ in 0..3000 {
        let (client, server) = begun(&patterns[next() % patterns.len()]);
        let mut wire: Vec<u8> = (0..next() % 300).map(|_| next() as u8).collect();
        if wire.len() > 2 {
            wire[0] = 0;
        }
        let party = if next() % 2 == 0 { client } else { server };
        let byte =
            Stream::anonymous(Script(&wire), party).map_err(io::Error::from).and_then(|mut it| it.read(&mut [0]));
        assert!(byte.is_err());
    }
}

fn frame(from: &mut TcpStream) -> Option<Vec<u8>> {
    let mut frame = vec![0; 2];
    from.read_exact(&mut frame).ok()?;
    frame.resize(2 + usize::from(u16::from_be_bytes([frame[0], frame[1]])), 0);
    from.read_exact(&mut frame[2..]).ok()?;
    Some(frame)
}

// Carries the three messages of XX, and then frames, of which one, counted from 0, is struck by a fault.
fn relay(mut client: TcpStream, mut server: TcpStream, fault: usize, at: usize) {
    for to_server in [true, false, true] {
        let (from, to) = if to_server { (&mut client, &mut server) } else { (&mut server, &mut client) };
        let message = frame(from).unwrap();
        to.write_all(&message).unwrap();
    }
    let mut count = 0;
    while let Some(mut message) = frame(&mut client) {
        let end = message.len() - 1;
        match fault {
            _ if count != at => {}
            1 => message[2 + 7 * at % (end - 1)] ^= 1 << (at % 8),
            2 => message.clear(),
            3 => message.extend(message.clone()),
            4 => message = [frame(&mut client).unwrap(), message].concat(),
            5 => message.truncate(1 + 5 * at % end),
            6 => message.clear(),
            7 => message[0] ^= 0x40,
            _ => {}
        }
        server.write_all(&message).unwrap();
        if count == at && (fault == 5 || fault == 6) {
            break;
        }
        count += 1;
    }
    server.shutdown(Shutdown::Write).unwrap();
    io::copy(&mut client, &mut io::sink()).unwrap();
}

#[test]
fn no_fault_of_the_wire_makes_a_wrong_byte() {
    for (fault, kind) in [
        (0, None),
        (1, Some(ErrorKind::InvalidData)),
        (2, Some(ErrorKind::InvalidData)),
        (3, Some(ErrorKind::InvalidData)),
        (4, Some(ErrorKind::InvalidData)),
        (5, Some(ErrorKind::UnexpectedEof)),
        (6, Some(ErrorKind::UnexpectedEof)),
        (7, Some(ErrorKind::UnexpectedEof)),
    ] {
        for at in 0..10 {
            let ((a, b), (c, d), (client, server)) = (tcp(), tcp(), begun("XX"));
            let relayed = std::thread::spawn(move || relay(b, c, fault, at));
            let sent = std::thread::spawn(move || -> io::Result<()> {
                let mut stream = Stream::new(a, client, |_| true)?;
                (0..10).try_for_each(|i| stream.write_all(&[i; 30]))?;
                stream.close_write()
            });
            let (mut stream, mut got) = (Stream::new(d, server, |_| true).unwrap(), Vec::new());
            let got_kind = stream.read_to_end(&mut got).err().map(|error| error.kind());
            assert_eq!(got_kind, kind, "fault {fault} at {at}");
            let whole = [10, at, at, at + 1, at, at, at, at][fault];
            assert_eq!(got, (0..whole as u8).flat_map(|i| [i; 30]).collect::<Vec<u8>>());
            sent.join().unwrap().unwrap();
            relayed.join().unwrap();
        }
    }
}

// Cipher states, datagrams by halves, messages in place; causes of a failed X25519; and calls of two threads at once.
use std::error::Error as _;
use std::io;
use toy::{begun, Party, Toy};
use yulimosar::{Builder, Connecting, Datagrams, DhError, Error, Step, Stream, DATAGRAM_OVERHEAD, TAG_LEN};

mod toy;

fn done(pattern: &str) -> (Party, Party) {
    let (mut client, mut server) = begun(pattern);
    let mut message = [0; 1000];
    while !client.is_done() {
        let (writer, reader) =
            if client.writes_next() { (&mut client, &mut server) } else { (&mut server, &mut client) };
        let len = writer.write(b"", &mut message).unwrap();
        reader.read(&mut message[..len]).unwrap();
    }
    (client, server)
}

#[test]
fn cipher_states_have_data_nonces_and_new_keys() {
    let (client, server) = done("KK");
    let ((mut sends, mut receives_back), (mut sends_back, mut receives)) =
        (client.finish_ciphers().unwrap(), server.finish_ciphers().unwrap());
    let mut message = [0; 5 + TAG_LEN];
    message[..5].copy_from_slice(b"hello");
    assert_eq!(sends.encrypt(b"data", &mut message[..20], 5), Err(Error::Room));
    assert_eq!(sends.encrypt(b"data", &mut message, 5), Ok(21));
    assert_eq!((sends.nonce(), receives.nonce()), (1, 0));
    assert_eq!(receives.decrypt(b"date", &mut message.clone()), Err(Error::Tag { token: None }));
    assert_eq!(receives.decrypt(b"data", &mut message.clone()).unwrap(), b"hello");
    // The same packet again needs its nonce again, and not another key.
    assert_eq!(receives.decrypt(b"data", &mut message.clone()), Err(Error::Tag { token: None }));
    receives.set_nonce(0).unwrap();
    assert_eq!(receives.decrypt(b"data", &mut message.clone()).unwrap(), b"hello");
    receives.set_nonce(0).unwrap();
    receives.rekey().unwrap();
    assert_eq!(receives.decrypt(b"data", &mut message.clone()), Err(Error::Tag { token: None }));
    // With both keys replaced it goes on, at the nonce that is set.
    sends.rekey().unwrap();
    sends.set_nonce(1 << 40).unwrap();
    receives.set_nonce(1 << 40).unwrap();
    let mut message = [7; TAG_LEN];
    assert_eq!(sends.encrypt(b"", &mut message, 0), Ok(16));
    assert_eq!(receives.decrypt(b"", &mut message).unwrap(), b"");
    assert_eq!(receives.nonce(), (1 << 40) + 1);
    // The directions have keys of their own.
    let mut message = [7; TAG_LEN + 1];
    sends_back.encrypt(b"", &mut message, 1).unwrap();
    assert!(receives.decrypt(b"", &mut message.clone()).is_err());
    assert_eq!(receives_back.decrypt(b"", &mut message).unwrap(), [7]);
    sends.set_nonce(u64::MAX).unwrap();
    assert_eq!(sends.encrypt(b"", &mut [0; 17], 1), Err(Error::Exhausted));
}

#[test]
fn the_silent_cipher_state_of_a_one_way_pattern() {
    let (client, server) = done("X");
    let ((_, mut receives), (mut sends, _)) = (client.finish_ciphers().unwrap(), server.finish_ciphers().unwrap());
    assert_eq!(sends.encrypt(b"", &mut [0; 17], 1), Err(Error::OneWay));
    assert_eq!(receives.decrypt(b"", &mut [0; 17]), Err(Error::OneWay));
    assert_eq!((sends.rekey(), receives.rekey()), (Err(Error::OneWay), Err(Error::OneWay)));
    assert_eq!(begun("XX").0.finish_ciphers().err(), Some(Error::NotDone));
}

#[test]
fn halves_of_datagrams() {
    let (client, server) = done("IK");
    let datagrams = |it: Party| -> Datagrams { it.finish_datagrams(64).unwrap() };
    let ((mut seals, mut opens_back), (mut seals_back, mut opens)) =
        (datagrams(client).split(), datagrams(server).split());
    let other = std::thread::spawn(move || {
        let mut datagram = [0; DATAGRAM_OVERHEAD + 4];
        seals_back.seal(b"back", &mut datagram).unwrap();
        assert_eq!(opens_back.open(&mut datagram).unwrap(), b"back");
        assert_eq!(seals_back.nonce(), 1);
    });
    for nonce in 0..3_u64 {
        let mut datagram = [7; DATAGRAM_OVERHEAD + 5];
        datagram[8..13].copy_from_slice(b"hello");
        assert_eq!(seals.nonce(), nonce);
        assert_eq!(seals.seal_in_place(&mut datagram[..28], 5), Err(Error::Room));
        assert_eq!(seals.seal_in_place(&mut datagram, 5), Ok(29));
        assert_eq!(datagram[..8], nonce.to_be_bytes());
        assert_eq!(opens.open(&mut datagram.clone()).unwrap(), b"hello");
        assert_eq!(opens.open(&mut datagram), Err(Error::Repeated));
    }
    other.join().unwrap();
}

#[test]
fn messages_are_sealed_in_place() {
    let (client, server) = done("NN");
    let ((mut seals, _), (_, mut opens)) = (client.finish().unwrap().split(), server.finish().unwrap().split());
    let mut message = *b"hello----------------and";
    assert_eq!(seals.seal_in_place(&mut message[..20], 5), Err(Error::Room));
    assert_eq!(seals.seal_in_place(&mut message, 5), Ok(21));
    assert_eq!(&message[21..], b"and");
    assert_eq!(opens.open(&mut message[..21]).unwrap(), b"hello");
    assert_eq!((seals.nonce(), opens.nonce()), (1, 1));
}

// X25519 with the key of twos fails in a `Toy`, and with the key of zeros gives zeros.
#[test]
fn a_failed_agreement_keeps_its_cause() {
    let mut server = toy::builder("NN", Toy(5), Toy(3), false).responder_with::<Toy>().unwrap();
    server.read(&mut [2; 32]).unwrap();
    let error = server.write(b"", &mut [0; 100]).unwrap_err();
    assert_eq!(error, Error::KeyPair(DhError::new("the device is gone")));
    assert_eq!(error.source().unwrap().to_string(), "the device is gone");
    let error = io::Error::from(error);
    assert_eq!(error.kind(), io::ErrorKind::Other);
    assert_eq!(error.source().unwrap().to_string(), "the device is gone");
    let cause = DhError::new(io::Error::from(io::ErrorKind::NotConnected));
    let error = Error::from(cause);
    let inner = error.source().unwrap().downcast_ref::<io::Error>().unwrap();
    assert_eq!(inner.kind(), io::ErrorKind::NotConnected);

    let mut server = toy::builder("NN", Toy(5), Toy(3), false).responder_with::<Toy>().unwrap();
    server.read(&mut [0; 32]).unwrap();
    assert_eq!(server.write(b"", &mut [0; 100]), Err(Error::Zeros));
}

// A handshake that has failed says the same again, and has nothing to send.
#[test]
fn a_failed_handshake_is_over() {
    for (first, failure) in [(0, Error::Zeros), (2, Error::KeyPair(DhError::new("the device is gone")))] {
        let mut server = Connecting::anonymous(begun("NN").1).unwrap();
        assert_eq!(server.step(), Ok(Step::Receive(2)));
        assert_eq!(server.receive(&[0, 32, 9]), 2);
        assert_eq!(server.step(), Ok(Step::Receive(32)));
        assert_eq!(server.receive(&[first; 40]), 32);
        for _ in 0..3 {
            assert_eq!(server.step(), Err(failure.clone()));
            assert_eq!(server.receive(&[first; 40]), 0);
        }
        assert_eq!(server.finish().err(), Some(failure));
    }
    let mut client = Connecting::anonymous(begun("NN").0).unwrap();
    while let Step::Send(bytes) = client.step().unwrap() {
        let count = bytes.len().min(3);
        client.sent(count);
    }
    client.closed();
    assert_eq!(client.step(), Err(Error::Cut));
    assert_eq!(client.finish().err(), Some(Error::Cut));
}

#[test]
fn a_key_that_nobody_accepted_makes_no_channel() {
    let ((client, server), mut wire) = (begun("X"), Vec::new());
    let (mut client, mut server) = (Connecting::new(client).unwrap(), Connecting::new(server).unwrap());
    assert_eq!(client.step(), Ok(Step::Verify([5; 32])));
    assert_eq!(client.step(), Ok(Step::Verify([5; 32])));
    client.accept();
    while let Step::Send(bytes) = client.step().unwrap() {
        wire.extend(bytes);
        let count = bytes.len();
        client.sent(count);
    }
    // To accept before there is a key accepts nothing.
    server.accept();
    let mut rest = &wire[..];
    while let Step::Receive(_) = server.step().unwrap() {
        rest = &rest[server.receive(rest)..];
    }
    assert_eq!(server.step(), Ok(Step::Verify([3; 32])));
    assert_eq!(server.finish().err(), Some(Error::Refused));
    assert!(client.finish().is_ok());
    assert_eq!(Connecting::new(begun("XX").0).unwrap().finish().err(), Some(Error::NotDone));
}

// What the header allows: calls that take a struct as const, at once.
#[test]
fn threads_ask_one_handshake_at_once() {
    let (client, server) = done("XX");
    std::thread::scope(|scope| {
        for _ in 0..4 {
            scope.spawn(|| {
                for _ in 0..1000 {
                    assert_eq!(client.hash(), server.hash());
                    assert_eq!(client.remote_static(), Some([5; 32]));
                    assert!(client.is_done() && !client.writes_next() && client.message_len(0).is_none());
                    assert!(!client.lacks_psk());
                }
            });
        }
    });
}

#[test]
fn unauthenticated_set_ups_are_refused_before_a_byte() {
    assert_eq!(Connecting::new(begun("NN").0).err(), Some(Error::Refused));
    assert_eq!(Connecting::new(begun("NNpsk0").0).err(), Some(Error::Refused));
    assert_eq!(Connecting::with_late_psks(begun("XX").0).err(), Some(Error::PskCount));
    let late = Builder::new("NNpsk2").late_psks().initiator_with::<Toy>().unwrap();
    assert_eq!(Connecting::with_late_psks(late).err(), Some(Error::WantedPsk { remote_static: None }));
    let late = Builder::new("NNpsk2").late_psks().initiator_with::<Toy>().unwrap();
    assert_eq!(Connecting::anonymous(late).err(), Some(Error::PskCount));
    assert!(Stream::new(io::Cursor::new(Vec::new()), begun("NN").0, |_| true).is_err());
}

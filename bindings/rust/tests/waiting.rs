// Streams below that don't block, or that have timeouts; and parties that send little, or nothing.
use std::io::{self, ErrorKind, Read, Write};
use std::net::TcpStream;
use std::time::{Duration, Instant};
use toy::{begun, open, streams, tcp, Toy};
use yulimosar::{Deadline, Error, HandshakeError, Stream};

mod toy;

fn part(number: usize) -> Vec<u8> {
    (0..60_000).map(|i| (i * 7 + number) as u8).collect()
}

// Writes until the other party, which doesn't read, makes it wait; then the other party reads, and all of it comes.
fn write_much(mut client: Stream<TcpStream>, mut server: Stream<TcpStream>) {
    let (mut sent, mut waits) = (Vec::new(), 0);
    while waits < 5 {
        match client.write(&part(waits)) {
            Ok(count) => sent.extend(&part(waits)[..count]),
            Err(error) => {
                assert_eq!(error.kind(), ErrorKind::WouldBlock);
                // The kernel may have made room meanwhile.
                if let Err(error) = client.flush() {
                    assert_eq!(error.kind(), ErrorKind::WouldBlock);
                }
                waits += 1;
            }
        }
    }
    let reader = std::thread::spawn(move || {
        let mut all = Vec::new();
        server.read_to_end(&mut all).map(|_| all)
    });
    let again = |mut call: Box<dyn FnMut() -> io::Result<()> + '_>| loop {
        match call() {
            Err(error) if error.kind() == ErrorKind::WouldBlock => std::thread::sleep(Duration::from_millis(1)),
            done => break done.unwrap(),
        }
    };
    again(Box::new(|| client.flush()));
    again(Box::new(|| client.write(b"and more").map(|count| assert_eq!(count, 8))));
    again(Box::new(|| client.close_write()));
    client.close_write().unwrap();
    sent.extend(b"and more");
    assert!(reader.join().unwrap().unwrap() == sent);
}

#[test]
fn a_frame_stays_where_a_write_would_block() {
    let (client, server) = streams();
    client.get_ref().set_nonblocking(true).unwrap();
    write_much(client, server);
}

#[test]
#[cfg(not(windows))] // which doesn't say how much of a write past its timeout was sent
fn a_frame_stays_past_a_write_timeout() {
    let (client, server) = streams();
    client.get_ref().set_write_timeout(Some(Duration::from_millis(20))).unwrap();
    write_much(client, server);
}

// Has these bytes to read, one at a time, and between them and then for ever it would block. It notes the most bytes
// that it was asked for.
struct Slow {
    bytes: Vec<u8>,
    at: usize,
    calls: usize,
    most: usize,
    written: Vec<u8>,
}

impl Slow {
    fn new(bytes: &[u8]) -> Slow {
        Slow { bytes: bytes.to_vec(), at: 0, calls: 0, most: 0, written: Vec::new() }
    }
}

impl Read for Slow {
    fn read(&mut self, into: &mut [u8]) -> io::Result<usize> {
        self.calls += 1;
        self.most = self.most.max(into.len());
        if self.at == self.bytes.len() || self.calls % 2 == 0 {
            return Err([ErrorKind::WouldBlock, ErrorKind::TimedOut][self.calls % 2].into());
        }
        into[0] = self.bytes[self.at];
        self.at += 1;
        Ok(1)
    }
}

impl Write for Slow {
    fn write(&mut self, bytes: &[u8]) -> io::Result<usize> {
        self.written.extend(bytes);
        Ok(bytes.len())
    }

    fn flush(&mut self) -> io::Result<()> {
        Ok(())
    }
}

// Continues a handshake so many times, as long as it is interrupted.
fn resume(below: Slow, times: usize) -> Result<Stream<Slow>, HandshakeError<Slow, Toy, Toy>> {
    let mut passed = Stream::new(below, begun("XX").1, |_| true);
    for _ in 0..times {
        passed = match passed {
            Err(HandshakeError::Interrupted(it)) => it.resume(|_| true),
            other => return other,
        };
    }
    passed
}

#[test]
fn a_handshake_continues_where_it_was_interrupted() {
    let mut message = vec![0; 34];
    begun("XX").0.write(b"", &mut message[2..]).unwrap();
    message[1] = 32;
    match resume(Slow::new(&message), 200) {
        Err(HandshakeError::Interrupted(it)) => assert_eq!(it.get_ref().written.len(), 2 + 96),
        other => panic!("{:?}", other.err()),
    }
    // Another call than the one by which it began doesn't continue it.
    match resume(Slow::new(&[]), 0) {
        Err(HandshakeError::Interrupted(it)) => {
            assert_eq!(it.error().kind(), ErrorKind::TimedOut);
            assert!(matches!(it.resume_anonymous(), Err(HandshakeError::Failed(_))));
        }
        other => panic!("{:?}", other.err()),
    }
}

#[test]
fn two_bytes_take_no_memory() {
    let error = resume(Slow::new(&[0xff, 0xff]), 200).err().map(io::Error::from).unwrap();
    assert_eq!(error.to_string(), Error::TooLong.to_string());
    // Of a message that isn't too long, and of a frame after the handshake, the buffer has little more than what came.
    match resume(Slow::new(&[0x20, 0x00]), 200) {
        Err(HandshakeError::Interrupted(it)) => assert!(it.get_ref().most <= 4096),
        other => panic!("{:?}", other.err()),
    }
    let (mut client, server) = open();
    server.get_ref().0.borrow_mut().extend([0xff, 0xff]);
    assert_eq!(client.read(&mut [0]).unwrap_err().kind(), ErrorKind::WouldBlock);
    assert!(client.get_ref().2 <= 4096);
    server.get_ref().0.borrow_mut().extend([1; 5000]);
    assert_eq!(client.read(&mut [0]).unwrap_err().kind(), ErrorKind::WouldBlock);
    assert!(client.get_ref().2 <= 4 * 5002);
}

#[test]
fn a_read_without_room_waits_for_nothing() {
    let (mut client, mut server) = open();
    assert_eq!(client.read(&mut []).unwrap(), 0, "nothing has come");
    server.write_all(b"hello").unwrap();
    assert_eq!(client.read(&mut []).unwrap(), 0, "a frame has come");
    let mut said = [0; 2];
    client.read_exact(&mut said).unwrap();
    assert_eq!(client.read(&mut []).unwrap(), 0, "a part of it was read");
    let mut rest = [0; 3];
    client.read_exact(&mut rest).unwrap();
    assert_eq!((&said, &rest), (b"he", b"llo"));
    let (mut reads, _writes) = client.split(|below| Ok(below.clone())).unwrap();
    assert_eq!(reads.read(&mut []).unwrap(), 0, "a half waits neither");
}

// A party that is silent, that sends a byte at times, or that doesn't read, is waited for until the deadline.
#[test]
fn a_handshake_has_a_deadline() {
    let mut message = vec![0; 34];
    begun("XX").0.write(b"", &mut message[2..]).unwrap();
    message[1] = 32;
    for sent in [&[][..], &message[..33], &message] {
        let (mut client, server) = tcp();
        let sent = sent.to_vec();
        let trickle = std::thread::spawn(move || {
            for byte in sent.chunks(1) {
                let _ = client.write_all(byte);
                std::thread::sleep(Duration::from_millis(5));
            }
            let _ = client.read_to_end(&mut Vec::new());
        });
        let (begin, time) = (Instant::now(), Duration::from_millis(100));
        let below = Deadline::after(server, time).unwrap();
        match Stream::new(below, begun("XX").1, |_| true) {
            Err(HandshakeError::Failed(error)) => assert_eq!(error.kind(), ErrorKind::TimedOut),
            other => panic!("{:?}", other.err()),
        }
        assert!(begin.elapsed() >= time && begin.elapsed() < 50 * time);
        trickle.join().unwrap();
    }
}

// A nonblocking handshake that is resumed for ever ends at the deadline.
#[test]
fn a_nonblocking_handshake_has_a_deadline() {
    let (_client, server) = tcp();
    server.set_nonblocking(true).unwrap();
    let below = Deadline::after(server, Duration::from_millis(50)).unwrap();
    let mut passed = Stream::new(below, begun("XX").1, |_| true);
    let error = loop {
        passed = match passed {
            Err(HandshakeError::Interrupted(it)) => it.resume(|_| true),
            Err(HandshakeError::Failed(error)) => break error,
            other => panic!("{:?}", other.err()),
        };
    };
    assert_eq!(*error.get_ref().unwrap().downcast_ref::<Error>().unwrap(), Error::Deadline);
}

#[test]
fn after_the_handshake_there_is_no_deadline() {
    let ((a, b), (client, server)) = (tcp(), begun("XX"));
    let own = Some(Duration::from_secs(77));
    b.set_read_timeout(own).unwrap();
    let time = Duration::from_secs(60);
    let server = std::thread::spawn(move || Stream::new(Deadline::after(b, time).unwrap(), server, |_| true).unwrap());
    let mut client = Stream::new(Deadline::after(a, time).unwrap(), client, |_| true).unwrap();
    client.flush().unwrap();
    let limit = client.get_ref().get_ref().read_timeout().unwrap().unwrap();
    assert!(limit <= time);
    let (mut client, mut server) = (client.lift_deadline().unwrap(), server.join().unwrap().lift_deadline().unwrap());
    let timeouts = |stream: &Stream<TcpStream>| (stream.get_ref().read_timeout(), stream.get_ref().write_timeout());
    assert!(matches!(timeouts(&client), (Ok(None), Ok(None))));
    assert!(matches!(timeouts(&server), (Ok(read), Ok(None)) if read == own));
    client.write_all(b"hello").unwrap();
    let mut said = [0; 5];
    server.read_exact(&mut said).unwrap();
    assert_eq!(&said, b"hello");
}

// What leaves together, and what is received together: the last message of a handshake with the first bytes, many
// frames at one time; and what a channel hands out again.
use std::cell::RefCell;
use std::collections::VecDeque;
use std::io::{self, BufRead, ErrorKind, Read, Write};
use std::net::{TcpListener, TcpStream};
use std::rc::Rc;
use std::time::{Duration, Instant};
use toy::{begun, streams};
use yulimosar::{HandshakeError, Stream};

mod toy;

// A connection in memory that notes what each write has, and counts the reads. It doesn't block.
#[derive(Default)]
struct Wire {
    waiting: VecDeque<u8>,
    writes: Vec<Vec<u8>>,
    reads: usize,
    is_closed: bool,
}

struct End {
    to: Rc<RefCell<Wire>>,
    from: Rc<RefCell<Wire>>,
}

impl Read for End {
    fn read(&mut self, into: &mut [u8]) -> io::Result<usize> {
        let mut from = self.from.borrow_mut();
        from.reads += 1;
        match from.waiting.read(into)? {
            0 if !from.is_closed && !into.is_empty() => Err(ErrorKind::WouldBlock.into()),
            count => Ok(count),
        }
    }
}

impl Write for End {
    fn write(&mut self, bytes: &[u8]) -> io::Result<usize> {
        let mut to = self.to.borrow_mut();
        to.writes.push(bytes.to_vec());
        to.waiting.write(bytes)
    }

    fn flush(&mut self) -> io::Result<()> {
        Ok(())
    }
}

fn resumed<S: yulimosar::Dh, E: yulimosar::Ephemeral>(
    passed: Result<Stream<End>, HandshakeError<End, S, E>>,
) -> Result<Stream<End>, HandshakeError<End, S, E>> {
    match passed {
        Err(HandshakeError::Interrupted(it)) => it.resume_anonymous(),
        other => other,
    }
}

// The initiator's channel, the responder's handshake, which has still to read its last message, and what
// the initiator writes to.
#[allow(clippy::type_complexity)]
fn finished(
    pattern: &str,
) -> (Stream<End>, Result<Stream<End>, HandshakeError<End, toy::Toy, toy::Toy>>, Rc<RefCell<Wire>>) {
    let (there, back) = (Rc::new(RefCell::new(Wire::default())), Rc::new(RefCell::new(Wire::default())));
    let (client, server) = begun(pattern);
    let mut client = Stream::anonymous(End { to: there.clone(), from: back.clone() }, client);
    let mut server = Stream::anonymous(End { to: back, from: there.clone() }, server);
    for _ in 0..3 {
        server = resumed(server);
        client = resumed(client);
    }
    (client.unwrap(), server, there)
}

#[test]
fn the_last_message_leaves_with_the_first_bytes() {
    for (pattern, messages) in [("XX", 2), ("N", 1)] {
        let (mut client, server, there) = finished(pattern);
        assert_eq!(there.borrow().writes.len(), messages - 1);
        client.write_all(b"hello").unwrap();
        assert_eq!(there.borrow().writes.len(), messages);
        assert!(there.borrow().writes[messages - 1].len() > 2 + 5 + 18);
        let (mut server, mut said) = (resumed(server).unwrap(), [0; 5]);
        server.read_exact(&mut said).unwrap();
        assert_eq!(&said, b"hello");
    }
}

#[test]
fn the_last_message_and_the_end_leave_together() {
    let (mut client, server, there) = finished("XX");
    client.close_write().unwrap();
    assert_eq!(there.borrow().writes.len(), 2);
    assert_eq!(resumed(server).unwrap().read(&mut [0; 5]).unwrap(), 0);
}

#[test]
fn a_flush_a_read_and_a_split_send_the_last_message() {
    type Act = fn(Stream<End>);
    let acts: [Act; 4] = [
        |mut client| client.flush().unwrap(),
        |mut client| assert_eq!(client.read(&mut [0]).unwrap_err().kind(), ErrorKind::WouldBlock),
        |mut client| assert_eq!(client.fill_buf().unwrap_err().kind(), ErrorKind::WouldBlock),
        |client| {
            client.split(|end| Ok(End { to: end.to.clone(), from: end.from.clone() })).unwrap();
        },
    ];
    for act in acts {
        let (client, server, there) = finished("XX");
        assert_eq!(there.borrow().writes.len(), 1);
        act(client);
        assert_eq!(there.borrow().writes.len(), 2);
        assert!(resumed(server).is_ok());
    }
}

// Without TCP_NODELAY: what leaves in two pieces takes 40 ms more, until the other system has acknowledged the first.
#[test]
fn a_first_connection_takes_less_than_5_ms() {
    let listener = TcpListener::bind("127.0.0.1:0").unwrap();
    let address = listener.local_addr().unwrap();
    // One is enough, within a minute: what else the machine does makes others slow.
    let (mut fastest, until) = (Duration::MAX, Instant::now() + Duration::from_secs(60));
    while fastest >= Duration::from_millis(5) {
        assert!(Instant::now() < until, "{fastest:?}");
        let accepts = listener.try_clone().unwrap();
        let (client, server) = begun("XX");
        let server = std::thread::spawn(move || -> io::Result<()> {
            let mut stream = Stream::new(accepts.accept()?.0, server, |_| true)?;
            let mut said = [0; 5];
            stream.read_exact(&mut said)?;
            stream.write_all(&said)
        });
        let begin = Instant::now();
        let mut stream = Stream::new(TcpStream::connect(address).unwrap(), client, |_| true).unwrap();
        stream.write_all(b"hello").unwrap();
        stream.read_exact(&mut [0; 5]).unwrap();
        fastest = fastest.min(begin.elapsed());
        server.join().unwrap().unwrap();
    }
}

// A connection that takes nothing more: each read returns the same error, and nothing waits for ever.
#[test]
fn a_last_message_that_cannot_be_sent_is_an_error() {
    struct Broken(End);

    impl Read for Broken {
        fn read(&mut self, into: &mut [u8]) -> io::Result<usize> {
            self.0.read(into)
        }
    }

    impl Write for Broken {
        fn write(&mut self, _: &[u8]) -> io::Result<usize> {
            Err(ErrorKind::BrokenPipe.into())
        }

        fn flush(&mut self) -> io::Result<()> {
            Ok(())
        }
    }

    let wire = Rc::new(RefCell::new(Wire::default()));
    let below = Broken(End { to: wire.clone(), from: wire });
    let mut client = Stream::anonymous(below, begun("N").0).unwrap();
    for _ in 0..2 {
        assert_eq!(client.read(&mut [0]).unwrap_err().kind(), ErrorKind::BrokenPipe);
    }
    assert_eq!(client.write(b"x").unwrap_err().kind(), ErrorKind::ConnectionAborted);
}

#[test]
fn many_frames_are_received_at_once() {
    let (mut client, server, there) = finished("XX");
    for _ in 0..100 {
        client.write_all(b"small").unwrap();
    }
    let mut server = resumed(server).unwrap();
    let before = there.borrow().reads;
    let mut all = vec![0; 500];
    server.read_exact(&mut all).unwrap();
    assert_eq!(all, b"small".repeat(100));
    assert!(there.borrow().reads - before <= 2, "{} reads", there.borrow().reads - before);
}

// What comes after the end is no part of the stream, and doesn't make it a cut one.
#[test]
fn what_came_after_the_end_is_handed_out() {
    let (mut client, server, there) = finished("XX");
    client.write_all(b"hello").unwrap();
    client.close_write().unwrap();
    there.borrow_mut().waiting.extend(b"another protocol");
    let (mut server, mut text) = (resumed(server).unwrap(), String::new());
    server.read_to_string(&mut text).unwrap();
    assert_eq!(text, "hello");
    assert_eq!(server.read(&mut [0]).unwrap(), 0);
    assert_eq!(server.into_inner().1, b"another protocol");
    // Before the end: the frames that weren't decrypted.
    let (mut client, server, _) = finished("XX");
    client.write_all(b"first").unwrap();
    client.write_all(b"second").unwrap();
    let mut server = resumed(server).unwrap();
    server.read_exact(&mut [0; 5]).unwrap();
    assert_eq!(server.into_inner().1.len(), 18 + 6);
}

#[test]
fn lines_are_read_in_place() {
    let (mut client, mut server) = streams();
    client.write_all(b"one\ntwo\nth").unwrap();
    client.write_all(b"ree").unwrap();
    client.close_write().unwrap();
    let mut line = String::new();
    server.read_line(&mut line).unwrap();
    assert_eq!(line, "one\n");
    let mut byte = [0];
    server.read_exact(&mut byte).unwrap();
    assert_eq!(&byte, b"t");
    let (reads, _writes) = server.split(TcpStream::try_clone).unwrap();
    let rest: Vec<String> = reads.lines().collect::<io::Result<_>>().unwrap();
    assert_eq!(rest, ["wo", "three"]);
}

// A client that reads to the end of the answer loses nothing of what it has sent, although the server sends meanwhile.
#[test]
fn a_client_that_reads_to_the_end_loses_nothing() {
    let (mut client, mut server) = streams();
    let all = vec![7; 1 << 20];
    let sent = all.clone();
    let writer = std::thread::spawn(move || -> io::Result<()> {
        client.write_all(&sent)?;
        client.close_write()?;
        io::copy(&mut client, &mut io::sink()).map(drop)
    });
    server.write_all(b"what the client doesn't want").unwrap();
    let mut got = Vec::new();
    server.read_to_end(&mut got).unwrap();
    server.close_write().unwrap();
    writer.join().unwrap().unwrap();
    assert!(got == all);
}

#[test]
#[cfg(unix)]
fn the_descriptor_is_that_of_the_stream_below() {
    use std::os::unix::io::{AsFd, AsRawFd};
    let (client, server) = streams();
    let own = client.get_ref().as_raw_fd();
    assert_eq!(client.as_fd().as_raw_fd(), own);
    let (reads, _writes) = client.split(TcpStream::try_clone).unwrap();
    assert_eq!(reads.as_fd().as_raw_fd(), own);
    let below = yulimosar::Deadline::after(server.into_inner().0, Duration::from_secs(1)).unwrap();
    assert_eq!(below.as_fd().as_raw_fd(), below.get_ref().as_raw_fd());
}

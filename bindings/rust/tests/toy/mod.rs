// Parties whose key agreement is none: what the tests look at doesn't depend on it.
#![allow(dead_code)] // each test uses some
use std::cell::RefCell;
use std::collections::VecDeque;
use std::io::{self, ErrorKind, Read, Write};
use std::net::{TcpListener, TcpStream};
use std::rc::Rc;
use std::sync::atomic::{AtomicU8, Ordering};
use yulimosar::{Builder, Dh, DhError, Ephemeral, Handshake, HandshakeError, Pattern, Stream};

#[derive(Clone, Copy)]
pub struct Toy(pub u8);

static DRAWN: AtomicU8 = AtomicU8::new(100);

impl Dh for Toy {
    fn public(&self) -> [u8; 32] {
        [self.0; 32]
    }

    fn agree(&self, remote: &[u8; 32]) -> Result<[u8; 32], DhError> {
        match remote[0] {
            0 => Ok([0; 32]),
            2 => Err(DhError::new("the device is gone")),
            first => Ok([self.0.wrapping_mul(first) | 1; 32]),
        }
    }
}

impl Ephemeral for Toy {
    fn draw() -> Result<Toy, DhError> {
        Ok(Toy(DRAWN.fetch_add(2, Ordering::Relaxed) | 1))
    }
}

pub const PSK: [u8; 32] = [7; 32];

pub fn builder(pattern: &str, own: Toy, other: Toy, initiator: bool) -> Builder<'_, Toy> {
    let mut builder = Builder::new(pattern).prologue(b"test").static_key(own);
    let facts = Pattern::new(pattern).unwrap();
    if if initiator { facts.initiator() } else { facts.responder() }.remote_static {
        builder = builder.remote_static(&other.public());
    }
    (0..facts.psks()).fold(builder, |builder, _| builder.psk(&PSK))
}

pub type Party = Handshake<Toy, Toy>;

pub fn begun(pattern: &str) -> (Party, Party) {
    let (client, server) = (Toy(3), Toy(5));
    (
        builder(pattern, client, server, true).initiator_with().unwrap(),
        builder(pattern, server, client, false).responder_with().unwrap(),
    )
}

pub fn tcp() -> (TcpStream, TcpStream) {
    let listener = TcpListener::bind("127.0.0.1:0").unwrap();
    let client = TcpStream::connect(listener.local_addr().unwrap()).unwrap();
    (client, listener.accept().unwrap().0)
}

pub fn streams() -> (Stream<TcpStream>, Stream<TcpStream>) {
    let ((a, b), (client, server)) = (tcp(), begun("XX"));
    let server = std::thread::spawn(move || Stream::new(b, server, |key| key == &[3; 32]).unwrap());
    let mut client = Stream::new(a, client, |key| key == &[5; 32]).unwrap();
    client.flush().unwrap(); // the last message of the handshake
    (client, server.join().unwrap())
}

pub type Queue = Rc<RefCell<VecDeque<u8>>>;

// What is written, what is read, and the most bytes that a read has asked for.
#[derive(Clone)]
pub struct Memory(pub Queue, pub Queue, pub usize);

impl Memory {
    // Forgets what is there, with its memory.
    pub fn empty(&self) {
        self.0.take();
        self.1.take();
    }
}

impl Read for Memory {
    fn read(&mut self, into: &mut [u8]) -> io::Result<usize> {
        self.2 = self.2.max(into.len());
        match self.1.borrow_mut().read(into)? {
            0 => Err(ErrorKind::WouldBlock.into()),
            count => Ok(count),
        }
    }
}

impl Write for Memory {
    fn write(&mut self, bytes: &[u8]) -> io::Result<usize> {
        self.0.borrow_mut().write(bytes)
    }

    fn flush(&mut self) -> io::Result<()> {
        Ok(())
    }
}

// Two parties after a handshake, on one thread.
pub fn open() -> (Stream<Memory>, Stream<Memory>) {
    let ((there, back), (client, server)) = ((Queue::default(), Queue::default()), begun("XX"));
    let mut client = Stream::new(Memory(there.clone(), back.clone(), 0), client, |_| true);
    let mut server = Stream::new(Memory(back, there, 0), server, |_| true);
    loop {
        (client, server) = match (client, server) {
            (Ok(client), Ok(server)) => return (client, server),
            (Ok(mut client), server) => {
                client.flush().unwrap(); // the last message of the handshake
                (Ok(client), next(server))
            }
            (client, server) => (next(client), next(server)),
        };
    }
}

type Passed = Result<Stream<Memory>, HandshakeError<Memory, Toy, Toy>>;

fn next(passed: Passed) -> Passed {
    match passed {
        Err(HandshakeError::Interrupted(it)) => it.resume(|_| true),
        other => other,
    }
}

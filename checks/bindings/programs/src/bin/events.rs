// One thread with mio: a server and its clients, which wait for what `wants_read` and `wants_write` say.
use mio::net::{TcpListener, TcpStream};
use mio::{Events, Interest, Poll, Token};
use std::collections::HashMap;
use std::io::{self, ErrorKind, Read, Write};
use std::time::Duration;
use yulimosar::{Builder, HandshakeError, KeyPair, MidHandshake, NoKey, Stream};

const CLIENTS: usize = 20;
const LISTENER: Token = Token(usize::MAX);

enum Phase {
    Server(MidHandshake<TcpStream, KeyPair, KeyPair>),
    Client(MidHandshake<TcpStream, NoKey, KeyPair>),
    Open(Stream<TcpStream>),
}

struct Party {
    phase: Option<Phase>,
    waiting: Vec<u8>,  // to be written
    is_ending: bool,   // once that is written
    expected: Vec<u8>, // by a client
    got: Vec<u8>,
    is_client: bool,
}

fn is_wait(error: &io::Error) -> bool {
    error.kind() == ErrorKind::WouldBlock
}

impl Party {
    fn of(phase: Phase, text: Vec<u8>, is_client: bool) -> Party {
        let (waiting, expected) = (text.clone(), text);
        Party { phase: Some(phase), waiting, is_ending: is_client, expected, got: Vec::new(), is_client }
    }

    fn socket(&mut self) -> Option<&mut TcpStream> {
        Some(match self.phase.as_mut()? {
            Phase::Server(it) => it.get_mut(),
            Phase::Client(it) => it.get_mut(),
            Phase::Open(it) => it.get_mut(),
        })
    }

    // What to wait for; nothing: it is done.
    fn interest(&self) -> Option<Interest> {
        let (reads, writes) = match self.phase.as_ref()? {
            Phase::Server(it) => (it.wants_read(), it.wants_write()),
            Phase::Client(it) => (it.wants_read(), it.wants_write()),
            Phase::Open(it) => (it.wants_read(), it.wants_write() || !self.waiting.is_empty()),
        };
        match (reads, writes) {
            (true, true) => Some(Interest::READABLE | Interest::WRITABLE),
            (true, false) => Some(Interest::READABLE),
            (false, true) => Some(Interest::WRITABLE),
            (false, false) => None,
        }
    }

    // Does what it can without waiting.
    fn go_on(&mut self) -> io::Result<()> {
        let opened = match self.phase.take() {
            None => return Ok(()),
            Some(Phase::Open(it)) => Ok(it),
            Some(Phase::Server(it)) => it.resume_anonymous().or_else(|error| self.later(error, Phase::Server)),
            Some(Phase::Client(it)) => it.resume(|_| true).or_else(|error| self.later(error, Phase::Client)),
        };
        match opened {
            Ok(stream) => self.phase = Some(Phase::Open(stream)),
            Err(error) if is_wait(&error) => return Ok(()),
            Err(error) => return Err(error),
        }
        match self.pass() {
            Err(error) if is_wait(&error) => Ok(()),
            answer => answer,
        }
    }

    fn later<S: yulimosar::Dh>(
        &mut self,
        error: HandshakeError<TcpStream, S, KeyPair>,
        phase: impl Fn(MidHandshake<TcpStream, S, KeyPair>) -> Phase,
    ) -> io::Result<Stream<TcpStream>> {
        match error {
            HandshakeError::Interrupted(it) => {
                self.phase = Some(phase(it));
                Err(ErrorKind::WouldBlock.into())
            }
            error => Err(error.into()),
        }
    }

    fn pass(&mut self) -> io::Result<()> {
        let stream = match &mut self.phase {
            Some(Phase::Open(stream)) => stream,
            _ => return Ok(()),
        };
        loop {
            let sent = send(stream, &mut self.waiting, self.is_ending);
            if matches!(&sent, Err(error) if !is_wait(error)) {
                return sent;
            }
            let mut bytes = [0; 5000];
            match stream.read(&mut bytes)? {
                0 if self.is_client => {
                    assert!(self.got == self.expected, "{} bytes", self.got.len());
                    self.phase = None;
                    return Ok(());
                }
                0 => {
                    self.is_ending = true;
                    send(stream, &mut self.waiting, true)?;
                    self.phase = None;
                    return Ok(());
                }
                count if self.is_client => self.got.extend(&bytes[..count]),
                count => self.waiting.extend(&bytes[..count]),
            }
        }
    }
}

fn send(stream: &mut Stream<TcpStream>, waiting: &mut Vec<u8>, is_ending: bool) -> io::Result<()> {
    while !waiting.is_empty() {
        let count = stream.write(waiting)?;
        waiting.drain(..count);
    }
    if is_ending {
        stream.close_write()
    } else {
        stream.flush()
    }
}

type Opening<S> = Result<Stream<TcpStream>, HandshakeError<TcpStream, S, KeyPair>>;

// A handshake that has begun, and may be over.
fn begun<S: yulimosar::Dh>(
    opening: Opening<S>,
    phase: impl Fn(MidHandshake<TcpStream, S, KeyPair>) -> Phase,
) -> io::Result<Phase> {
    match opening {
        Ok(stream) => Ok(Phase::Open(stream)),
        Err(HandshakeError::Interrupted(it)) => Ok(phase(it)),
        Err(error) => Err(error.into()),
    }
}

// The sockets of one thread, each with its party.
struct Loop {
    poll: Poll,
    parties: HashMap<Token, Party>,
}

impl Loop {
    fn add(&mut self, mut party: Party) -> io::Result<()> {
        let token = Token(self.parties.len());
        if let (Some(interest), Some(socket)) = (party.interest(), party.socket()) {
            self.poll.registry().register(socket, token, interest)?;
        }
        self.parties.insert(token, party);
        Ok(())
    }

    fn go_on(&mut self, token: Token) -> io::Result<()> {
        if let Some(party) = self.parties.get_mut(&token) {
            party.go_on()?;
            if let (Some(interest), Some(socket)) = (party.interest(), party.socket()) {
                self.poll.registry().reregister(socket, token, interest)?;
            }
        }
        Ok(())
    }

    fn is_done(&self) -> bool {
        self.parties.len() == 2 * CLIENTS && self.parties.values().all(|party| party.phase.is_none())
    }
}

fn main() -> io::Result<()> {
    let (server, mut events) = (KeyPair::generate()?, Events::with_capacity(16));
    let mut listener = TcpListener::bind(([127, 0, 0, 1], 0).into())?;
    let mut all = Loop { poll: Poll::new()?, parties: HashMap::new() };
    all.poll.registry().register(&mut listener, LISTENER, Interest::READABLE)?;
    for place in 0..CLIENTS {
        let below = TcpStream::connect(listener.local_addr()?)?;
        let opening = Stream::new(below, Builder::new("NX").initiator()?, |_| true);
        let text = (0..place * 30_000).map(|byte| (byte * 7 >> 3) as u8).collect();
        all.add(Party::of(begun(opening, Phase::Client)?, text, true))?;
    }
    while !all.is_done() {
        all.poll.poll(&mut events, Some(Duration::from_secs(20)))?;
        assert!(!events.is_empty(), "all wait, and nothing is to come");
        for event in &events {
            if event.token() != LISTENER {
                all.go_on(event.token())?;
                continue;
            }
            loop {
                let below = match listener.accept() {
                    Err(error) if is_wait(&error) => break,
                    accepted => accepted?.0,
                };
                let handshake = Builder::new("NX").static_key(server.clone()).responder()?;
                let phase = begun(Stream::anonymous(below, handshake), Phase::Server)?;
                all.add(Party::of(phase, Vec::new(), false))?;
            }
        }
    }
    println!("events: {CLIENTS} clients");
    Ok(())
}

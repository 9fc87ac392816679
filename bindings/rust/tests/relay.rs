// Two parties of one session with a relay between them that flips, cuts, repeats or drops at each byte, whatever the
// order in which they end their streams: over `Stream`, over both `AsyncStream`, and over `Connection` alone. None of
// them blocks, and bytes come and go in small pieces. What each side reports is compared with the theorem on streams:
// what was read is the first of what was written; an end is reported only if the writer has ended and all of it came,
// and else a refused message or a cut; and after that nothing more is sent.
use ends::{Alone, Below, Channel, Fault, Opening, Pipe};
use std::cell::{Cell, RefCell};
use std::collections::VecDeque;
use std::io::{self, ErrorKind};
use std::rc::Rc;
use toy::{builder, Toy};
use yulimosar::{Connection, Stream};

mod ends;
mod toy;

const TEXTS: [[&[u8]; 3]; 2] =
    [[b"a first text", b"b", b"the last of the client"], [b"1", b"what the server has to say", b"and good bye"]];

enum State<C: Channel> {
    Shaking(C::Shaking),
    Open(Box<C>),
    Closed,
}

// One party: it does its handshake, writes its texts, and ends its stream, at once or, where it waits, only once the
// other's has ended. At an error it tries to write and to end its stream, and closes.
struct End<C: Channel> {
    role: usize,
    waits: bool,
    state: State<C>,
    to: Rc<RefCell<Pipe>>,
    taken: usize,
    got: Vec<u8>,
    ends: bool,
    has_sent_end: bool,
    outcome: Option<Result<(), ErrorKind>>,
}

impl<C: Channel> End<C> {
    fn new(role: usize, waits: bool, pipes: &[Rc<RefCell<Pipe>>; 2], moves: &Rc<Cell<usize>>) -> End<C> {
        let (to, from) = (pipes[role].clone(), pipes[1 - role].clone());
        let below = Below { to: to.clone(), from, moves: moves.clone(), calls: 0 };
        let (own, other) = [(Toy(3), Toy(5)), (Toy(5), Toy(3))][role];
        let builder = builder("XX", own, other, role == 0).interval(2);
        let handshake = if role == 0 { builder.initiator_with() } else { builder.responder_with() }.unwrap();
        let begun = C::begin(below, handshake);
        let mut end = End {
            role,
            waits,
            state: State::Closed,
            to,
            taken: 0,
            got: Vec::new(),
            ends: false,
            has_sent_end: false,
            outcome: None,
        };
        end.state = end.after(begun);
        end
    }

    fn after(&mut self, opening: Opening<C>) -> State<C> {
        match opening {
            Opening::Open(channel) => State::Open(Box::new(channel)),
            Opening::Waits(it) => State::Shaking(it),
            Opening::Failed(error) => {
                self.outcome = Some(Err(error.kind()));
                State::Closed
            }
        }
    }

    fn run(&mut self) {
        self.state = match std::mem::replace(&mut self.state, State::Closed) {
            State::Shaking(it) => self.after(C::go_on(it)),
            State::Open(mut stream) => match self.pass(&mut stream) {
                Err(error) if error.kind() != ErrorKind::WouldBlock => {
                    self.fail(*stream, error.kind());
                    State::Closed
                }
                _ if self.has_sent_end && self.outcome.is_some() => State::Closed,
                _ => State::Open(stream),
            },
            State::Closed => State::Closed,
        };
    }

    fn pass(&mut self, stream: &mut C) -> io::Result<()> {
        if let Err(error) = self.write(stream) {
            assert_eq!(error.kind(), ErrorKind::WouldBlock);
        }
        while self.outcome.is_none() {
            let mut bytes = [0; 10];
            match stream.read(&mut bytes)? {
                0 => self.outcome = Some(Ok(())),
                count => self.got.extend(&bytes[..count]),
            }
        }
        Ok(())
    }

    fn write(&mut self, stream: &mut C) -> io::Result<()> {
        while let Some(text) = TEXTS[self.role].get(self.taken) {
            assert_eq!(stream.write(text)?, text.len());
            self.taken += 1;
        }
        if !self.has_sent_end && (!self.waits || self.outcome.is_some()) {
            self.ends = true;
            stream.end()?;
            self.has_sent_end = true;
        }
        Ok(())
    }

    fn fail(&mut self, mut stream: C, kind: ErrorKind) {
        self.outcome = Some(Err(kind));
        let before = self.to.borrow().sent.len();
        for result in [stream.write(b"more").map(drop), stream.flush(), stream.end()] {
            assert_eq!(result.unwrap_err().kind(), ErrorKind::ConnectionAborted);
        }
        assert_eq!(stream.read(&mut [0]).unwrap_err().kind(), kind);
        drop(stream);
        assert_eq!(self.to.borrow().sent.len(), before);
    }
}

fn run_all<C: Channel>(ends: &mut [End<C>; 2], moves: &Cell<usize>) {
    let (mut before, mut idle) = (0, 0);
    while idle < 4 {
        ends.iter_mut().for_each(End::run);
        idle = if moves.get() == before { idle + 1 } else { 0 };
        before = moves.get();
    }
}

// Passes a session, and returns how many bytes each party has sent.
fn pass_session<C: Channel>(waits: [bool; 2], faults: [(Fault, usize); 2]) -> [usize; 2] {
    let pipes = faults.map(|(fault, at)| {
        let (waiting, is_closed) = (VecDeque::new(), false);
        Rc::new(RefCell::new(Pipe { fault, at, sent: Vec::new(), came: Vec::new(), waiting, is_closed }))
    });
    let moves = Rc::new(Cell::new(0));
    let mut ends = [0, 1].map(|role| End::<C>::new(role, waits[role], &pipes, &moves));
    run_all(&mut ends, &moves);
    // Where both wait for the other, a deadline closes the connection.
    pipes.iter().for_each(|pipe| pipe.borrow_mut().is_closed = true);
    run_all(&mut ends, &moves);
    let what = format!("waits {waits:?}, faults {faults:?}");
    for (role, end) in ends.iter().enumerate() {
        let (other, pipe) = (&ends[1 - role], pipes[1 - role].borrow());
        let written = TEXTS[other.role][..other.taken].concat();
        assert!(written.starts_with(&end.got), "{what}: {role} has other bytes");
        match end.outcome.unwrap_or_else(|| panic!("{what}: {role} waits for ever")) {
            Ok(()) => {
                assert!(other.ends && other.taken == 3 && end.got == written, "{what}: {role} has an end too early");
                assert!(pipe.came.starts_with(&pipe.sent), "{what}: {role} has an end after damage");
            }
            Err(kind) => {
                let is_cut = pipe.fault == Fault::Cut && kind == ErrorKind::UnexpectedEof;
                let may_be = [ErrorKind::UnexpectedEof, ErrorKind::InvalidData].contains(&kind);
                assert!(is_cut || pipe.fault != Fault::Cut && may_be, "{what}: {role} reports {kind:?}");
                assert!(faults != [(Fault::Nothing, 0); 2], "{what}: {role} reports {kind:?}");
            }
        }
    }
    pipes.map(|pipe| pipe.borrow().sent.len())
}

fn each_side_reports_what_is_true<C: Channel>() {
    let (none, mut sessions) = ((Fault::Nothing, 0), 0);
    for waits in [[false, false], [true, false], [false, true]] {
        let sent = pass_session::<C>(waits, [none, none]);
        for direction in [0, 1] {
            for at in 0..sent[direction] {
                for fault in [Fault::Flip((at * 5 % 8) as u8), Fault::Cut, Fault::Repeat, Fault::Drop] {
                    let mut faults = [none, none];
                    faults[direction] = (fault, at);
                    pass_session::<C>(waits, faults);
                    sessions += 1;
                }
            }
        }
    }
    assert!(sessions > 4500, "{sessions} sessions");
}

#[test]
fn each_side_of_a_stream_reports_what_is_true() {
    each_side_reports_what_is_true::<Stream<Below>>();
}

#[test]
fn each_side_of_a_connection_reports_what_is_true() {
    each_side_reports_what_is_true::<Alone<Connection>>();
}

#[test]
#[cfg(feature = "tokio")]
fn each_side_of_an_async_stream_reports_what_is_true() {
    each_side_reports_what_is_true::<yulimosar::AsyncStream<Below>>();
}

#[test]
#[cfg(feature = "futures-io")]
fn each_side_of_a_stream_over_futures_reports_what_is_true() {
    each_side_reports_what_is_true::<yulimosar::futures::AsyncStream<Below>>();
}

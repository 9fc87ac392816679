// Two parties over a stream below, in every manner: what each sends the other reads whole, up to its end.
use super::below::{connection, Below};
use super::{by, Executor, Later, Random, SharedSide};
use crate::toy::{builder, Toy, PSK};
use std::cell::{Cell, RefCell};
use std::collections::HashMap;
use std::future::Future;
use std::io::{self, ErrorKind};
use std::pin::Pin;
use std::rc::Rc;
use std::task::{Context, Poll, Waker};
use yulimosar::{Agent, Builder, Dh, DhError, Handshake, Pattern};

/// The fifteen fundamental patterns, and some with psks.
pub const PATTERNS: [&str; 21] = [
    "N", "K", "X", "NN", "NK", "NX", "KN", "KK", "KX", "XN", "XK", "XX", "IN", "IK", "IX", "NNpsk0", "KNpsk2",
    "IKpsk1", "IKpsk2", "XXpsk3", "Xpsk1",
];

/// The static key pair may be in an agent, or say that its result comes later.
pub type Party = Handshake<Box<dyn Dh>, Toy>;

pub type Opening<C> = Pin<Box<dyn Future<Output = io::Result<C>>>>;

/// Which constructor opens a channel.
#[derive(Clone, Copy, Debug)]
pub enum Way {
    Verified,
    Anonymous,
    Psk,
}

pub trait Reads: Unpin + 'static {
    fn poll_read(&mut self, context: &mut Context<'_>, into: &mut [u8]) -> Poll<io::Result<usize>>;
    /// `poll_fill_buf`, and how many bytes it has; the first of them are put into `into`, and used up.
    fn poll_fill(&mut self, context: &mut Context<'_>, into: &mut [u8]) -> Poll<io::Result<usize>>;
}

pub trait Writes: Unpin + 'static {
    fn poll_write(&mut self, context: &mut Context<'_>, bytes: &[u8]) -> Poll<io::Result<usize>>;
    fn poll_vectored(&mut self, context: &mut Context<'_>, parts: [&[u8]; 3]) -> Poll<io::Result<usize>>;
    fn poll_flush(&mut self, context: &mut Context<'_>) -> Poll<io::Result<()>>;
    fn poll_end(&mut self, context: &mut Context<'_>) -> Poll<io::Result<()>>;
}

/// A channel over the traits of one library.
pub trait Channel: Reads + Writes {
    type Reads: Reads;
    type Writes: Writes;

    /// Whether two tasks may share it.
    const IS_SHARED: bool = true;

    /// `key`: the side at which the program waits for its key pair, if nothing else does.
    fn open(below: Below, handshake: Party, way: Way, later: Later, key: SharedSide) -> Opening<Self>
    where
        Self: Sized;
    fn halves(self) -> Opening<(Self::Reads, Self::Writes)>;
}

/// In how many runs each function was polled.
#[derive(Default)]
pub struct Counts(RefCell<HashMap<&'static str, (usize, usize)>>);

impl Counts {
    fn note(&self, run: usize, what: &'static str) {
        let mut counts = self.0.borrow_mut();
        let entry = counts.entry(what).or_default();
        if entry.0 != run {
            *entry = (run, entry.1 + 1);
        }
    }

    pub fn list(&self) -> Vec<(&'static str, usize)> {
        let mut list: Vec<_> = self.0.borrow().iter().map(|(what, (_, count))| (*what, *count)).collect();
        list.sort_unstable();
        list
    }
}

/// What all parties of a run share.
#[derive(Clone)]
pub struct Run {
    pub number: usize,
    pub random: Random,
    pub executor: Executor,
    pub counts: Rc<Counts>,
    pub drops: bool, // a call that is pending may be dropped
}

impl Run {
    // Polls until it is ready; or drops it while it is pending: then there is no answer.
    async fn call<R>(
        &self,
        what: &'static str,
        mut poll: impl FnMut(&mut Context<'_>) -> Poll<io::Result<R>> + Unpin,
    ) -> Option<io::Result<R>> {
        self.counts.note(self.number, what);
        by(|context| match poll(context) {
            Poll::Ready(answer) => Poll::Ready(Some(answer)),
            Poll::Pending if self.drops && self.random.one_in(8) => Poll::Ready(None),
            Poll::Pending => Poll::Pending,
        })
        .await
    }
}

/// What a party has read, and why it reads no more.
#[derive(Default)]
pub struct Outcome {
    pub bytes: Vec<u8>,
    pub end: Option<Result<(), ErrorKind>>,
    pub sent: Option<Result<(), ErrorKind>>,
}

pub type SharedOutcome = Rc<RefCell<Outcome>>;

/// How a party uses its channel.
#[derive(Clone, Copy, Debug, PartialEq, Eq)]
pub enum Style {
    Turns,  // what it writes and what it reads come after one another
    Joined, // both at once, in one task
    Tasks,  // in two tasks, which share the channel
    Halves, // in two tasks, which have a half each
}

/// Where its static secret key is.
#[derive(Clone, Copy, Debug, PartialEq, Eq)]
pub enum Key {
    Here,
    Agent,
}

// A key pair that says that its result comes later, until the program has waited for it.
struct Slow(Toy, SharedSide);

impl Dh for Slow {
    fn public(&self) -> [u8; 32] {
        self.0.public()
    }

    fn agree(&self, remote: &[u8; 32]) -> Result<[u8; 32], DhError> {
        if Later::has_passed(&self.1) {
            return self.0.agree(remote);
        }
        Err(DhError::later())
    }
}

/// When it writes.
#[derive(Clone, Copy, Debug, PartialEq, Eq)]
pub enum Speaks {
    First,
    AtOnce,
    Second, // once it has read something
}

// What the task that reads says to the one that writes.
#[derive(Clone, Default)]
struct Signal(Rc<(Cell<bool>, RefCell<Option<Waker>>)>);

impl Signal {
    fn set(&self) {
        self.0 .0.set(true);
        if let Some(waker) = self.0 .1.borrow_mut().take() {
            waker.wake();
        }
    }

    async fn wait(&self) {
        by(|context| {
            *self.0 .1.borrow_mut() = Some(context.waker().clone());
            if self.0 .0.get() {
                Poll::Ready(())
            } else {
                Poll::Pending
            }
        })
        .await;
    }
}

// A channel, or its half, that two tasks may share.
type Shared<C> = Rc<RefCell<C>>;

async fn read_all<C: Reads>(
    run: Run,
    channel: Shared<C>,
    names: [&'static str; 2],
    outcome: SharedOutcome,
    came: Signal,
) {
    let mut room = vec![0; run.random.of(&[1, 3, 100, 5000])];
    let end = loop {
        let fills = run.random.one_in(3);
        let answer = run
            .call(names[usize::from(fills)], |context| match fills {
                true => channel.borrow_mut().poll_fill(context, &mut room),
                false => channel.borrow_mut().poll_read(context, &mut room),
            })
            .await;
        match answer {
            Some(Ok(0)) => break Ok(()),
            Some(Ok(count)) => outcome.borrow_mut().bytes.extend(&room[..count]),
            Some(Err(error)) => break Err(error.kind()),
            None => continue,
        }
        came.set();
    };
    outcome.borrow_mut().end = Some(end);
    came.set();
}

async fn write_all<C: Writes>(
    run: &Run,
    channel: &Shared<C>,
    names: [&'static str; 4],
    bytes: &[u8],
) -> io::Result<()> {
    let mut rest = bytes;
    while !rest.is_empty() {
        let part = &rest[..rest.len().min(1 + run.random.below(400))];
        let written = if run.random.one_in(4) {
            let (first, second) = part.split_at(run.random.below(part.len()));
            run.call(names[1], |context| channel.borrow_mut().poll_vectored(context, [first, &[], second])).await
        } else {
            run.call(names[0], |context| channel.borrow_mut().poll_write(context, part)).await
        };
        if let Some(count) = written {
            rest = &rest[count?..];
        }
        if run.random.one_in(4) {
            run.call(names[2], |context| channel.borrow_mut().poll_flush(context)).await.unwrap_or(Ok(()))?;
        }
    }
    while run.random.one_in(2) {
        run.call(names[2], |context| channel.borrow_mut().poll_flush(context)).await.unwrap_or(Ok(()))?;
    }
    for _ in 0..1 + run.random.below(2) {
        loop {
            if let Some(ended) = run.call(names[3], |context| channel.borrow_mut().poll_end(context)).await {
                ended?;
                break;
            }
        }
    }
    Ok(())
}

async fn write_then<C: Writes>(
    run: Run,
    channel: Shared<C>,
    names: [&'static str; 4],
    plan: Rc<Plan>,
    outcome: SharedOutcome,
    came: Signal,
) {
    if plan.speaks == Speaks::Second {
        came.wait().await;
    }
    let sent = match &plan.bytes {
        Some(bytes) => write_all(&run, &channel, names, bytes).await,
        None => Ok(()),
    };
    outcome.borrow_mut().sent = Some(sent.map_err(|error| error.kind()));
}

/// What a party does.
pub struct Plan {
    pub pattern: String,
    pub initiator: bool,
    pub key: Key,
    pub flushes: bool, // the last message before the channel is there
    pub style: Style,
    pub speaks: Speaks,
    pub bytes: Option<Vec<u8>>, // None: the pattern is one-way, and this is the other direction
    pub reads: bool,
    pub way: Way,
}

const WHOLE: ([&str; 2], [&str; 4]) = (
    ["AsyncStream poll_read", "AsyncStream poll_fill_buf"],
    [
        "AsyncStream poll_write",
        "AsyncStream poll_write_vectored",
        "AsyncStream poll_flush",
        "AsyncStream poll_shutdown",
    ],
);
const HALVES: ([&str; 2], [&str; 4]) = (
    ["AsyncReadHalf poll_read", "AsyncReadHalf poll_fill_buf"],
    [
        "AsyncWriteHalf poll_write",
        "AsyncWriteHalf poll_write_vectored",
        "AsyncWriteHalf poll_flush",
        "AsyncWriteHalf poll_shutdown",
    ],
);

async fn both(one: impl Future<Output = ()> + 'static, other: impl Future<Output = ()> + 'static) {
    let mut works: [Option<super::Work>; 2] = [Some(Box::pin(one)), Some(Box::pin(other))];
    by(|context| {
        for work in &mut works {
            if work.as_mut().map_or(false, |work| work.as_mut().poll(context).is_ready()) {
                *work = None;
            }
        }
        if works.iter().all(Option::is_none) {
            Poll::Ready(())
        } else {
            Poll::Pending
        }
    })
    .await;
}

/// One party: it opens the channel, and does what its plan says.
pub async fn party<C: Channel>(run: Run, below: Below, plan: Rc<Plan>, outcome: SharedOutcome) {
    let opening = match plan.way {
        Way::Verified => "AsyncStream::new",
        Way::Anonymous => "AsyncStream::anonymous",
        Way::Psk => "AsyncStream::with_psk_for",
    };
    run.counts.note(run.number, opening);
    let key = SharedSide::default();
    let handshake = plan.handshake(C::IS_SHARED, &run, &key);
    let channel = match C::open(below, handshake, plan.way, run.executor.later.clone(), key).await {
        Ok(channel) => channel,
        Err(error) => {
            outcome.borrow_mut().end = Some(Err(error.kind()));
            return;
        }
    };
    let came = Signal::default();
    if plan.style == Style::Halves {
        run.counts.note(run.number, "AsyncStream::split");
        match channel.halves().await {
            Ok((reads, writes)) => {
                let (reads, writes) = (Rc::new(RefCell::new(reads)), Rc::new(RefCell::new(writes)));
                if plan.reads {
                    let work = read_all(run.clone(), reads, HALVES.0, outcome.clone(), came.clone());
                    run.executor.start("a half that reads", work);
                }
                write_then(run, writes, HALVES.1, plan, outcome, came).await;
            }
            Err(error) => outcome.borrow_mut().end = Some(Err(error.kind())),
        }
        return;
    }
    let channel = Rc::new(RefCell::new(channel));
    let reader = read_all(run.clone(), channel.clone(), WHOLE.0, outcome.clone(), came.clone());
    let writer = write_then(run.clone(), channel, WHOLE.1, plan.clone(), outcome, came.clone());
    match (plan.reads, plan.style) {
        (false, _) => writer.await,
        (_, Style::Turns) if plan.speaks == Speaks::First => {
            writer.await;
            reader.await;
        }
        (_, Style::Turns) => {
            came.set();
            reader.await;
            writer.await;
        }
        (_, Style::Joined) => both(reader, writer).await,
        _ => {
            run.executor.start("a task that reads", reader);
            writer.await;
        }
    }
}

pub fn way_of(pattern: &str, initiator: bool, random: &Random) -> Way {
    let facts = Pattern::new(pattern).unwrap();
    let other = if initiator { facts.responder() } else { facts.initiator() };
    let is_known = other.static_key;
    match (facts.psks(), initiator) {
        (1, false) if is_known && pattern != "NNpsk0" && random.one_in(2) => Way::Psk,
        _ if is_known && random.one_in(2) => Way::Verified,
        _ => Way::Anonymous,
    }
}

impl Plan {
    fn key(&self, own: Toy, is_async: bool, run: &Run, side: &SharedSide) -> Box<dyn Dh> {
        match self.key {
            Key::Here => Box::new(own),
            Key::Agent if is_async => {
                let later = run.executor.later.clone();
                Box::new(Agent::new(own.public(), move |remote| {
                    let later = later.clone();
                    async move {
                        later.pass().await;
                        later.pass().await;
                        own.agree(&remote)
                    }
                }))
            }
            Key::Agent => Box::new(Slow(own, side.clone())),
        }
    }

    fn handshake(&self, is_async: bool, run: &Run, side: &SharedSide) -> Party {
        let (client, server) = (Toy(3), Toy(5));
        let (own, other) = if self.initiator { (client, server) } else { (server, client) };
        let (key, other_key) = (self.key(own, is_async, run, side), other.public());
        let pattern = &*self.pattern;
        let mut builder = match self.way {
            Way::Psk => Builder::new(pattern).prologue(b"test").late_psks().static_key(key),
            _ => builder(pattern, own, other, self.initiator).static_key(key),
        };
        if matches!(self.way, Way::Psk) && Pattern::new(pattern).unwrap().responder().remote_static {
            builder = builder.remote_static(&other_key);
        }
        if self.flushes {
            builder = builder.flush_handshake();
        }
        if self.initiator { builder.initiator_with() } else { builder.responder_with() }.unwrap()
    }
}

pub fn psk_for(key: [u8; 32]) -> Option<[u8; 32]> {
    (key == [3; 32]).then(|| PSK)
}

fn plan(run: &Run, pattern: &str, initiator: bool, speaks: Speaks, dropped_at: usize, is_shared: bool) -> Plan {
    let random = &run.random;
    let one_way = Pattern::new(pattern).unwrap().is_one_way();
    let len = random.of(&[0, 1, 50, 300, 1500]);
    let bytes = (0..len).map(|place| (place * 7 + usize::from(initiator)) as u8).collect();
    // What is dropped is one task; and two parties that take turns need an order.
    let styles = match (dropped_at < usize::MAX, speaks == Speaks::AtOnce && !one_way) {
        (true, true) => &[Style::Joined][..],
        (true, false) => &[Style::Joined, Style::Turns],
        (false, true) if !is_shared => &[Style::Joined, Style::Halves],
        (false, true) => &[Style::Joined, Style::Tasks, Style::Halves],
        (false, false) if !is_shared => &[Style::Joined, Style::Halves, Style::Turns],
        (false, false) => &[Style::Joined, Style::Tasks, Style::Halves, Style::Turns],
    };
    Plan {
        pattern: pattern.into(),
        initiator,
        key: random.of(&[Key::Here, Key::Here, Key::Agent]),
        flushes: random.one_in(3),
        style: random.of(styles),
        speaks,
        bytes: (initiator || !one_way).then(|| bytes),
        reads: !initiator || !one_way,
        way: way_of(pattern, initiator, random),
    }
}

/// A session of a pattern. A party of it is dropped at some poll, if `is_dropped`.
pub fn session<C: Channel>(run: &Run, pattern: &str, is_dropped: bool) -> Result<usize, String> {
    let random = &run.random;
    let is_one_way = Pattern::new(pattern).unwrap().is_one_way();
    let speaks = match random.below(3) {
        _ if is_one_way => [Speaks::First, Speaks::AtOnce],
        0 => [Speaks::First, Speaks::Second],
        1 => [Speaks::Second, Speaks::First],
        _ => [Speaks::AtOnce, Speaks::AtOnce],
    };
    let (client, server) = connection(random, &run.executor.later);
    let victim = random.below(2);
    let mut plans = Vec::new();
    let outcomes = [SharedOutcome::default(), SharedOutcome::default()];
    for (place, below) in [client, server].into_iter().enumerate() {
        let dropped_at = if is_dropped && place == victim { 1 + random.below(30) } else { usize::MAX };
        let plan = Rc::new(plan(run, pattern, place == 0, speaks[place], dropped_at, C::IS_SHARED));
        plans.push(plan.clone());
        let work = party::<C>(run.clone(), below, plan, outcomes[place].clone());
        run.executor.start_dropped_at(["the initiator", "the responder"][place], dropped_at, work);
    }
    let describe = |fault: String| {
        let plan = |plan: &Plan| format!("{:?} {:?} {:?} {:?}", plan.style, plan.speaks, plan.way, plan.key);
        format!("{pattern}, {} with {}: {fault}", plan(&plans[0]), plan(&plans[1]))
    };
    let polls = run.executor.run(random).map_err(describe)?;
    for (place, outcome) in outcomes.iter().enumerate() {
        let (outcome, plan, other) = (outcome.borrow(), &plans[place], &plans[1 - place]);
        let sent = other.bytes.as_deref().unwrap_or_default();
        let fault = match outcome.end {
            _ if !sent.starts_with(&outcome.bytes) => "it read what wasn't sent",
            Some(Ok(())) if outcome.bytes != sent => "a clean end that isn't one",
            None if plan.reads && !is_dropped => "it didn't read to the end",
            Some(Err(_)) if !is_dropped => "its channel has failed",
            _ if !is_dropped && outcome.sent != Some(Ok(())) => "it could not write",
            _ => continue,
        };
        return Err(describe(format!(
            "{}: {fault} ({:?}, {:?})",
            ["initiator", "responder"][place],
            outcome.end,
            outcome.sent
        )));
    }
    Ok(polls)
}

// An executor that keeps what `Future` promises, and nothing more: it polls only what was woken, in random order, each
// time as another task, so that only the last waker of a future counts. That nobody is to wake what isn't done is a
// hang: no clock says so.
#![allow(dead_code)] // each test uses some
pub mod below;
pub mod sessions;

use std::cell::RefCell;
use std::future::Future;
use std::pin::Pin;
use std::rc::Rc;
use std::sync::atomic::{AtomicBool, AtomicUsize, Ordering};
use std::sync::{Arc, Mutex};
use std::task::{Context, Poll, Wake, Waker};

/// Numbers of a seed (splitmix64).
#[derive(Clone)]
pub struct Random(Rc<RefCell<u64>>);

impl Random {
    pub fn new(seed: u64) -> Random {
        Random(Rc::new(RefCell::new(seed)))
    }

    /// A number below this one.
    pub fn below(&self, bound: usize) -> usize {
        let mut state = self.0.borrow_mut();
        *state = state.wrapping_add(0x9e37_79b9_7f4a_7c15);
        let mixed = (*state ^ *state >> 30).wrapping_mul(0xbf58_476d_1ce4_e5b9);
        let mixed = (mixed ^ mixed >> 27).wrapping_mul(0x94d0_49bb_1331_11eb);
        ((mixed ^ mixed >> 31) % bound as u64) as usize
    }

    pub fn one_in(&self, count: usize) -> bool {
        self.below(count) == 0
    }

    pub fn of<T: Copy>(&self, choices: &[T]) -> T {
        choices[self.below(choices.len())]
    }
}

/// What is pending without a reason at one side of a stream, until the executor wakes it. It keeps the last waker
/// alone.
#[derive(Default)]
pub struct Side {
    waker: Option<Waker>,
    is_listed: bool,
    passes: bool, // the next call
}

pub type SharedSide = Arc<Mutex<Side>>;

/// The sides that the executor wakes at some time.
#[derive(Clone, Default)]
pub struct Later(Arc<Mutex<Vec<SharedSide>>>);

impl Later {
    /// Pending once; the next call after it was woken passes.
    pub fn is_late(&self, side: &SharedSide, context: &Context<'_>) -> bool {
        if std::mem::take(&mut side.lock().unwrap().passes) {
            return false;
        }
        self.wait(side, context);
        true
    }

    /// As `is_late`, and the next call still passes.
    pub fn is_waiting(&self, side: &SharedSide, context: &Context<'_>) -> bool {
        let passes = side.lock().unwrap().passes;
        if !passes {
            self.wait(side, context);
        }
        !passes
    }

    fn wait(&self, side: &SharedSide, context: &Context<'_>) {
        side.lock().unwrap().waker = Some(context.waker().clone());
        if !std::mem::replace(&mut side.lock().unwrap().is_listed, true) {
            self.0.lock().unwrap().push(side.clone());
        }
    }

    fn len(&self) -> usize {
        self.0.lock().unwrap().len()
    }

    fn wake(&self, place: usize) {
        let side = self.0.lock().unwrap().swap_remove(place);
        let mut side = side.lock().unwrap();
        (side.is_listed, side.passes) = (false, true);
        if let Some(waker) = side.waker.take() {
            waker.wake();
        }
    }

    /// Whether the next call passes: then it doesn't any more.
    pub fn has_passed(side: &SharedSide) -> bool {
        std::mem::take(&mut side.lock().unwrap().passes)
    }

    /// Pending once.
    pub async fn pass(&self) {
        let side = SharedSide::default();
        by(|context| if self.is_late(&side, context) { Poll::Pending } else { Poll::Ready(()) }).await;
    }
}

/// A future of a function that polls.
pub fn by<R>(poll: impl FnMut(&mut Context<'_>) -> Poll<R> + Unpin) -> impl Future<Output = R> {
    struct By<F>(F);

    impl<R, F: FnMut(&mut Context<'_>) -> Poll<R> + Unpin> Future for By<F> {
        type Output = R;

        fn poll(mut self: Pin<&mut Self>, context: &mut Context<'_>) -> Poll<R> {
            (self.0)(context)
        }
    }

    By(poll)
}

/// What a task has done: its polls, and whether the last waker was woken.
#[derive(Default)]
struct Seat {
    polls: AtomicUsize,
    is_woken: AtomicBool,
}

/// The waker of one poll. It does nothing once its future was polled again.
struct OfPoll {
    seat: Arc<Seat>,
    poll: usize,
}

impl Wake for OfPoll {
    fn wake(self: Arc<Self>) {
        if self.seat.polls.load(Ordering::SeqCst) == self.poll {
            self.seat.is_woken.store(true, Ordering::SeqCst);
        }
    }
}

pub type Work = Pin<Box<dyn Future<Output = ()>>>;

struct Task {
    name: String,
    work: Option<Work>,
    seat: Arc<Seat>,
    dropped_at: usize, // the poll after which it is dropped
}

/// Tasks, and those that they start.
#[derive(Clone, Default)]
pub struct Executor {
    started: Rc<RefCell<Vec<Task>>>,
    pub later: Later,
}

const MOST_POLLS: usize = 200_000; // more is a loop without an end

impl Executor {
    pub fn start(&self, name: &str, work: impl Future<Output = ()> + 'static) {
        self.start_dropped_at(name, usize::MAX, work);
    }

    /// A task that is dropped after so many polls.
    pub fn start_dropped_at(&self, name: &str, dropped_at: usize, work: impl Future<Output = ()> + 'static) {
        let seat = Arc::new(Seat { is_woken: AtomicBool::new(true), ..Seat::default() });
        self.started.borrow_mut().push(Task { name: name.into(), work: Some(Box::pin(work)), seat, dropped_at });
    }

    /// Runs until every task is done, and returns how many polls that took; or says who waits for ever.
    pub fn run(&self, random: &Random) -> Result<usize, String> {
        let (mut tasks, mut polls) = (Vec::new(), 0);
        loop {
            tasks.append(&mut self.started.borrow_mut());
            tasks.retain(|task: &Task| task.work.is_some());
            if tasks.is_empty() {
                return Ok(polls);
            }
            let woken: Vec<usize> =
                (0..tasks.len()).filter(|place| tasks[*place].seat.is_woken.load(Ordering::SeqCst)).collect();
            let names = || tasks.iter().map(|task| &*task.name).collect::<Vec<_>>().join(", ");
            if woken.is_empty() && self.later.len() == 0 {
                return Err(format!("{} waits, and nobody is to wake it", names()));
            }
            if polls == MOST_POLLS {
                return Err(format!("{} is polled without an end", names()));
            }
            match random.below(woken.len() + self.later.len()) {
                pick if pick < woken.len() => {
                    tasks[woken[pick]].poll()?;
                    polls += 1;
                }
                pick => self.later.wake(pick - woken.len()),
            }
        }
    }
}

impl Task {
    fn poll(&mut self) -> Result<(), String> {
        let poll = self.seat.polls.fetch_add(1, Ordering::SeqCst) + 1;
        self.seat.is_woken.store(false, Ordering::SeqCst);
        let of_poll = Arc::new(OfPoll { seat: self.seat.clone(), poll });
        let waker = Waker::from(of_poll.clone());
        let is_done = match self.work.as_mut() {
            Some(work) => work.as_mut().poll(&mut Context::from_waker(&waker)).is_ready(),
            None => true,
        };
        drop(waker);
        if is_done || poll == self.dropped_at {
            self.work = None;
        } else if Arc::strong_count(&of_poll) == 1 && !self.seat.is_woken.load(Ordering::SeqCst) {
            return Err(format!("{} is pending, and nobody has its waker", self.name));
        }
        Ok(())
    }
}

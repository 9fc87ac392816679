// The streams below: they take little at a time, are pending at each call, keep bytes until a flush, and wake only the
// task that has polled a side last.
use super::{Later, Random, SharedSide};
use std::cell::RefCell;
use std::collections::VecDeque;
use std::io::{self, ErrorKind, Read, Write};
use std::rc::Rc;
use std::task::{Context, Poll, Waker};

/// How a stream below does it.
#[derive(Clone, Copy, Debug)]
pub struct Manner {
    pub piece: usize,   // the most bytes of a call
    pub buffer: usize,  // the bytes that wait for a flush, at most
    pub late: usize,    // one of so many calls is pending first; 0: none
    pub flushes: usize, // a flush is pending so many times first
}

impl Manner {
    pub fn of(random: &Random) -> Manner {
        Manner {
            piece: random.of(&[1, 2, 7, 40, 1000, 70_000]),
            buffer: random.of(&[0, 0, 1, 16, 65, 8192]),
            late: random.of(&[0, 1, 2, 5]),
            flushes: random.of(&[0, 0, 1, 3]),
        }
    }
}

/// One direction between two ends.
pub struct Pipe {
    bytes: VecDeque<u8>,
    room: usize,
    is_closed: bool, // its writer has gone, or has closed it
    is_left: bool,   // its reader has gone
    reader: Option<Waker>,
    writer: Option<Waker>,
}

// What a caller must not do; many streams are silent about it.
fn closed<R>(what: &'static str) -> Poll<io::Result<R>> {
    Poll::Ready(Err(io::Error::new(ErrorKind::Unsupported, what)))
}

fn wake(waker: &mut Option<Waker>) {
    if let Some(waker) = waker.take() {
        waker.wake();
    }
}

/// One end of a connection.
pub struct Below {
    to: Rc<RefCell<Pipe>>,
    from: Rc<RefCell<Pipe>>,
    manner: Manner,
    random: Random,
    later: Later,
    reads: SharedSide,
    writes: SharedSide,
    buffer: VecDeque<u8>,
    flushes: usize, // that were pending
    is_closed: bool,
}

/// A connection with so much room in each direction.
pub fn connection(random: &Random, later: &Later) -> (Below, Below) {
    let pipe = || {
        let room = random.of(&[1, 16, 65, 300, 70_000]);
        let bytes = VecDeque::new();
        Rc::new(RefCell::new(Pipe { bytes, room, is_closed: false, is_left: false, reader: None, writer: None }))
    };
    let (there, back) = (pipe(), pipe());
    let end = |to: &Rc<RefCell<Pipe>>, from: &Rc<RefCell<Pipe>>| Below {
        to: to.clone(),
        from: from.clone(),
        manner: Manner::of(random),
        random: random.clone(),
        later: later.clone(),
        reads: SharedSide::default(),
        writes: SharedSide::default(),
        buffer: VecDeque::new(),
        flushes: 0,
        is_closed: false,
    };
    (end(&there, &back), end(&back, &there))
}

impl Below {
    fn is_late(&self, side: &SharedSide, context: &Context<'_>) -> bool {
        self.manner.late > 0 && self.random.one_in(self.manner.late) && self.later.is_late(side, context)
    }

    pub fn poll_read(&mut self, context: &mut Context<'_>, into: &mut [u8]) -> Poll<io::Result<usize>> {
        if self.is_late(&self.reads, context) {
            return Poll::Pending;
        }
        let mut from = self.from.borrow_mut();
        if from.bytes.is_empty() && !from.is_closed && !into.is_empty() {
            from.reader = Some(context.waker().clone());
            return Poll::Pending;
        }
        let count = into.len().min(self.manner.piece);
        wake(&mut from.writer);
        Poll::Ready(from.bytes.read(&mut into[..count]))
    }

    // Bytes to the other end.
    fn poll_put(&mut self, context: &mut Context<'_>, bytes: &[u8]) -> Poll<io::Result<usize>> {
        let mut to = self.to.borrow_mut();
        if to.is_left {
            return Poll::Ready(Err(ErrorKind::BrokenPipe.into()));
        }
        let count = bytes.len().min(self.manner.piece).min(to.room - to.bytes.len());
        if count == 0 && !bytes.is_empty() {
            to.writer = Some(context.waker().clone());
            return Poll::Pending;
        }
        to.bytes.extend(&bytes[..count]);
        wake(&mut to.reader);
        Poll::Ready(Ok(count))
    }

    // What waits for a flush.
    fn poll_drain(&mut self, context: &mut Context<'_>) -> Poll<io::Result<()>> {
        while !self.buffer.is_empty() {
            let bytes: Vec<u8> = self.buffer.iter().copied().collect();
            match self.poll_put(context, &bytes) {
                Poll::Ready(Ok(count)) => drop(self.buffer.drain(..count)),
                Poll::Ready(Err(error)) => return Poll::Ready(Err(error)),
                Poll::Pending => return Poll::Pending,
            }
        }
        Poll::Ready(Ok(()))
    }

    pub fn poll_write(&mut self, context: &mut Context<'_>, bytes: &[u8]) -> Poll<io::Result<usize>> {
        if self.is_closed {
            return closed("a write after the close");
        }
        if self.is_late(&self.writes, context) {
            return Poll::Pending;
        }
        if self.manner.buffer == 0 {
            return self.poll_put(context, bytes);
        }
        if self.buffer.len() == self.manner.buffer {
            match self.poll_drain(context) {
                Poll::Ready(Ok(())) => {}
                Poll::Ready(Err(error)) => return Poll::Ready(Err(error)),
                Poll::Pending => return Poll::Pending,
            }
        }
        let count = bytes.len().min(self.manner.piece).min(self.manner.buffer - self.buffer.len());
        self.buffer.extend(&bytes[..count]);
        Poll::Ready(Ok(count))
    }

    pub fn poll_flush(&mut self, context: &mut Context<'_>) -> Poll<io::Result<()>> {
        if self.is_closed {
            return closed("a flush after the close");
        }
        if self.is_late(&self.writes, context) {
            return Poll::Pending;
        }
        if self.flushes < self.manner.flushes {
            self.flushes += 1;
            self.later.wait(&self.writes, context);
            return Poll::Pending;
        }
        let drained = self.poll_drain(context);
        if drained.is_ready() {
            self.flushes = 0;
        }
        drained
    }

    pub fn poll_close(&mut self, context: &mut Context<'_>) -> Poll<io::Result<()>> {
        if self.is_closed {
            return closed("a close after the close");
        }
        match self.poll_flush(context) {
            Poll::Ready(Ok(())) => {}
            answer => return answer,
        }
        self.is_closed = true;
        let mut to = self.to.borrow_mut();
        to.is_closed = true;
        wake(&mut to.reader);
        Poll::Ready(Ok(()))
    }
}

// For a program that waits until an end can read or write.
impl Below {
    pub fn poll_readable(&mut self, context: &mut Context<'_>) -> Poll<()> {
        let mut from = self.from.borrow_mut();
        if from.bytes.is_empty() && !from.is_closed {
            from.reader = Some(context.waker().clone());
            return Poll::Pending;
        }
        if self.manner.late > 0 && self.later.is_waiting(&self.reads, context) {
            return Poll::Pending;
        }
        Poll::Ready(())
    }

    pub fn poll_writable(&mut self, context: &mut Context<'_>) -> Poll<()> {
        let mut to = self.to.borrow_mut();
        if to.bytes.len() == to.room && !to.is_left {
            to.writer = Some(context.waker().clone());
            return Poll::Pending;
        }
        if self.manner.late > 0 && self.later.is_waiting(&self.writes, context) {
            return Poll::Pending;
        }
        Poll::Ready(())
    }
}

// What waits for a flush is lost.
impl Drop for Below {
    fn drop(&mut self) {
        let mut to = self.to.borrow_mut();
        to.is_closed = true;
        wake(&mut to.reader);
        drop(to);
        let mut from = self.from.borrow_mut();
        from.is_left = true;
        wake(&mut from.writer);
    }
}

/// A half of an end.
#[derive(Clone)]
pub struct Half(Rc<RefCell<Below>>);

impl Half {
    pub fn halves(below: Below) -> (Half, Half) {
        let shared = Rc::new(RefCell::new(below));
        (Half(shared.clone()), Half(shared))
    }
}

/// An end that doesn't block: where it is pending it says `WouldBlock`.
#[derive(Clone)]
pub struct Nonblocking(pub Half);

impl Nonblocking {
    pub fn new(below: Below) -> Nonblocking {
        Nonblocking(Half::halves(below).0)
    }

    fn once<R>(&mut self, poll: impl FnOnce(&mut Below, &mut Context<'_>) -> Poll<io::Result<R>>) -> io::Result<R> {
        struct Nobody;

        impl std::task::Wake for Nobody {
            fn wake(self: std::sync::Arc<Self>) {}
        }

        let waker = std::sync::Arc::new(Nobody).into();
        match self.0.with(|below| poll(below, &mut Context::from_waker(&waker))) {
            Poll::Ready(answer) => answer,
            Poll::Pending => Err(ErrorKind::WouldBlock.into()),
        }
    }
}

impl Read for Nonblocking {
    fn read(&mut self, into: &mut [u8]) -> io::Result<usize> {
        self.once(|below, context| below.poll_read(context, into))
    }
}

impl Write for Nonblocking {
    fn write(&mut self, bytes: &[u8]) -> io::Result<usize> {
        self.once(|below, context| below.poll_write(context, bytes))
    }

    fn flush(&mut self) -> io::Result<()> {
        self.once(Below::poll_flush)
    }
}

pub trait Whole {
    fn with<R>(&mut self, call: impl FnOnce(&mut Below) -> R) -> R;
}

impl Whole for Below {
    fn with<R>(&mut self, call: impl FnOnce(&mut Below) -> R) -> R {
        call(self)
    }
}

impl Whole for Half {
    fn with<R>(&mut self, call: impl FnOnce(&mut Below) -> R) -> R {
        call(&mut self.0.borrow_mut())
    }
}

#[cfg(feature = "tokio")]
mod by_tokio {
    use super::{Below, Half, Whole};
    use std::io;
    use std::pin::Pin;
    use std::task::{Context, Poll};
    use tokio::io::{AsyncRead, AsyncWrite, ReadBuf};

    macro_rules! polled {
        ($end:ident) => {
            impl AsyncRead for $end {
                fn poll_read(
                    mut self: Pin<&mut Self>,
                    context: &mut Context<'_>,
                    into: &mut ReadBuf<'_>,
                ) -> Poll<io::Result<()>> {
                    let read = self.with(|it| it.poll_read(context, into.initialize_unfilled()));
                    read.map_ok(|count| into.advance(count))
                }
            }

            impl AsyncWrite for $end {
                fn poll_write(
                    mut self: Pin<&mut Self>,
                    context: &mut Context<'_>,
                    bytes: &[u8],
                ) -> Poll<io::Result<usize>> {
                    self.with(|it| it.poll_write(context, bytes))
                }

                fn poll_flush(mut self: Pin<&mut Self>, context: &mut Context<'_>) -> Poll<io::Result<()>> {
                    self.with(|it| it.poll_flush(context))
                }

                fn poll_shutdown(mut self: Pin<&mut Self>, context: &mut Context<'_>) -> Poll<io::Result<()>> {
                    self.with(|it| it.poll_close(context))
                }
            }
        };
    }

    polled!(Below);
    polled!(Half);
}

#[cfg(feature = "futures-io")]
mod by_futures {
    use super::{Below, Half, Whole};
    use futures_io::{AsyncRead, AsyncWrite};
    use std::io;
    use std::pin::Pin;
    use std::task::{Context, Poll};

    macro_rules! polled {
        ($end:ident) => {
            impl AsyncRead for $end {
                fn poll_read(
                    mut self: Pin<&mut Self>,
                    context: &mut Context<'_>,
                    into: &mut [u8],
                ) -> Poll<io::Result<usize>> {
                    self.with(|it| it.poll_read(context, into))
                }
            }

            impl AsyncWrite for $end {
                fn poll_write(
                    mut self: Pin<&mut Self>,
                    context: &mut Context<'_>,
                    bytes: &[u8],
                ) -> Poll<io::Result<usize>> {
                    self.with(|it| it.poll_write(context, bytes))
                }

                fn poll_flush(mut self: Pin<&mut Self>, context: &mut Context<'_>) -> Poll<io::Result<()>> {
                    self.with(|it| it.poll_flush(context))
                }

                fn poll_close(mut self: Pin<&mut Self>, context: &mut Context<'_>) -> Poll<io::Result<()>> {
                    self.with(|it| it.poll_close(context))
                }
            }
        };
    }

    polled!(Below);
    polled!(Half);
}

// What the sessions of a relay need of a channel, for each type that is one; and the connections below, with faults.
use super::toy::{Party, Toy};
use std::cell::{Cell, RefCell};
use std::collections::VecDeque;
use std::io::{self, ErrorKind, Read, Write};
use std::rc::Rc;
use yulimosar::{Connecting, Connection, Error, Event, HandshakeError, MidHandshake, Step, Stream};

#[derive(Clone, Copy, Debug, PartialEq, Eq)]
pub enum Fault {
    Nothing,
    Flip(u8),
    Cut,
    Repeat,
    Drop,
}

// One direction, with one fault, or none, at a byte.
pub struct Pipe {
    pub fault: Fault,
    pub at: usize,
    pub sent: Vec<u8>,
    pub came: Vec<u8>,
    pub waiting: VecDeque<u8>,
    pub is_closed: bool,
}

impl Pipe {
    fn put(&mut self, byte: u8) {
        let fault = if self.sent.len() == self.at { self.fault } else { Fault::Nothing };
        self.sent.push(byte);
        self.is_closed |= fault == Fault::Cut;
        let bytes = match fault {
            _ if self.is_closed => vec![],
            Fault::Drop => vec![],
            Fault::Flip(bit) => vec![byte ^ 1 << bit],
            Fault::Repeat => vec![byte; 2],
            _ => vec![byte],
        };
        self.came.extend(&bytes);
        self.waiting.extend(bytes);
    }
}

// A connection that doesn't block. It takes and gives few bytes at a time, and every third write would block.
pub struct Below {
    pub to: Rc<RefCell<Pipe>>,
    pub from: Rc<RefCell<Pipe>>,
    pub moves: Rc<Cell<usize>>,
    pub calls: usize,
}

impl Below {
    fn piece(&mut self, len: usize) -> usize {
        self.calls += 1;
        len.min(1 + self.calls * 7 % 40)
    }
}

impl Read for Below {
    fn read(&mut self, into: &mut [u8]) -> io::Result<usize> {
        let count = self.piece(into.len());
        let mut from = self.from.borrow_mut();
        if from.waiting.is_empty() {
            return if from.is_closed { Ok(0) } else { Err(ErrorKind::WouldBlock.into()) };
        }
        self.moves.set(self.moves.get() + 1);
        from.waiting.read(&mut into[..count])
    }
}

impl Write for Below {
    fn write(&mut self, bytes: &[u8]) -> io::Result<usize> {
        let count = self.piece(bytes.len());
        if self.calls % 3 == 0 {
            return Err(ErrorKind::WouldBlock.into());
        }
        self.moves.set(self.moves.get() + 1);
        bytes[..count].iter().for_each(|byte| self.to.borrow_mut().put(*byte));
        Ok(count)
    }

    fn flush(&mut self) -> io::Result<()> {
        Ok(())
    }
}

impl Drop for Below {
    fn drop(&mut self) {
        self.to.borrow_mut().is_closed = true;
    }
}

pub enum Opening<C: Channel> {
    Waits(C::Shaking),
    Open(C),
    Failed(io::Error),
}

// A channel whose calls return `WouldBlock` where they would have to wait.
pub trait Channel: Sized {
    type Shaking;

    fn begin(below: Below, handshake: Party) -> Opening<Self>;
    fn go_on(shaking: Self::Shaking) -> Opening<Self>;
    fn read(&mut self, into: &mut [u8]) -> io::Result<usize>;
    fn write(&mut self, bytes: &[u8]) -> io::Result<usize>;
    fn flush(&mut self) -> io::Result<()>;
    fn end(&mut self) -> io::Result<()>;
}

fn opening(passed: Result<Stream<Below>, HandshakeError<Below, Toy, Toy>>) -> Opening<Stream<Below>> {
    match passed {
        Ok(stream) => Opening::Open(stream),
        Err(HandshakeError::Interrupted(it)) => Opening::Waits(it),
        Err(error) => Opening::Failed(error.into()),
    }
}

impl Channel for Stream<Below> {
    type Shaking = MidHandshake<Below, Toy, Toy>;

    fn begin(below: Below, handshake: Party) -> Opening<Self> {
        opening(Stream::new(below, handshake, |_| true))
    }

    fn go_on(shaking: Self::Shaking) -> Opening<Self> {
        opening(shaking.resume(|_| true))
    }

    fn read(&mut self, into: &mut [u8]) -> io::Result<usize> {
        Read::read(self, into)
    }

    fn write(&mut self, bytes: &[u8]) -> io::Result<usize> {
        Write::write(self, bytes)
    }

    fn flush(&mut self) -> io::Result<()> {
        Write::flush(self)
    }

    fn end(&mut self) -> io::Result<()> {
        self.close_write()
    }
}

// `Connection`, as a program uses it that has a buffer for what comes.
pub struct Alone<C> {
    below: Below,
    connection: C,
    came: VecDeque<u8>,
    opened: VecDeque<u8>,
}

impl<C> Alone<C> {
    // Receives some bytes; false: the connection has closed.
    fn receive(&mut self) -> io::Result<bool> {
        let mut bytes = [0; 50];
        let count = self.below.read(&mut bytes)?;
        self.came.extend(&bytes[..count]);
        Ok(count > 0)
    }
}

impl Alone<Connecting<Toy, Toy>> {
    fn pass(&mut self) -> io::Result<()> {
        loop {
            match self.connection.step()? {
                Step::Send(bytes) => {
                    let count = self.below.write(bytes)?;
                    self.connection.sent(count);
                }
                Step::Receive(_) if self.came.is_empty() => {
                    if !self.receive()? {
                        self.connection.closed();
                    }
                }
                Step::Receive(_) => {
                    let count = self.connection.receive(self.came.make_contiguous());
                    self.came.drain(..count);
                }
                Step::Verify(_) => self.connection.accept(),
                Step::Done => return Ok(()),
                other => panic!("{other:?}"),
            }
        }
    }
}

impl Channel for Alone<Connection> {
    type Shaking = Alone<Connecting<Toy, Toy>>;

    fn begin(below: Below, handshake: Party) -> Opening<Self> {
        let connection = Connecting::new(handshake).unwrap();
        Self::go_on(Alone { below, connection, came: VecDeque::new(), opened: VecDeque::new() })
    }

    fn go_on(mut shaking: Self::Shaking) -> Opening<Self> {
        match shaking.pass() {
            Ok(()) => {
                let Alone { below, connection, came, opened } = shaking;
                Opening::Open(Alone { below, connection: connection.finish().unwrap(), came, opened })
            }
            Err(error) if error.kind() == ErrorKind::WouldBlock => Opening::Waits(shaking),
            Err(error) => Opening::Failed(error),
        }
    }

    fn read(&mut self, into: &mut [u8]) -> io::Result<usize> {
        while self.opened.is_empty() {
            match self.connection.event()? {
                Event::Data(bytes) => self.opened.extend(bytes),
                Event::End => break,
                Event::Receive(_) if self.came.is_empty() => {
                    if !self.receive()? {
                        self.connection.closed();
                    }
                }
                Event::Receive(wanted) => {
                    let count = self.connection.receive(self.came.make_contiguous());
                    assert!(count > 0 && count <= wanted);
                    self.came.drain(..count);
                }
                other => panic!("{other:?}"),
            }
        }
        self.opened.read(into)
    }

    fn write(&mut self, bytes: &[u8]) -> io::Result<usize> {
        if self.connection.outgoing().is_empty() {
            return Ok(self.connection.write(bytes)?);
        }
        // While a frame is still to be sent nothing is taken.
        assert_eq!(self.connection.write(bytes), Ok(0));
        self.flush().and_then(|_| self.write(bytes))
    }

    fn flush(&mut self) -> io::Result<()> {
        if let Err(Error::Aborted) = self.connection.write(&[]) {
            return Err(Error::Aborted.into());
        }
        while !self.connection.outgoing().is_empty() {
            let count = self.below.write(self.connection.outgoing())?;
            self.connection.sent(count);
        }
        Ok(())
    }

    fn end(&mut self) -> io::Result<()> {
        self.connection.end()?;
        self.flush()
    }
}

// Polls once, as a task that nobody wakes: these tests ask again by themselves.
#[cfg(any(feature = "tokio", feature = "futures-io"))]
mod polled {
    use std::io::{self, ErrorKind};
    use std::sync::Arc;
    use std::task::{Context, Poll, Wake};

    struct Nobody;

    impl Wake for Nobody {
        fn wake(self: Arc<Self>) {}
    }

    // `WouldBlock`: it is pending.
    pub fn once<R>(poll: impl FnOnce(&mut Context<'_>) -> Poll<io::Result<R>>) -> io::Result<R> {
        match poll(&mut Context::from_waker(&Arc::new(Nobody).into())) {
            Poll::Ready(answer) => answer,
            Poll::Pending => Err(ErrorKind::WouldBlock.into()),
        }
    }

    pub fn pending<R>(answer: io::Result<R>) -> Poll<io::Result<R>> {
        match answer {
            Err(error) if error.kind() == ErrorKind::WouldBlock => Poll::Pending,
            answer => Poll::Ready(answer),
        }
    }
}

#[cfg(feature = "tokio")]
mod asynchronous {
    use super::polled::{once, pending};
    use super::{Below, Channel, Opening};
    use crate::toy::Party;
    use std::future::Future;
    use std::io::{self, ErrorKind, Read, Write};
    use std::pin::Pin;
    use std::task::{Context, Poll};
    use tokio::io::{AsyncRead, AsyncWrite, ReadBuf};
    use yulimosar::AsyncStream;

    impl AsyncRead for Below {
        fn poll_read(self: Pin<&mut Self>, _: &mut Context<'_>, into: &mut ReadBuf<'_>) -> Poll<io::Result<()>> {
            pending(self.get_mut().read(into.initialize_unfilled())).map_ok(|count| into.advance(count))
        }
    }

    impl AsyncWrite for Below {
        fn poll_write(self: Pin<&mut Self>, _: &mut Context<'_>, bytes: &[u8]) -> Poll<io::Result<usize>> {
            pending(self.get_mut().write(bytes))
        }

        fn poll_flush(self: Pin<&mut Self>, _: &mut Context<'_>) -> Poll<io::Result<()>> {
            Poll::Ready(Ok(()))
        }

        fn poll_shutdown(self: Pin<&mut Self>, _: &mut Context<'_>) -> Poll<io::Result<()>> {
            self.to.borrow_mut().is_closed = true;
            Poll::Ready(Ok(()))
        }
    }

    impl Channel for AsyncStream<Below> {
        type Shaking = Pin<Box<dyn Future<Output = io::Result<Self>>>>;

        fn begin(below: Below, handshake: Party) -> Opening<Self> {
            Self::go_on(Box::pin(AsyncStream::new(below, handshake, |_| async { true })))
        }

        fn go_on(mut shaking: Self::Shaking) -> Opening<Self> {
            match once(|context| shaking.as_mut().poll(context)) {
                Ok(stream) => Opening::Open(stream),
                Err(error) if error.kind() == ErrorKind::WouldBlock => Opening::Waits(shaking),
                Err(error) => Opening::Failed(error),
            }
        }

        fn read(&mut self, into: &mut [u8]) -> io::Result<usize> {
            let mut into = ReadBuf::new(into);
            once(|context| Pin::new(self).poll_read(context, &mut into))?;
            Ok(into.filled().len())
        }

        fn write(&mut self, bytes: &[u8]) -> io::Result<usize> {
            once(|context| Pin::new(self).poll_write(context, bytes))
        }

        fn flush(&mut self) -> io::Result<()> {
            once(|context| Pin::new(self).poll_flush(context))
        }

        fn end(&mut self) -> io::Result<()> {
            once(|context| Pin::new(self).poll_shutdown(context))
        }
    }
}

#[cfg(feature = "futures-io")]
mod over_futures {
    use super::polled::{once, pending};
    use super::{Below, Channel, Opening};
    use crate::toy::Party;
    use futures_io::{AsyncRead, AsyncWrite};
    use std::future::Future;
    use std::io::{self, ErrorKind, Read, Write};
    use std::pin::Pin;
    use std::task::{Context, Poll};
    use yulimosar::futures::AsyncStream;

    impl AsyncRead for Below {
        fn poll_read(self: Pin<&mut Self>, _: &mut Context<'_>, into: &mut [u8]) -> Poll<io::Result<usize>> {
            pending(self.get_mut().read(into))
        }
    }

    impl AsyncWrite for Below {
        fn poll_write(self: Pin<&mut Self>, _: &mut Context<'_>, bytes: &[u8]) -> Poll<io::Result<usize>> {
            pending(self.get_mut().write(bytes))
        }

        fn poll_flush(self: Pin<&mut Self>, _: &mut Context<'_>) -> Poll<io::Result<()>> {
            Poll::Ready(Ok(()))
        }

        fn poll_close(self: Pin<&mut Self>, _: &mut Context<'_>) -> Poll<io::Result<()>> {
            self.to.borrow_mut().is_closed = true;
            Poll::Ready(Ok(()))
        }
    }

    impl Channel for AsyncStream<Below> {
        type Shaking = Pin<Box<dyn Future<Output = io::Result<Self>>>>;

        fn begin(below: Below, handshake: Party) -> Opening<Self> {
            Self::go_on(Box::pin(AsyncStream::new(below, handshake, |_| async { true })))
        }

        fn go_on(mut shaking: Self::Shaking) -> Opening<Self> {
            match once(|context| shaking.as_mut().poll(context)) {
                Ok(stream) => Opening::Open(stream),
                Err(error) if error.kind() == ErrorKind::WouldBlock => Opening::Waits(shaking),
                Err(error) => Opening::Failed(error),
            }
        }

        fn read(&mut self, into: &mut [u8]) -> io::Result<usize> {
            once(|context| Pin::new(self).poll_read(context, into))
        }

        fn write(&mut self, bytes: &[u8]) -> io::Result<usize> {
            once(|context| Pin::new(self).poll_write(context, bytes))
        }

        fn flush(&mut self) -> io::Result<()> {
            once(|context| Pin::new(self).poll_flush(context))
        }

        fn end(&mut self) -> io::Result<()> {
            once(|context| Pin::new(self).poll_close(context))
        }
    }
}

// A channel over what is polled, whatever traits it has: the module above names them, and how they are polled.
use super::{below_closes, below_reads, AsyncRead, AsyncWrite};
use crate::connection::connecting::Peer;
use crate::raw::wipe;
use crate::stream::passing::{Asked, Passing};
use crate::stream::{hands_out, is_later, over, own, Reading, Writing};
use crate::{Connection, Dh, Ephemeral, Error, Handshake};
use std::fmt;
use std::future::{ready, Future};
use std::io::{self, ErrorKind, Read, Write};
use std::mem::take;
use std::pin::Pin;
use std::sync::{Arc, Mutex, MutexGuard, PoisonError};
use std::task::{Context, Poll, Wake, Waker};

/// A secure channel over anything that is `AsyncRead` and `AsyncWrite`. Its module says more.
pub struct AsyncStream<T> {
    below: T,
    reading: Reading,
    writing: Writing,
    writers: Arc<Writers>,
    is_closed: bool, // the stream below, for writing
    hash: [u8; 32],
    remote_static: Option<[u8; 32]>,
}

/// The half of an [`AsyncStream`] that reads.
pub struct AsyncReadHalf<T> {
    below: T,
    reading: Reading,
}

/// The half of an [`AsyncStream`] that writes.
pub struct AsyncWriteHalf<T> {
    below: T,
    writing: Writing,
    is_closed: bool,
}

impl<T: AsyncRead + AsyncWrite + Unpin> AsyncStream<T> {
    /// Runs the handshake over `below`, with empty payloads. `accept` is called with the other party's static key as
    /// soon as that is known, and waited for before anything else is read or written. A pattern without such a key, as
    /// NN, is refused before anything is sent: see `anonymous`.
    ///
    /// # Errors
    ///
    /// The [`Error`] in an `io::Error`, as `Refused`, `Cut`, `Tag` or `KeyPair`, or the error of the stream below.
    pub async fn new<S: Dh, E: Ephemeral, F: Future<Output = bool>>(
        below: T,
        handshake: Handshake<S, E>,
        accept: impl FnOnce([u8; 32]) -> F,
    ) -> io::Result<AsyncStream<T>> {
        let mut accept = Some(accept);
        let verify = |key| {
            let verified = accept.take().map(|accept| accept(key));
            async move {
                match verified {
                    Some(verified) => verified.await,
                    None => false,
                }
            }
        };
        AsyncStream::open(below, Passing::new(handshake, Peer::Verified)?, verify, |_| ready(None)).await
    }

    /// Runs a handshake in which the other party has no static key, or one that you don't compare: with a secret that
    /// both have (psk), or with anybody.
    ///
    /// # Errors
    ///
    /// As `new`.
    pub async fn anonymous<S: Dh, E: Ephemeral>(below: T, handshake: Handshake<S, E>) -> io::Result<AsyncStream<T>> {
        AsyncStream::open(below, Passing::new(handshake, Peer::Anybody)?, |_| ready(true), |_| ready(None)).await
    }

    /// Runs a handshake of [`Builder::late_psks`](crate::Builder::late_psks): at a psk token that lacks its secret
    /// `psk_for` is called and waited for, as [`Stream::with_psk_for`](crate::Stream::with_psk_for) does.
    ///
    /// # Errors
    ///
    /// As `new`; `Refused` where there is no secret.
    pub async fn with_psk_for<S: Dh, E: Ephemeral, F: Future<Output = Option<[u8; 32]>>>(
        below: T,
        handshake: Handshake<S, E>,
        psk_for: impl FnMut([u8; 32]) -> F,
    ) -> io::Result<AsyncStream<T>> {
        AsyncStream::open(below, Passing::new(handshake, Peer::Chosen)?, |_| ready(true), psk_for).await
    }

    async fn open<S: Dh, E: Ephemeral, F: Future<Output = bool>, G: Future<Output = Option<[u8; 32]>>>(
        mut below: T,
        mut passing: Passing<S, E>,
        mut accept: impl FnMut([u8; 32]) -> F,
        mut psk_for: impl FnMut([u8; 32]) -> G,
    ) -> io::Result<AsyncStream<T>> {
        loop {
            let passed = (Pass { below: &mut below, passing: &mut passing }).await;
            if matches!(&passed, Err(error) if is_later(error)) {
                agreed_later(&mut passing).await?;
                continue;
            }
            match passed? {
                Asked::Verify(key) if accept(key).await => passing.connecting.accept(),
                Asked::Verify(_) => return Err(Error::Refused.into()),
                Asked::Psk(key) => {
                    let mut secret = psk_for(key).await.ok_or(Error::Refused)?;
                    let passed = passing.connecting.set_psk(&secret);
                    wipe(&mut secret);
                    passed?;
                }
                Asked::Nothing => return Ok(AsyncStream::of(below, passing.connecting.finish()?)),
            }
        }
    }
}

// Waits for the key pair's result of X25519, and passes it.
async fn agreed_later<S: Dh, E: Ephemeral>(passing: &mut Passing<S, E>) -> Result<(), Error> {
    if let Some(agreed) = passing.connecting.agree_async() {
        let mut dh_result = agreed.await?;
        let passed = passing.connecting.answer_later(&dh_result);
        wipe(&mut dh_result);
        passed?;
    }
    Ok(())
}

impl<T: AsyncWrite + Unpin> AsyncStream<T> {
    /// Two halves, for two tasks, over those of the stream below: `stream.split(TcpStream::into_split).await?`. It
    /// sends the last message of the handshake, if that wasn't sent.
    ///
    /// # Errors
    ///
    /// The error of the stream below, or `Aborted`.
    pub async fn split<R, W>(
        mut self,
        split: impl FnOnce(T) -> (R, W),
    ) -> io::Result<(AsyncReadHalf<R>, AsyncWriteHalf<W>)> {
        (SendLast { below: &mut self.below, writing: &mut self.writing }).await?;
        let (reads, writes) = split(self.below);
        let (reads, writing) = (AsyncReadHalf { below: reads, reading: self.reading }, self.writing.of_half());
        Ok((reads, AsyncWriteHalf { below: writes, writing, is_closed: self.is_closed }))
    }
}

impl<T> AsyncStream<T> {
    fn of(below: T, connection: Connection) -> AsyncStream<T> {
        let (hash, remote_static) = (*connection.hash(), connection.remote_static().copied());
        let (sender, receiver) = connection.split();
        let (reading, writing) = (Reading::new(receiver), Writing::new(sender));
        let writers = Arc::default();
        AsyncStream { below, reading, writing, writers, is_closed: false, hash, remote_static }
    }

    /// The handshake hash, the same at both parties, to bind other data to the channel (Noise, 11.2).
    #[must_use]
    pub fn hash(&self) -> &[u8; 32] {
        &self.hash
    }

    /// The other party's static key; `None` if the handshake has none.
    #[must_use]
    pub fn remote_static(&self) -> Option<&[u8; 32]> {
        self.remote_static.as_ref()
    }
}

// The messages of a handshake until its party is asked for something.
struct Pass<'p, T, S: Dh, E: Ephemeral> {
    below: &'p mut T,
    passing: &'p mut Passing<S, E>,
}

impl<T: AsyncRead + AsyncWrite + Unpin, S: Dh, E: Ephemeral> Future for Pass<'_, T, S, E> {
    type Output = io::Result<Asked>;

    fn poll(self: Pin<&mut Self>, context: &mut Context<'_>) -> Poll<io::Result<Asked>> {
        let Pass { below, passing } = self.get_mut();
        let mut below = Polled::new(below, context);
        let asked = passing.pass(&mut below);
        below.polled(asked)
    }
}

// The task that reads and the one that writes, while the last message of the handshake is due, which both send: a
// stream below wakes only the last task that it was polled for. So it is polled for both.
#[derive(Default)]
struct Writers(Mutex<[Option<Waker>; 2]>);

#[derive(Clone, Copy)]
enum Role {
    Reads,
    Writes,
}

impl Writers {
    fn wakers(&self) -> MutexGuard<'_, [Option<Waker>; 2]> {
        self.0.lock().unwrap_or_else(PoisonError::into_inner)
    }

    // Where one has got on, the stream below has forgotten the other one.
    fn poll<R>(
        self: &Arc<Self>,
        role: Role,
        context: &Context<'_>,
        poll: impl FnOnce(&mut Context<'_>) -> Poll<R>,
    ) -> Poll<R> {
        self.wakers()[role as usize] = Some(context.waker().clone());
        let answer = poll(&mut Context::from_waker(&self.clone().into()));
        if answer.is_ready() {
            self.wakers()[role as usize] = None;
            self.wake_by_ref();
        }
        answer
    }
}

impl Wake for Writers {
    fn wake(self: Arc<Self>) {
        self.wake_by_ref();
    }

    fn wake_by_ref(self: &Arc<Self>) {
        let wakers = take(&mut *self.wakers());
        wakers.into_iter().flatten().for_each(Waker::wake);
    }
}

// The last message of a handshake.
struct SendLast<'p, T> {
    below: &'p mut T,
    writing: &'p mut Writing,
}

impl<T: AsyncWrite + Unpin> Future for SendLast<'_, T> {
    type Output = io::Result<()>;

    fn poll(self: Pin<&mut Self>, context: &mut Context<'_>) -> Poll<io::Result<()>> {
        let SendLast { below, writing } = self.get_mut();
        let mut below = Polled::new(below, context);
        let sent = writing.before_a_wait(&mut below);
        below.polled(sent)
    }
}

// A stream below that is polled, as one that doesn't block: where it isn't ready it returns `WouldBlock`,
// and wakes the task later.
struct Polled<'p, 'c, T> {
    below: &'p mut T,
    context: &'p mut Context<'c>,
    wakes: bool, // the last call was pending
}

impl<'p, 'c, T> Polled<'p, 'c, T> {
    fn new(below: &'p mut T, context: &'p mut Context<'c>) -> Self {
        Polled { below, context, wakes: false }
    }

    fn waits<R>(&mut self, answer: Poll<io::Result<R>>) -> io::Result<R> {
        self.wakes = answer.is_pending();
        match answer {
            Poll::Ready(answer) => answer,
            Poll::Pending => Err(ErrorKind::WouldBlock.into()),
        }
    }

    // What to answer: a stream below that says `WouldBlock` by itself wakes nobody, so that is an error.
    fn polled<R>(&self, answer: io::Result<R>) -> Poll<io::Result<R>> {
        match answer {
            Err(error) if self.wakes && error.kind() == ErrorKind::WouldBlock && own(&error).is_none() => Poll::Pending,
            answer => Poll::Ready(answer),
        }
    }
}

impl<T: AsyncRead + Unpin> Read for Polled<'_, '_, T> {
    fn read(&mut self, into: &mut [u8]) -> io::Result<usize> {
        let answer = below_reads(Pin::new(&mut *self.below), self.context, into);
        self.waits(answer)
    }
}

impl<T: AsyncWrite + Unpin> Write for Polled<'_, '_, T> {
    fn write(&mut self, bytes: &[u8]) -> io::Result<usize> {
        let answer = Pin::new(&mut *self.below).poll_write(self.context, bytes);
        self.waits(answer)
    }

    fn flush(&mut self) -> io::Result<()> {
        let answer = Pin::new(&mut *self.below).poll_flush(self.context);
        self.waits(answer)
    }
}

impl<T: AsyncRead + AsyncWrite + Unpin> AsyncStream<T> {
    pub(super) fn fill(&mut self, context: &mut Context<'_>) -> Poll<io::Result<&[u8]>> {
        let AsyncStream { below, reading, writing, writers, .. } = self;
        if writing.is_due() && !reading.has_decrypted() {
            let sent = writers.poll(Role::Reads, context, |context| {
                let mut below = Polled::new(&mut *below, context);
                let sent = writing.before_a_wait(&mut below);
                below.polled(sent)
            });
            if let Poll::Ready(Err(error)) = sent {
                reading.lose(&error);
                return Poll::Ready(Err(error));
            }
        }
        let mut below = Polled::new(below, context);
        let filled = reading.fill(&mut below);
        writing.release_at(&filled);
        below.polled(filled)
    }
}

impl<T: AsyncWrite + Unpin> AsyncStream<T> {
    fn by_writer<R>(
        &mut self,
        context: &mut Context<'_>,
        poll: impl FnOnce(&mut T, &mut Writing, &mut Context<'_>) -> Poll<io::Result<R>>,
    ) -> Poll<io::Result<R>> {
        let AsyncStream { below, writing, writers, .. } = self;
        if writing.is_due() {
            return writers.poll(Role::Writes, context, |context| poll(below, writing, context));
        }
        poll(below, writing, context)
    }
}

impl<T: AsyncWrite + Unpin> AsyncWriteHalf<T> {
    fn by_writer<R>(
        &mut self,
        context: &mut Context<'_>,
        poll: impl FnOnce(&mut T, &mut Writing, &mut Context<'_>) -> Poll<io::Result<R>>,
    ) -> Poll<io::Result<R>> {
        poll(&mut self.below, &mut self.writing, context)
    }
}

impl<T: AsyncRead + Unpin> AsyncReadHalf<T> {
    pub(super) fn fill(&mut self, context: &mut Context<'_>) -> Poll<io::Result<&[u8]>> {
        let mut below = Polled::new(&mut self.below, context);
        let filled = self.reading.fill(&mut below);
        below.polled(filled)
    }
}

macro_rules! reads {
    ($stream:ident: $($bound:tt)*) => {
        impl<T: $($bound)* + Unpin> $stream<T> {
            pub(super) fn read(&mut self, context: &mut Context<'_>, into: &mut [u8]) -> Poll<io::Result<usize>> {
                if into.is_empty() {
                    return Poll::Ready(Ok(0));
                }
                let count = match self.fill(context) {
                    Poll::Ready(Ok(bytes)) => {
                        let count = bytes.len().min(into.len());
                        into[..count].copy_from_slice(&bytes[..count]);
                        count
                    }
                    Poll::Ready(Err(error)) => return Poll::Ready(Err(error)),
                    Poll::Pending => return Poll::Pending,
                };
                self.consume(count);
                Poll::Ready(Ok(count))
            }

            pub(super) fn consume(&mut self, count: usize) {
                self.reading.consume(count);
            }
        }
    };
}

macro_rules! writes {
    ($stream:ident) => {
        impl<T: AsyncWrite + Unpin> $stream<T> {
            pub(super) fn write(&mut self, context: &mut Context<'_>, bytes: &[u8]) -> Poll<io::Result<usize>> {
                self.by_writer(context, |below, writing, context| {
                    let mut below = Polled::new(below, context);
                    let wrote = writing.write(&mut below, bytes);
                    below.polled(wrote)
                })
            }

            // After the end there is nothing to flush, and the stream below is closed.
            pub(super) fn flush(&mut self, context: &mut Context<'_>) -> Poll<io::Result<()>> {
                if self.is_closed {
                    return Poll::Ready(self.writing.check());
                }
                self.by_writer(context, |below, writing, context| {
                    let mut below = Polled::new(below, context);
                    let flushed = writing.flush(&mut below);
                    below.polled(flushed)
                })
            }

            // Sends the end, and closes the stream below for writing.
            pub(super) fn end(&mut self, context: &mut Context<'_>) -> Poll<io::Result<()>> {
                if self.is_closed {
                    return Poll::Ready(self.writing.check());
                }
                let ended = self.by_writer(context, |below, writing, context| {
                    let mut polled = Polled::new(&mut *below, context);
                    let ended = writing.end(&mut polled);
                    match polled.polled(ended) {
                        Poll::Ready(Ok(())) => below_closes(Pin::new(below), context),
                        answer => answer,
                    }
                });
                self.is_closed = matches!(ended, Poll::Ready(Ok(())));
                ended
            }
        }
    };
}

reads!(AsyncStream: AsyncRead + AsyncWrite);
reads!(AsyncReadHalf: AsyncRead);
writes!(AsyncStream);
writes!(AsyncWriteHalf);
over!(AsyncStream);
over!(AsyncReadHalf);
over!(AsyncWriteHalf);
hands_out!(AsyncStream);
hands_out!(AsyncReadHalf);

impl<T> AsyncWriteHalf<T> {
    /// The stream below, without the channel. What waits to be sent is lost: call `flush` before.
    pub fn into_inner(self) -> T {
        self.below
    }
}

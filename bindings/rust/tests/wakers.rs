// Every poll function of the asynchronous channels, and each call of `Stream` that may have to wait, under a strict
// executor, over streams below that do what streams may do. NOISE_WAKERS is the number of sessions of each pattern,
// and NOISE_WAKERS_SEED the first seed.
#![cfg(feature = "std")]
use std::io;
use std::rc::Rc;
use std::task::{Context, Poll};
use strict::sessions::{psk_for, session, Channel, Counts, Opening, Party, Reads, Run, Way, Writes, PATTERNS};
use strict::{Executor, Later, Random, SharedSide};

mod strict;
mod toy;

// The local traits for the types of one library.
#[cfg(any(feature = "tokio", feature = "futures-io"))]
macro_rules! channels {
    ($poll_read:ident, $poll_end:ident, $read:expr) => {
        fn take(filled: Poll<io::Result<&[u8]>>, into: &mut [u8]) -> Poll<io::Result<usize>> {
            filled.map_ok(|bytes| {
                let count = bytes.len().min(into.len());
                into[..count].copy_from_slice(&bytes[..count]);
                count
            })
        }

        macro_rules! reads {
            ($stream:ty) => {
                impl Reads for $stream {
                    fn poll_read(&mut self, context: &mut Context<'_>, into: &mut [u8]) -> Poll<io::Result<usize>> {
                        $read(Pin::new(self), context, into)
                    }

                    fn poll_fill(&mut self, context: &mut Context<'_>, into: &mut [u8]) -> Poll<io::Result<usize>> {
                        let taken = take(Pin::new(&mut *self).poll_fill_buf(context), into);
                        if let Poll::Ready(Ok(count)) = taken {
                            Pin::new(self).consume(count);
                        }
                        taken
                    }
                }
            };
        }

        macro_rules! writes {
            ($stream:ty) => {
                impl Writes for $stream {
                    fn poll_write(&mut self, context: &mut Context<'_>, bytes: &[u8]) -> Poll<io::Result<usize>> {
                        AsyncWrite::poll_write(Pin::new(self), context, bytes)
                    }

                    fn poll_vectored(
                        &mut self,
                        context: &mut Context<'_>,
                        parts: [&[u8]; 3],
                    ) -> Poll<io::Result<usize>> {
                        Pin::new(self).poll_write_vectored(context, &parts.map(io::IoSlice::new))
                    }

                    fn poll_flush(&mut self, context: &mut Context<'_>) -> Poll<io::Result<()>> {
                        AsyncWrite::poll_flush(Pin::new(self), context)
                    }

                    fn poll_end(&mut self, context: &mut Context<'_>) -> Poll<io::Result<()>> {
                        Pin::new(self).$poll_end(context)
                    }
                }
            };
        }

        reads!(AsyncStream<Below>);
        writes!(AsyncStream<Below>);
        reads!(AsyncReadHalf<Half>);
        writes!(AsyncWriteHalf<Half>);

        impl Channel for AsyncStream<Below> {
            type Reads = AsyncReadHalf<Half>;
            type Writes = AsyncWriteHalf<Half>;

            fn open(below: Below, handshake: Party, way: Way, later: Later, _: SharedSide) -> Opening<Self> {
                Box::pin(async move {
                    match way {
                        Way::Verified => {
                            let accept = |key: [u8; 32]| async move {
                                later.pass().await;
                                key == [3; 32] || key == [5; 32]
                            };
                            AsyncStream::new(below, handshake, accept).await
                        }
                        Way::Anonymous => AsyncStream::anonymous(below, handshake).await,
                        Way::Psk => {
                            let choose = |key| {
                                let later = later.clone();
                                async move {
                                    later.pass().await;
                                    psk_for(key)
                                }
                            };
                            AsyncStream::with_psk_for(below, handshake, choose).await
                        }
                    }
                })
            }

            fn halves(self) -> Opening<(Self::Reads, Self::Writes)> {
                Box::pin(self.split(Half::halves))
            }
        }
    };
}

#[cfg(feature = "tokio")]
mod by_tokio {
    use super::*;
    use crate::strict::below::{Below, Half};
    use std::pin::Pin;
    use tokio::io::{AsyncBufRead, AsyncRead, AsyncWrite, ReadBuf};
    use yulimosar::{AsyncReadHalf, AsyncStream, AsyncWriteHalf};

    fn read(stream: Pin<&mut impl AsyncRead>, context: &mut Context<'_>, into: &mut [u8]) -> Poll<io::Result<usize>> {
        let mut into = ReadBuf::new(into);
        stream.poll_read(context, &mut into).map_ok(|()| into.filled().len())
    }

    channels!(poll_read, poll_shutdown, read);
}

#[cfg(feature = "futures-io")]
mod by_futures {
    use super::*;
    use crate::strict::below::{Below, Half};
    use futures_io::{AsyncBufRead, AsyncRead, AsyncWrite};
    use std::pin::Pin;
    use yulimosar::futures::{AsyncReadHalf, AsyncStream, AsyncWriteHalf};

    channels!(poll_read, poll_close, AsyncRead::poll_read);
}

// A program that waits by what `wants_read` and `wants_write` say, as one of mio or poll does. It is polled: so what it
// doesn't wait for doesn't wake it.
mod by_events {
    use super::*;
    use crate::strict::below::{Below, Nonblocking, Whole};
    use crate::strict::by;
    use std::io::{BufRead, ErrorKind, Read, Write};
    use yulimosar::{HandshakeError, ReadHalf, Stream, WriteHalf};

    fn is_readable(Nonblocking(half): &mut Nonblocking, context: &mut Context<'_>) -> bool {
        half.with(|below| below.poll_readable(context)).is_ready()
    }

    fn is_writable(Nonblocking(half): &mut Nonblocking, context: &mut Context<'_>) -> bool {
        half.with(|below| below.poll_writable(context)).is_ready()
    }

    // Whether a loop of events has to call again.
    trait Events {
        fn is_due(&mut self, reads: bool, context: &mut Context<'_>) -> bool;
    }

    impl Events for Stream<Nonblocking> {
        fn is_due(&mut self, reads: bool, context: &mut Context<'_>) -> bool {
            let sends = self.wants_write() && is_writable(self.get_mut(), context);
            sends | (reads && self.wants_read() && is_readable(self.get_mut(), context))
        }
    }

    impl Events for ReadHalf<Nonblocking> {
        fn is_due(&mut self, _: bool, context: &mut Context<'_>) -> bool {
            self.wants_read() && is_readable(self.get_mut(), context)
        }
    }

    impl Events for WriteHalf<Nonblocking> {
        fn is_due(&mut self, _: bool, context: &mut Context<'_>) -> bool {
            self.wants_write() && is_writable(self.get_mut(), context)
        }
    }

    macro_rules! polled {
        ($stream:ident, $context:ident, $reads:literal, $call:expr) => {{
            let mut tries = 0;
            loop {
                tries += 1;
                match $call {
                    Err(error) if error.kind() == ErrorKind::WouldBlock => {}
                    answer => break Poll::Ready(answer),
                }
                // What another call of this task has begun to send that call goes on with.
                if !$stream.is_due($reads, $context) || $reads && tries == 20 {
                    break Poll::Pending;
                }
            }
        }};
    }

    macro_rules! polls {
        (Reads for $stream:ident) => {
            impl Reads for $stream<Nonblocking> {
                fn poll_read(&mut self, context: &mut Context<'_>, into: &mut [u8]) -> Poll<io::Result<usize>> {
                    polled!(self, context, true, self.read(into))
                }

                fn poll_fill(&mut self, context: &mut Context<'_>, into: &mut [u8]) -> Poll<io::Result<usize>> {
                    polled!(self, context, true, {
                        let filled = self.fill_buf().map(|bytes| {
                            let count = bytes.len().min(into.len());
                            into[..count].copy_from_slice(&bytes[..count]);
                            count
                        });
                        if let Ok(count) = filled {
                            self.consume(count);
                        }
                        filled
                    })
                }
            }
        };
        (Writes for $stream:ident) => {
            impl Writes for $stream<Nonblocking> {
                fn poll_write(&mut self, context: &mut Context<'_>, bytes: &[u8]) -> Poll<io::Result<usize>> {
                    polled!(self, context, false, self.write(bytes))
                }

                fn poll_vectored(&mut self, context: &mut Context<'_>, parts: [&[u8]; 3]) -> Poll<io::Result<usize>> {
                    polled!(self, context, false, self.write_vectored(&parts.map(io::IoSlice::new)))
                }

                fn poll_flush(&mut self, context: &mut Context<'_>) -> Poll<io::Result<()>> {
                    polled!(self, context, false, self.flush())
                }

                fn poll_end(&mut self, context: &mut Context<'_>) -> Poll<io::Result<()>> {
                    polled!(self, context, false, self.close_write())
                }
            }
        };
    }

    polls!(Reads for Stream);
    polls!(Reads for ReadHalf);
    polls!(Writes for Stream);
    polls!(Writes for WriteHalf);

    impl Channel for Stream<Nonblocking> {
        type Reads = ReadHalf<Nonblocking>;
        type Writes = WriteHalf<Nonblocking>;

        const IS_SHARED: bool = false;

        fn open(below: Below, handshake: Party, way: Way, later: Later, key: SharedSide) -> Opening<Self> {
            let accept = |key: &[u8; 32]| key == &[3; 32] || key == &[5; 32];
            let below = Nonblocking::new(below);
            let mut passed = Some(match way {
                Way::Verified => Stream::new(below, handshake, accept),
                Way::Anonymous => Stream::anonymous(below, handshake),
                Way::Psk => Stream::with_psk_for(below, handshake, |key| psk_for(*key)),
            });
            Box::pin(by(move |context| loop {
                let mut it = match passed.take() {
                    Some(Ok(stream)) => return Poll::Ready(Ok(stream)),
                    Some(Err(HandshakeError::Interrupted(it))) => it,
                    Some(Err(error)) => return Poll::Ready(Err(error.into())),
                    None => return Poll::Pending,
                };
                let is_due = match [it.wants_read(), it.wants_write()] {
                    [false, false] => !later.is_waiting(&key, context),
                    [true, false] => is_readable(it.get_mut(), context),
                    _ => is_writable(it.get_mut(), context),
                };
                if !is_due {
                    passed = Some(Err(HandshakeError::Interrupted(it)));
                    return Poll::Pending;
                }
                passed = Some(match way {
                    Way::Verified => it.resume(accept),
                    Way::Anonymous => it.resume_anonymous(),
                    Way::Psk => it.resume_with_psk_for(|key| psk_for(*key)),
                });
            }))
        }

        fn halves(self) -> Opening<(Self::Reads, Self::Writes)> {
            Box::pin(async move {
                let (reads, mut writes) = self.split(|below| Ok(below.clone()))?;
                if writes.wants_write() {
                    by(|context| writes.poll_flush(context)).await?; // the last message of the handshake
                }
                Ok((reads, writes))
            })
        }
    }
}

fn number(name: &str, otherwise: usize) -> usize {
    std::env::var(name).map_or(otherwise, |text| text.parse().unwrap())
}

fn sessions<C: Channel>(name: &str, drops: bool, is_dropped: bool) {
    let (counts, first) = (Rc::<Counts>::default(), number("NOISE_WAKERS_SEED", 0));
    let (mut faults, mut polls, mut runs) = (Vec::new(), 0, 0);
    for seed in first..first + number("NOISE_WAKERS", 3) {
        for (place, pattern) in PATTERNS.iter().enumerate() {
            runs += 1;
            let (random, executor) = (Random::new((seed * 100 + place) as u64), Executor::default());
            let run = Run { number: runs, random, executor, counts: counts.clone(), drops };
            match session::<C>(&run, pattern, is_dropped) {
                Ok(count) => polls += count,
                Err(fault) => faults.push(format!("seed {seed}: {fault}")),
            }
        }
    }
    for (what, count) in counts.list() {
        println!("{name}: {count} runs of {what}");
    }
    println!("{name}: {runs} sessions, {polls} polls, {} faults", faults.len());
    assert!(faults.is_empty(), "{} of {runs}:\n{}", faults.len(), faults[..faults.len().min(10)].join("\n"));
}

mod over_events {
    use super::sessions;
    type Stream = yulimosar::Stream<crate::strict::below::Nonblocking>;

    #[test]
    fn everybody_is_woken() {
        sessions::<Stream>("events", false, false);
    }

    #[test]
    fn calls_that_are_dropped_lose_nothing() {
        sessions::<Stream>("events, dropped calls", true, false);
    }

    #[test]
    fn a_party_that_is_dropped_leaves_nobody_waiting() {
        sessions::<Stream>("events, dropped parties", true, true);
    }
}

#[cfg(feature = "tokio")]
mod over_tokio {
    use super::sessions;
    type Stream = yulimosar::AsyncStream<crate::strict::below::Below>;

    #[test]
    fn everybody_is_woken() {
        sessions::<Stream>("tokio", false, false);
    }

    #[test]
    fn calls_that_are_dropped_lose_nothing() {
        sessions::<Stream>("tokio, dropped calls", true, false);
    }

    #[test]
    fn a_party_that_is_dropped_leaves_nobody_waiting() {
        sessions::<Stream>("tokio, dropped parties", true, true);
    }
}

#[cfg(feature = "futures-io")]
mod over_futures {
    use super::sessions;
    type Stream = yulimosar::futures::AsyncStream<crate::strict::below::Below>;

    #[test]
    fn everybody_is_woken() {
        sessions::<Stream>("futures-io", false, false);
    }

    #[test]
    fn calls_that_are_dropped_lose_nothing() {
        sessions::<Stream>("futures-io, dropped calls", true, false);
    }

    #[test]
    fn a_party_that_is_dropped_leaves_nobody_waiting() {
        sessions::<Stream>("futures-io, dropped parties", true, true);
    }
}

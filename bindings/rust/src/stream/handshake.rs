use super::passing::{Asked, Passing};
use super::{is_later, is_wait, Stream};
use crate::connection::connecting::Peer;
use crate::raw::wipe;
use crate::{Dh, Ephemeral, Error, Handshake};
use std::io::{self, ErrorKind, Read, Write};
use std::{error, fmt};

/// Why [`Stream::new`] and its like made no stream. `?` turns it into an `io::Error`; into a `Box<dyn Error>` only
/// where the key pair isn't a reference, for `Interrupted` has the key pair in it.
#[non_exhaustive]
pub enum HandshakeError<T, S: Dh, E: Ephemeral> {
    /// The stream below had `WouldBlock` or `TimedOut`, or the key pair said [`DhError::later`](crate::DhError::later).
    /// Nothing is lost: the handshake can continue.
    Interrupted(MidHandshake<T, S, E>),
    /// The handshake has failed, and the stream below is dropped.
    Failed(io::Error),
}

/// A handshake that was interrupted. It continues with the call that goes with the one by which it began.
///
#[cfg_attr(any(feature = "x25519", feature = "openssl"), doc = "```")]
#[cfg_attr(not(any(feature = "x25519", feature = "openssl")), doc = "```ignore")]
/// # fn main() -> std::io::Result<()> {
/// use std::io::Write;
/// use std::os::unix::net::UnixStream;
/// use yulimosar::{Builder, HandshakeError, Stream};
///
/// let (here, there) = UnixStream::pair()?;
/// let server = std::thread::spawn(move || -> std::io::Result<[u8; 32]> {
///     let mut stream = Stream::anonymous(there, Builder::new("NN").responder()?)?;
///     stream.flush()?; // the last message of the handshake
///     Ok(*stream.hash())
/// });
/// here.set_nonblocking(true)?;
/// let mut handshake = Stream::anonymous(here, Builder::new("NN").initiator()?);
/// let client = loop {
///     handshake = match handshake {
///         Ok(stream) => break stream,
///         Err(HandshakeError::Interrupted(it)) => {
///             std::thread::yield_now(); // in place of poll
///             it.resume_anonymous()
///         }
///         Err(error) => return Err(error.into()),
///     };
/// };
/// assert_eq!(client.hash(), &server.join().unwrap()?);
/// # Ok(()) }
/// ```
#[must_use = "`resume` continues it"]
pub struct MidHandshake<T, S: Dh, E: Ephemeral>(Box<Parts<T, S, E>>);

type Passed<T, S, E> = Result<Stream<T>, HandshakeError<T, S, E>>;
type Verify<'a> = &'a mut dyn FnMut(&[u8; 32]) -> bool;
type Choose<'a> = &'a mut dyn FnMut(&[u8; 32]) -> Option<[u8; 32]>;

struct Parts<T, S: Dh, E: Ephemeral> {
    below: T,
    passing: Passing<S, E>,
    error: io::Error,
}

impl<T: Read + Write, S: Dh, E: Ephemeral> MidHandshake<T, S, E> {
    pub(super) fn new(below: T, handshake: Handshake<S, E>, peer: Peer) -> Result<Self, HandshakeError<T, S, E>> {
        let (passing, error) = (Passing::new(handshake, peer)?, ErrorKind::WouldBlock.into());
        Ok(MidHandshake(Box::new(Parts { below, passing, error })))
    }

    /// Continues a handshake of [`Stream::new`]. `accept` isn't called again if it was called before.
    ///
    /// # Errors
    ///
    /// As [`Stream::new`]; `Refused` where the handshake began by another call.
    pub fn resume(self, accept: impl FnOnce(&[u8; 32]) -> bool) -> Passed<T, S, E> {
        let mut accept = Some(accept);
        self.pass(Peer::Verified, &mut |key| accept.take().map_or(false, |accept| accept(key)), &mut |_| None)
    }

    /// Continues a handshake of [`Stream::anonymous`].
    ///
    /// # Errors
    ///
    /// As `resume`.
    pub fn resume_anonymous(self) -> Passed<T, S, E> {
        self.pass(Peer::Anybody, &mut |_| true, &mut |_| None)
    }

    /// Continues a handshake of [`Stream::with_psk_for`].
    ///
    /// # Errors
    ///
    /// As `resume`; `Refused` where there is no secret.
    pub fn resume_with_psk_for(self, mut psk_for: impl FnMut(&[u8; 32]) -> Option<[u8; 32]>) -> Passed<T, S, E> {
        self.pass(Peer::Chosen, &mut |_| true, &mut psk_for)
    }

    // Passes messages until all have passed, or the stream below has to be waited for.
    fn pass(mut self, peer: Peer, accept: Verify, psk_for: Choose) -> Passed<T, S, E> {
        if peer != self.0.passing.connecting.peer() {
            return Err(Error::Refused.into());
        }
        match self.0.pass(accept, psk_for) {
            Ok(()) => Ok(Stream::of(self.0.below, self.0.passing.connecting.finish()?)),
            Err(error) if is_wait(&error) || is_later(&error) => {
                self.0.error = error;
                Err(HandshakeError::Interrupted(self))
            }
            Err(error) => Err(HandshakeError::Failed(error)),
        }
    }
}

impl<T: Read + Write, S: Dh, E: Ephemeral> Parts<T, S, E> {
    fn pass(&mut self, accept: Verify, psk_for: Choose) -> io::Result<()> {
        loop {
            match self.passing.pass(&mut self.below)? {
                Asked::Verify(key) if accept(&key) => self.passing.connecting.accept(),
                Asked::Verify(_) => return Err(Error::Refused.into()),
                Asked::Psk(key) => {
                    let mut secret = psk_for(&key).ok_or(Error::Refused)?;
                    let passed = self.passing.connecting.set_psk(&secret);
                    wipe(&mut secret);
                    passed?;
                }
                Asked::Nothing => return Ok(()),
            }
        }
    }
}

impl<T, S: Dh, E: Ephemeral> MidHandshake<T, S, E> {
    /// The error that interrupted the handshake: `WouldBlock` or `TimedOut`.
    #[must_use]
    pub fn error(&self) -> &io::Error {
        &self.0.error
    }

    /// Whether it waits until the stream below has bytes. Where `wants_write` and this are both false it waits for its
    /// key pair, which has said [`DhError::later`](crate::DhError::later).
    #[must_use]
    pub fn wants_read(&self) -> bool {
        !self.wants_write() && !is_later(&self.0.error)
    }

    /// Whether it waits until the stream below takes bytes.
    #[must_use]
    pub fn wants_write(&self) -> bool {
        self.0.passing.wants_write()
    }

    /// The stream below, to wait for it. To read from it or write to it breaks the handshake.
    #[must_use]
    pub fn get_ref(&self) -> &T {
        &self.0.below
    }

    /// The stream below, to change its settings. To read from it or write to it breaks the handshake.
    pub fn get_mut(&mut self) -> &mut T {
        &mut self.0.below
    }
}

impl<T, S: Dh, E: Ephemeral> fmt::Debug for MidHandshake<T, S, E> {
    fn fmt(&self, f: &mut fmt::Formatter<'_>) -> fmt::Result {
        f.debug_struct("MidHandshake").field("error", &self.0.error).finish_non_exhaustive()
    }
}

impl<T, S: Dh, E: Ephemeral> fmt::Debug for HandshakeError<T, S, E> {
    fn fmt(&self, f: &mut fmt::Formatter<'_>) -> fmt::Result {
        match self {
            HandshakeError::Interrupted(it) => f.debug_tuple("Interrupted").field(it).finish(),
            HandshakeError::Failed(error) => f.debug_tuple("Failed").field(error).finish(),
        }
    }
}

impl<T, S: Dh, E: Ephemeral> fmt::Display for HandshakeError<T, S, E> {
    fn fmt(&self, f: &mut fmt::Formatter<'_>) -> fmt::Result {
        match self {
            HandshakeError::Interrupted(it) => write!(f, "the handshake was interrupted: {}", it.error()),
            HandshakeError::Failed(error) => error.fmt(f),
        }
    }
}

impl<T, S: Dh, E: Ephemeral> error::Error for HandshakeError<T, S, E> {
    fn source(&self) -> Option<&(dyn error::Error + 'static)> {
        match self {
            HandshakeError::Interrupted(it) => Some(it.error()),
            HandshakeError::Failed(error) => error.source(),
        }
    }
}

impl<T, S: Dh, E: Ephemeral> From<Error> for HandshakeError<T, S, E> {
    fn from(error: Error) -> Self {
        HandshakeError::Failed(error.into())
    }
}

impl<T, S: Dh, E: Ephemeral> From<io::Error> for HandshakeError<T, S, E> {
    fn from(error: io::Error) -> Self {
        HandshakeError::Failed(error)
    }
}

impl<T, S: Dh, E: Ephemeral> From<HandshakeError<T, S, E>> for io::Error {
    fn from(error: HandshakeError<T, S, E>) -> io::Error {
        match error {
            HandshakeError::Interrupted(it) => it.0.error,
            HandshakeError::Failed(error) => error,
        }
    }
}

mod handshake;
pub(crate) mod passing;
mod reading;
mod writing;

pub use handshake::{HandshakeError, MidHandshake};

use crate::connection::connecting::Peer;
use crate::{Connection, Dh, Ephemeral, Error, Handshake};
use std::fmt;
use std::io::{self, BufRead, ErrorKind, Read, Write};

pub(crate) use reading::Reading;
pub(crate) use writing::Writing;

/// A secure channel over anything that reads and writes. Each message comes after its length in two bytes, the higher
/// first (Noise, 13). The crate's first page has an example.
///
/// `close_write` sends the end of this party's stream. `read` returns `Ok(0)` where the other party has sent its end,
/// and then all that it has written before was read; a connection that ends without it is `UnexpectedEof`. A refused
/// message and a lost connection end the channel: each later `read` returns the same error, and nothing more is sent,
/// also not the end of this party's stream; a `write` of the other half that runs at that time may still send its
/// frame. Drop the channel then; what is dropped without `close_write` is truncated.
///
/// The last message of the handshake, if this party writes it, leaves with what is written first, or before the first
/// `read` that may have to wait. A program that does neither, as one that waits in another way for bytes, calls
/// `flush`; so does one that uses the stream below. On a `TcpStream` set `set_nodelay(true)`: otherwise the system
/// keeps the end of a stream back for up to 40 ms.
///
/// A stream below that doesn't block, or that has timeouts, may return `WouldBlock` or `TimedOut`. `read`, `flush` and
/// `close_write` return the same then, and a later call continues. A `write` that accepts bytes seals them, and what
/// of their frame the stream below doesn't accept waits: the next `write`, `flush` or `close_write` sends it first, and
/// a `write` that can't do so accepts nothing. So `flush` after the last `write`. Windows doesn't say how much of a
/// write past its timeout was sent: drop the channel there.
///
/// Buffers of more than 4096 bytes are given back where a `read` returns `WouldBlock` or `TimedOut`, and that of a half
/// that writes by `flush`.
pub struct Stream<T> {
    below: T,
    reading: Reading,
    writing: Writing,
    hash: [u8; 32],
    remote_static: Option<[u8; 32]>,
}

/// The half of a `Stream` that reads.
pub struct ReadHalf<T> {
    below: T,
    reading: Reading,
}

/// The half of a `Stream` that writes.
pub struct WriteHalf<T> {
    below: T,
    writing: Writing,
}

// The error of this crate in an `io::Error`.
pub(crate) fn own(error: &io::Error) -> Option<&Error> {
    error.get_ref().and_then(|inner| inner.downcast_ref())
}

// Whether the stream below has to be waited for. A deadline that has passed is final.
pub(crate) fn is_wait(error: &io::Error) -> bool {
    matches!(error.kind(), ErrorKind::WouldBlock | ErrorKind::TimedOut) && own(error).is_none()
}

// Whether the key pair has to be waited for.
pub(crate) fn is_later(error: &io::Error) -> bool {
    matches!(own(error), Some(Error::KeyPair(error)) if error.is_later())
}

// The same error once more.
fn again(error: &io::Error) -> io::Error {
    match (error.raw_os_error(), own(error)) {
        (Some(code), _) => io::Error::from_raw_os_error(code),
        (None, Some(own)) => io::Error::new(error.kind(), own.clone()),
        (None, None) => io::Error::new(error.kind(), error.to_string()),
    }
}

impl<T: Read + Write> Stream<T> {
    /// Runs the handshake over `below`, with empty payloads. `accept` is called with the other party's static key as
    /// soon as that is known, before anything else is read or written. A pattern without such a key, as NN, is refused
    /// before anything is sent: see `anonymous`.
    ///
    /// Where this party writes the last message, as the initiator does in XX, `Ok` comes before that message is sent:
    /// `flush` sends it. The other party may still refuse it; then `read` returns an error.
    ///
    /// # Errors
    ///
    /// `Interrupted` where the stream below or the key pair has to be waited for; `Failed` with the [`Error`], as
    /// `Refused`, `Cut` or `Tag`, or with the error of the stream below.
    pub fn new<S: Dh, E: Ephemeral>(
        below: T,
        handshake: Handshake<S, E>,
        accept: impl FnOnce(&[u8; 32]) -> bool,
    ) -> Result<Stream<T>, HandshakeError<T, S, E>> {
        MidHandshake::new(below, handshake, Peer::Verified)?.resume(accept)
    }

    /// Runs a handshake in which the other party has no static key, or one that you don't compare: with a secret that
    /// both have (psk), or with anybody.
    ///
    /// # Errors
    ///
    /// As `new`.
    pub fn anonymous<S: Dh, E: Ephemeral>(
        below: T,
        handshake: Handshake<S, E>,
    ) -> Result<Stream<T>, HandshakeError<T, S, E>> {
        MidHandshake::new(below, handshake, Peer::Anybody)?.resume_anonymous()
    }

    /// Runs a handshake of [`Builder::late_psks`](crate::Builder::late_psks). At a psk token that lacks its secret
    /// `psk_for` is called with the other party's static key, and returns the secret that this party shares with its
    /// owner, or `None` to refuse that party: nothing more is sent then. A pattern that doesn't give that key before
    /// the token is refused with `WantedPsk`; one that never gives it, before anything is sent.
    ///
    /// The other party hasn't shown yet that it has the secret key: so choose the secret, and do nothing else. 32
    /// random bytes for a key that you don't know, in place of `None`, don't tell which keys you know.
    ///
    #[cfg_attr(any(feature = "x25519", feature = "openssl"), doc = "```")]
    #[cfg_attr(not(any(feature = "x25519", feature = "openssl")), doc = "```ignore")]
    /// # fn main() -> std::io::Result<()> {
    /// use std::collections::HashMap;
    /// use std::io::Write;
    /// use std::os::unix::net::UnixStream;
    /// use yulimosar::{Builder, KeyPair, Stream};
    ///
    /// let (here, there) = UnixStream::pair()?;
    /// let (client, server) = (KeyPair::generate()?, KeyPair::generate()?);
    /// let client_key = *client.public_key();
    /// let psks = HashMap::from([(client_key, [7; 32])]);
    /// let server = std::thread::spawn(move || {
    ///     let handshake = Builder::new("XXpsk3").static_key(server).late_psks().responder()?;
    ///     Stream::with_psk_for(there, handshake, |key| psks.get(key).copied())
    /// });
    /// let handshake = Builder::new("XXpsk3").static_key(client).psk(&[7; 32]).initiator()?;
    /// let mut client = Stream::anonymous(here, handshake)?;
    /// client.flush()?; // the last message of the handshake
    /// let server = server.join().unwrap()?;
    /// assert_eq!(server.remote_static(), Some(&client_key));
    /// assert_eq!(client.hash(), server.hash());
    /// # Ok(()) }
    /// ```
    ///
    /// # Errors
    ///
    /// Those of `new`; `Refused` where there is no secret.
    pub fn with_psk_for<S: Dh, E: Ephemeral>(
        below: T,
        handshake: Handshake<S, E>,
        psk_for: impl FnMut(&[u8; 32]) -> Option<[u8; 32]>,
    ) -> Result<Stream<T>, HandshakeError<T, S, E>> {
        MidHandshake::new(below, handshake, Peer::Chosen)?.resume_with_psk_for(psk_for)
    }
}

impl<T> Stream<T> {
    /// The handshake hash, the same at both parties, to bind other data to the channel (Noise, 11.2).
    #[must_use]
    pub fn hash(&self) -> &[u8; 32] {
        &self.hash
    }

    /// The other party's static key; `None` if the handshake has none.
    #[must_use]
    pub fn remote_static(&self) -> Option<&[u8; 32]> {
        self.remote_static.as_ref()
    }

    pub(crate) fn of(below: T, connection: Connection) -> Stream<T> {
        let (hash, remote_static) = (*connection.hash(), connection.remote_static().copied());
        let (sender, receiver) = connection.split();
        Stream { below, reading: Reading::new(receiver), writing: Writing::new(sender), hash, remote_static }
    }

    // The same channel over what `map` makes of the stream below.
    pub(crate) fn try_map<U>(self, map: impl FnOnce(T) -> io::Result<U>) -> io::Result<Stream<U>> {
        let Stream { below, reading, writing, hash, remote_static } = self;
        Ok(Stream { below: map(below)?, reading, writing, hash, remote_static })
    }
}

impl<T: Write> Stream<T> {
    /// Two halves, for two threads. `clone` makes the second handle of the stream below:
    /// `stream.split(TcpStream::try_clone)`. It sends the last message of the handshake if that wasn't sent; where it
    /// would block the half that writes sends it at `flush`. It hides `split` of `BufRead`, which is
    /// `BufRead::split(stream, byte)`.
    ///
    #[cfg_attr(any(feature = "x25519", feature = "openssl"), doc = "```")]
    #[cfg_attr(not(any(feature = "x25519", feature = "openssl")), doc = "```ignore")]
    /// # fn main() -> std::io::Result<()> {
    /// use std::io::{Read, Write};
    /// use std::os::unix::net::UnixStream;
    /// use yulimosar::{Builder, Stream};
    ///
    /// let (here, there) = UnixStream::pair()?;
    /// let server = std::thread::spawn(move || -> std::io::Result<String> {
    ///     let mut text = String::new();
    ///     Stream::anonymous(there, Builder::new("NN").responder()?)?.read_to_string(&mut text)?;
    ///     Ok(text)
    /// });
    /// let client = Stream::anonymous(here, Builder::new("NN").initiator()?)?;
    /// let (_reads, mut writes) = client.split(UnixStream::try_clone)?;
    /// writes.write_all(b"hello")?;
    /// writes.close_write()?;
    /// assert_eq!(server.join().unwrap()?, "hello");
    /// # Ok(()) }
    /// ```
    ///
    /// # Errors
    ///
    /// The error of the stream below, or of `clone`.
    pub fn split(mut self, clone: impl FnOnce(&T) -> io::Result<T>) -> io::Result<(ReadHalf<T>, WriteHalf<T>)> {
        match self.writing.before_a_wait(&mut self.below) {
            Err(error) if !is_wait(&error) => return Err(error),
            _ => {}
        }
        let second = clone(&self.below)?;
        let writing = self.writing.of_half();
        Ok((ReadHalf { below: self.below, reading: self.reading }, WriteHalf { below: second, writing }))
    }

    /// Sends the end of this party's stream: `read` at the other party returns 0. What that party writes can still be
    /// read, and should be, up to its end: a `TcpStream` that is dropped with bytes that were not read
    /// resets the connection, and what the other party hasn't read is lost. After `WouldBlock` or
    /// `TimedOut` a later call continues.
    ///
    /// # Errors
    ///
    /// `WouldBlock` and `TimedOut` of the stream below: nothing is lost. Its other errors, and `Aborted`, are final.
    pub fn close_write(&mut self) -> io::Result<()> {
        self.writing.end(&mut self.below)
    }
}

impl<T: Write> WriteHalf<T> {
    /// Sends the end of this party's stream, as [`Stream::close_write`] does.
    ///
    /// # Errors
    ///
    /// Those of [`Stream::close_write`].
    pub fn close_write(&mut self) -> io::Result<()> {
        self.writing.end(&mut self.below)
    }
}

impl<T: Read + Write> Stream<T> {
    // Where the last message of the handshake would have to wait, what comes is still read.
    fn before_a_read(&mut self) -> io::Result<()> {
        if self.reading.has_decrypted() {
            return Ok(());
        }
        match self.writing.before_a_wait(&mut self.below) {
            Err(error) if !is_wait(&error) => {
                self.reading.lose(&error);
                Err(error)
            }
            _ => Ok(()),
        }
    }
}

impl<T: Read + Write> Read for Stream<T> {
    fn read(&mut self, into: &mut [u8]) -> io::Result<usize> {
        self.before_a_read()?;
        let read = self.reading.read(&mut self.below, into);
        self.writing.release_at(&read);
        read
    }
}

impl<T: Read + Write> BufRead for Stream<T> {
    fn fill_buf(&mut self) -> io::Result<&[u8]> {
        self.before_a_read()?;
        let filled = self.reading.fill(&mut self.below);
        self.writing.release_at(&filled);
        filled
    }

    fn consume(&mut self, count: usize) {
        self.reading.consume(count);
    }
}

impl<T: Read> BufRead for ReadHalf<T> {
    fn fill_buf(&mut self) -> io::Result<&[u8]> {
        self.reading.fill(&mut self.below)
    }

    fn consume(&mut self, count: usize) {
        self.reading.consume(count);
    }
}

impl<T: Read> Read for ReadHalf<T> {
    fn read(&mut self, into: &mut [u8]) -> io::Result<usize> {
        self.reading.read(&mut self.below, into)
    }
}

impl<T: Write> Write for Stream<T> {
    fn write(&mut self, bytes: &[u8]) -> io::Result<usize> {
        self.writing.write(&mut self.below, bytes)
    }

    fn flush(&mut self) -> io::Result<()> {
        self.writing.flush(&mut self.below)
    }
}

impl<T: Write> Write for WriteHalf<T> {
    fn write(&mut self, bytes: &[u8]) -> io::Result<usize> {
        self.writing.write(&mut self.below, bytes)
    }

    fn flush(&mut self) -> io::Result<()> {
        self.writing.flush(&mut self.below)
    }
}

macro_rules! wants {
    ($($stream:ident: $direction:ident, $wants:ident, $text:literal;)*) => {
        $(impl<T> $stream<T> {
            #[doc = $text]
            #[must_use]
            pub fn $wants(&self) -> bool {
                self.$direction.wants()
            }
        })*
    };
}

wants! {
    Stream: reading, wants_read, "Whether a `read` would wait until the stream below has bytes. Where it is \
        false `read` has an answer, and the stream below may stay silent: read before you wait for it.";
    ReadHalf: reading, wants_read, "Whether a `read` would wait: see [`Stream::wants_read`].";
    Stream: writing, wants_write, "Whether something waits until the stream below takes bytes: call `flush`, or \
        `close_write` if that was called, once it does.";
    WriteHalf: writing, wants_write, "Whether something waits to be sent: see [`Stream::wants_write`].";
}

macro_rules! over {
    ($stream:ident) => {
        impl<T> $stream<T> {
            /// The stream below. To read from it or write to it breaks the channel.
            pub fn get_ref(&self) -> &T {
                &self.below
            }

            /// The stream below, as to change its settings. To read from it or write to it breaks the channel.
            pub fn get_mut(&mut self) -> &mut T {
                &mut self.below
            }
        }

        #[cfg(unix)]
        impl<T: std::os::unix::io::AsFd> std::os::unix::io::AsFd for $stream<T> {
            fn as_fd(&self) -> std::os::unix::io::BorrowedFd<'_> {
                self.get_ref().as_fd()
            }
        }

        #[cfg(windows)]
        impl<T: std::os::windows::io::AsSocket> std::os::windows::io::AsSocket for $stream<T> {
            fn as_socket(&self) -> std::os::windows::io::BorrowedSocket<'_> {
                self.get_ref().as_socket()
            }
        }

        impl<T: fmt::Debug> fmt::Debug for $stream<T> {
            fn fmt(&self, f: &mut fmt::Formatter<'_>) -> fmt::Result {
                f.debug_struct(stringify!($stream)).field("below", &self.below).finish_non_exhaustive()
            }
        }
    };
}

// What comes back of the stream below, of a type that reads.
macro_rules! hands_out {
    ($stream:ident) => {
        impl<T> $stream<T> {
            /// The stream below, without the channel, and the bytes that came over it after the last frame
            /// that was read, as what another protocol has sent after the end. What waits to be sent is
            /// lost: call `flush` before.
            pub fn into_inner(self) -> (T, Vec<u8>) {
                let rest = self.reading.rest();
                (self.below, rest)
            }
        }
    };
}

#[cfg(any(feature = "tokio", feature = "futures-io"))]
pub(crate) use {hands_out, over};

over!(Stream);
over!(ReadHalf);
over!(WriteHalf);
hands_out!(Stream);
hands_out!(ReadHalf);

impl<T> WriteHalf<T> {
    /// The stream below, without the channel. What waits to be sent is lost: call `flush` before.
    pub fn into_inner(self) -> T {
        self.below
    }
}

#[cfg(test)]
impl<T> ReadHalf<T> {
    #[allow(dead_code)]
    pub(crate) fn memory(&self) -> &[u8] {
        self.reading.memory()
    }
}

#[cfg(test)]
impl<T> WriteHalf<T> {
    #[allow(dead_code)]
    pub(crate) fn memory(&self) -> &[u8] {
        self.writing.memory()
    }
}

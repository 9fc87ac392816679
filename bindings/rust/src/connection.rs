mod buffers;
pub(crate) mod connecting;
pub(crate) mod receiver;
mod sender;

pub use connecting::{Connecting, Step};
pub use receiver::{Event, StreamReceiver};
pub use sender::StreamSender;

use crate::raw::Held;
use crate::{raw, Error};
use alloc::sync::Arc;
use core::fmt;
use core::sync::atomic::{AtomicBool, Ordering};

/// A secure channel without a transport: bytes that came go in, events and bytes to send come out. Nothing here
/// reads, writes or waits, so it runs over anything that keeps bytes in order, in `no_std` too (feature
/// `alloc`). [`Connecting`] makes it. [`Stream`](crate::Stream) and [`AsyncStream`](crate::AsyncStream) are
/// this over what reads and writes.
///
/// What a party gets of a stream is a theorem of the library: the bytes in [`Event::Data`] are the first of those that
/// the other party has written; [`Event::End`] comes after all of them, and only if it has ended its stream. A refused
/// message, and a connection that closes without an end ([`Error::Cut`]), end the channel: each later call of `event`
/// returns the same error, and there is nothing more to send, also no end.
///
#[cfg_attr(any(feature = "x25519", feature = "openssl"), doc = "```")]
#[cfg_attr(not(any(feature = "x25519", feature = "openssl")), doc = "```ignore")]
/// # fn main() -> Result<(), yulimosar::Error> {
/// use yulimosar::{Builder, Connecting, Connection, Event, KeyPair, Step};
///
/// // Carries a step's bytes to the other party, as a network does.
/// fn pass(
///     from: &mut Connecting<KeyPair, KeyPair>,
///     to: &mut Connecting<KeyPair, KeyPair>,
/// ) -> Result<bool, yulimosar::Error> {
///     match from.step()? {
///         Step::Send(bytes) => {
///             to.step()?; // it waits for them
///             let count = to.receive(bytes);
///             from.sent(count);
///         }
///         Step::Receive(_) => {}
///         Step::Verify(_key) => from.accept(), // look the key up first
///         Step::Done => return Ok(true),
///         other => panic!("{other:?}"),
///     }
///     Ok(false)
/// }
///
/// let handshake = Builder::new("XX").static_key(KeyPair::generate()?);
/// let mut client = Connecting::new(handshake.initiator()?)?;
/// let handshake = Builder::new("XX").static_key(KeyPair::generate()?);
/// let mut server = Connecting::new(handshake.responder()?)?;
/// while !(pass(&mut client, &mut server)? & pass(&mut server, &mut client)?) {}
/// let (mut client, mut server): (Connection, Connection) = (client.finish()?, server.finish()?);
///
/// client.write(b"hello")?;
/// client.end()?;
/// let mut text = Vec::new();
/// loop {
///     match server.event()? {
///         Event::Data(bytes) => text.extend_from_slice(bytes),
///         Event::Receive(_) => {
///             let count = server.receive(client.outgoing());
///             client.sent(count);
///         }
///         _ => break, // the end
///     }
/// }
/// assert_eq!(text, b"hello");
/// # Ok(()) }
/// ```
pub struct Connection {
    pub(crate) sender: StreamSender,
    pub(crate) receiver: StreamReceiver,
    hash: [u8; 32],
    remote_static: Option<[u8; 32]>,
}

// Whether a message was refused or the connection was lost, for both directions.
#[derive(Clone, Default)]
struct Over(Arc<AtomicBool>);

impl Over {
    fn set(&self) {
        self.0.store(true, Ordering::Release);
    }

    fn is_set(&self) -> bool {
        self.0.load(Ordering::Acquire)
    }
}

impl Connection {
    fn of(
        raw: (Held<raw::StreamSender>, Held<raw::StreamReceiver>),
        buffers: (buffers::Outgoing, buffers::Incoming),
        is_silent: bool,
    ) -> Connection {
        let over = Over::default();
        Connection {
            sender: StreamSender::new(raw.0, buffers.0, over.clone()),
            receiver: StreamReceiver::new(raw.1, buffers.1, is_silent, over),
            hash: [0; 32],
            remote_static: None,
        }
    }

    /// What has come: see [`StreamReceiver::event`].
    ///
    /// # Errors
    ///
    /// Those of [`StreamReceiver::event`].
    pub fn event(&mut self) -> Result<Event<'_>, Error> {
        self.receiver.event()
    }

    /// Receives bytes that came, and returns how many: see [`StreamReceiver::receive`].
    pub fn receive(&mut self, bytes: &[u8]) -> usize {
        self.receiver.receive(bytes)
    }

    /// Nothing more comes: see [`StreamReceiver::closed`].
    pub fn closed(&mut self) {
        self.receiver.closed();
    }

    /// Seals bytes, and returns how many: see [`StreamSender::write`].
    ///
    /// # Errors
    ///
    /// Those of [`StreamSender::write`].
    pub fn write(&mut self, bytes: &[u8]) -> Result<usize, Error> {
        self.sender.write(bytes)
    }

    /// Ends this party's stream: see [`StreamSender::end`].
    ///
    /// # Errors
    ///
    /// Those of [`StreamSender::end`].
    pub fn end(&mut self) -> Result<(), Error> {
        self.sender.end()
    }

    /// The bytes to send: see [`StreamSender::outgoing`].
    #[must_use]
    pub fn outgoing(&self) -> &[u8] {
        self.sender.outgoing()
    }

    /// So many of them were sent: see [`StreamSender::sent`].
    pub fn sent(&mut self, count: usize) {
        self.sender.sent(count);
    }

    /// The handshake hash, the same at both parties, to bind other data to the channel (Noise, 11.2).
    #[must_use]
    pub fn hash(&self) -> &[u8; 32] {
        &self.hash
    }

    /// The other party's static key; `None` if the handshake has none.
    #[must_use]
    pub fn remote_static(&self) -> Option<&[u8; 32]> {
        self.remote_static.as_ref()
    }

    /// The two directions, for two threads.
    #[must_use]
    pub fn split(self) -> (StreamSender, StreamReceiver) {
        (self.sender, self.receiver)
    }
}

impl fmt::Debug for Connection {
    fn fmt(&self, f: &mut fmt::Formatter<'_>) -> fmt::Result {
        f.debug_struct("Connection")
            .field("remote_static", &self.remote_static)
            .field("sender", &self.sender)
            .field("receiver", &self.receiver)
            .finish_non_exhaustive()
    }
}

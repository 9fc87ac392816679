use crate::header::OK;
use crate::raw::{self, CallResult, Held};
use crate::Error;
use core::fmt;

/// Seals transport messages. They have to arrive in the order in which they were sealed.
pub struct Sender(Held<raw::Sender>);

/// Opens transport messages, in their order.
pub struct Receiver(Held<raw::Receiver>);

/// Both directions of a transport, over a stream, which loses no message and keeps their order.
///
#[cfg_attr(any(feature = "x25519", feature = "openssl"), doc = "```")]
#[cfg_attr(not(any(feature = "x25519", feature = "openssl")), doc = "```ignore")]
/// # fn main() -> Result<(), yulimosar::Error> {
/// use yulimosar::{Builder, TAG_LEN};
///
/// let mut client = Builder::new("NN").initiator()?;
/// let mut server = Builder::new("NN").responder()?;
/// let mut message = [0; 100];
/// let len = client.write(b"", &mut message)?;
/// server.read(&mut message[..len])?;
/// let len = server.write(b"", &mut message)?;
/// client.read(&mut message[..len])?;
///
/// let (mut sender, _) = client.finish()?.split(); // for two threads
/// let mut server = server.finish()?;
/// let len = sender.seal(b"hello", &mut message)?;
/// assert_eq!(len, 5 + TAG_LEN);
/// assert_eq!(server.open(&mut message[..len])?, b"hello");
/// # Ok(()) }
/// ```
#[derive(Debug)]
pub struct Transport {
    sender: Sender,
    receiver: Receiver,
}

/// Seals datagrams.
pub struct DatagramSender(Held<raw::DatagramSender>);

/// Opens datagrams, in any order, each once.
pub struct DatagramReceiver(Held<raw::DatagramReceiver>);

/// Both directions of a channel over a network that loses, repeats and reorders datagrams.
///
#[cfg_attr(any(feature = "x25519", feature = "openssl"), doc = "```")]
#[cfg_attr(not(any(feature = "x25519", feature = "openssl")), doc = "```ignore")]
/// # fn main() -> Result<(), yulimosar::Error> {
/// use yulimosar::{Builder, Error, DATAGRAM_OVERHEAD};
///
/// let mut client = Builder::new("NN").initiator()?;
/// let mut server = Builder::new("NN").responder()?;
/// let mut message = [0; 100];
/// let len = client.write(b"", &mut message)?;
/// server.read(&mut message[..len])?;
/// let len = server.write(b"", &mut message)?;
/// client.read(&mut message[..len])?;
///
/// let (mut client, mut server) = (client.finish_datagrams(64)?, server.finish_datagrams(64)?);
/// let mut datagram = [0; 5 + DATAGRAM_OVERHEAD];
/// client.seal(b"hello", &mut datagram)?;
/// assert_eq!(server.open(&mut datagram.clone())?, b"hello");
/// assert_eq!(server.open(&mut datagram), Err(Error::Repeated));
/// # Ok(()) }
/// ```
#[derive(Debug)]
pub struct Datagrams {
    sender: DatagramSender,
    receiver: DatagramReceiver,
}

#[inline]
fn length(code: u32, result: &CallResult) -> Result<usize, Error> {
    match code {
        OK => Ok(result.len),
        code => Err(Error::of(code, None)),
    }
}

#[inline]
fn place<'m>(code: u32, result: &CallResult, bytes: &'m mut [u8]) -> Result<&'m mut [u8], Error> {
    let len = length(code, result)?;
    Ok(&mut bytes[result.from..result.from + len])
}

impl Sender {
    /// Seals a payload of at most 65519 bytes to the front of `out`: 16 bytes longer. At an error nothing is changed.
    ///
    /// # Errors
    ///
    /// `Room`, `TooLong`, `Exhausted` and `OneWay`.
    #[inline]
    pub fn seal(&mut self, payload: &[u8], out: &mut [u8]) -> Result<usize, Error> {
        let mut result = CallResult::default();
        length(self.0.seal(payload, out, &mut result), &result)
    }

    /// Seals in place: the payload is the first `payload_len` bytes of `buffer`, which needs 16 bytes more.
    ///
    /// # Errors
    ///
    /// Those of `seal`.
    #[inline]
    pub fn seal_in_place(&mut self, buffer: &mut [u8], payload_len: usize) -> Result<usize, Error> {
        let mut result = CallResult::default();
        length(self.0.seal_in_place(buffer, payload_len, &mut result), &result)
    }

    /// How many messages were sealed.
    #[must_use]
    pub fn nonce(&self) -> u64 {
        self.0.nonce()
    }
}

impl Receiver {
    /// Opens the next message in place, and returns its payload. At an error nothing is changed; over a
    /// stream close at the first.
    ///
    /// # Errors
    ///
    /// `Tag` and `Short`; `TooLong`, `Exhausted` and `OneWay`.
    #[inline]
    pub fn open<'m>(&mut self, message: &'m mut [u8]) -> Result<&'m mut [u8], Error> {
        let mut result = CallResult::default();
        place(self.0.open(message, &mut result), &result, message)
    }

    /// How many messages were opened.
    #[must_use]
    pub fn nonce(&self) -> u64 {
        self.0.nonce()
    }
}

impl Transport {
    pub(crate) fn of(sender: Held<raw::Sender>, receiver: Held<raw::Receiver>) -> Transport {
        Transport { sender: Sender(sender), receiver: Receiver(receiver) }
    }

    /// Seals a payload as [`Sender::seal`] does.
    ///
    /// # Errors
    ///
    /// Those of [`Sender::seal`].
    #[inline]
    pub fn seal(&mut self, payload: &[u8], out: &mut [u8]) -> Result<usize, Error> {
        self.sender.seal(payload, out)
    }

    /// Opens the next message as [`Receiver::open`] does.
    ///
    /// # Errors
    ///
    /// Those of [`Receiver::open`].
    #[inline]
    pub fn open<'m>(&mut self, message: &'m mut [u8]) -> Result<&'m mut [u8], Error> {
        self.receiver.open(message)
    }

    /// The two directions, for two threads.
    #[must_use]
    pub fn split(self) -> (Sender, Receiver) {
        (self.sender, self.receiver)
    }
}

impl DatagramSender {
    /// Seals a payload of at most 65519 bytes to the front of `out`: 24 bytes longer. At an error nothing is changed.
    ///
    /// # Errors
    ///
    /// `Room`, `TooLong`, `Exhausted` and `OneWay`.
    #[inline]
    pub fn seal(&mut self, payload: &[u8], out: &mut [u8]) -> Result<usize, Error> {
        let mut result = CallResult::default();
        length(self.0.seal(payload, out, &mut result), &result)
    }

    /// Seals in place: the payload is `payload_len` bytes of `buffer` from the ninth on, after which
    /// 16 bytes more are needed.
    ///
    /// # Errors
    ///
    /// Those of `seal`.
    #[inline]
    pub fn seal_in_place(&mut self, buffer: &mut [u8], payload_len: usize) -> Result<usize, Error> {
        let mut result = CallResult::default();
        length(self.0.seal_in_place(buffer, payload_len, &mut result), &result)
    }

    /// How many datagrams were sealed: the nonce of the next.
    #[must_use]
    pub fn nonce(&self) -> u64 {
        self.0.nonce()
    }
}

impl DatagramReceiver {
    /// Opens a datagram in place, and returns its payload. At an error nothing is changed: drop the datagram. `Old` and
    /// `Repeated` alone are no sign of an attack.
    ///
    /// # Errors
    ///
    /// `Old` and `Repeated`; `Tag`, `Short`, `TooLong`, `Reserved` and `OneWay`.
    #[inline]
    pub fn open<'m>(&mut self, datagram: &'m mut [u8]) -> Result<&'m mut [u8], Error> {
        let mut result = CallResult::default();
        place(self.0.open(datagram, &mut result), &result, datagram)
    }
}

impl Datagrams {
    pub(crate) fn of(sender: Held<raw::DatagramSender>, receiver: Held<raw::DatagramReceiver>) -> Datagrams {
        Datagrams { sender: DatagramSender(sender), receiver: DatagramReceiver(receiver) }
    }

    /// Seals a payload as [`DatagramSender::seal`] does.
    ///
    /// # Errors
    ///
    /// Those of [`DatagramSender::seal`].
    #[inline]
    pub fn seal(&mut self, payload: &[u8], out: &mut [u8]) -> Result<usize, Error> {
        self.sender.seal(payload, out)
    }

    /// Opens a datagram as [`DatagramReceiver::open`] does.
    ///
    /// # Errors
    ///
    /// Those of [`DatagramReceiver::open`].
    #[inline]
    pub fn open<'m>(&mut self, datagram: &'m mut [u8]) -> Result<&'m mut [u8], Error> {
        self.receiver.open(datagram)
    }

    /// The two directions, for two threads.
    #[must_use]
    pub fn split(self) -> (DatagramSender, DatagramReceiver) {
        (self.sender, self.receiver)
    }
}

impl fmt::Debug for Sender {
    fn fmt(&self, f: &mut fmt::Formatter<'_>) -> fmt::Result {
        f.debug_struct("Sender").field("nonce", &self.nonce()).finish_non_exhaustive()
    }
}

impl fmt::Debug for Receiver {
    fn fmt(&self, f: &mut fmt::Formatter<'_>) -> fmt::Result {
        f.debug_struct("Receiver").field("nonce", &self.nonce()).finish_non_exhaustive()
    }
}

impl fmt::Debug for DatagramSender {
    fn fmt(&self, f: &mut fmt::Formatter<'_>) -> fmt::Result {
        f.debug_struct("DatagramSender").field("nonce", &self.nonce()).finish_non_exhaustive()
    }
}

impl fmt::Debug for DatagramReceiver {
    fn fmt(&self, f: &mut fmt::Formatter<'_>) -> fmt::Result {
        f.debug_struct("DatagramReceiver").finish_non_exhaustive()
    }
}

#[cfg(test)]
#[allow(dead_code)]
impl Sender {
    pub(crate) fn memory(&self) -> &[u8] {
        self.0.memory()
    }
}

#[cfg(test)]
#[allow(dead_code)]
impl Receiver {
    pub(crate) fn memory(&self) -> &[u8] {
        self.0.memory()
    }
}

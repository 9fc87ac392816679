use crate::header::{OK, WANTED, WANTED_PSK};
use crate::raw::{self, CallResult, Held, Stage};
use crate::{Datagrams, Dh, Ephemeral, Error, ReceiveCipherState, SendCipherState, Transport};
use core::fmt;
use core::ops::Range;

/// A handshake, message by message. The parties write in turn, the initiator first; `finish`, `finish_datagrams` or
/// `finish_ciphers` uses it up.
///
/// Calls through `&` only read: threads may make them at once, so a handshake is `Sync` where its key pairs are.
///
#[cfg_attr(any(feature = "x25519", feature = "openssl"), doc = "```")]
#[cfg_attr(not(any(feature = "x25519", feature = "openssl")), doc = "```ignore")]
/// # fn main() -> Result<(), yulimosar::Error> {
/// use yulimosar::{Builder, KeyPair};
///
/// let server_key = KeyPair::generate()?;
/// let public = *server_key.public_key();
/// let mut client = Builder::new("NK").remote_static(&public).initiator()?;
/// let mut server = Builder::new("NK").static_key(server_key).responder()?;
/// let mut message = [0; 100];
/// let len = client.write(b"", &mut message)?;
/// server.read(&mut message[..len])?; // a network comes between the two
/// let len = server.write(b"payload", &mut message)?;
/// assert_eq!(client.read(&mut message[..len])?, b"payload");
/// assert!(client.is_done() && server.is_done());
/// assert_eq!(client.hash(), server.hash());
/// assert_eq!(client.remote_static(), Some(public));
/// # Ok(()) }
/// ```
pub struct Handshake<S: Dh, E: Ephemeral> {
    memory: Held<raw::Handshake>,
    stage: Stage,
    static_key: Option<S>,
    ephemeral: E,
    options: Options,
    is_asked: bool, // for the psk of a message that is read
    chosen: usize,  // psks for that message
    #[cfg(feature = "std")]
    later: Option<(u8, [u8; 32])>, // the key pair and the public key of an X25519 result that comes later
}

// What a builder says of the time after the start.
#[derive(Clone, Copy, Debug)]
pub(crate) struct Options {
    pub(crate) interval: u64,
    #[cfg_attr(not(feature = "alloc"), allow(dead_code))]
    pub(crate) max_message: usize,
    #[cfg_attr(not(feature = "alloc"), allow(dead_code))]
    pub(crate) other_has_static: bool,
    pub(crate) lacking_psks: usize,
    // A stream sends its last message before it is there.
    #[cfg_attr(not(feature = "std"), allow(dead_code))]
    pub(crate) flushes: bool,
    // Nothing comes after the handshake.
    #[cfg_attr(not(feature = "alloc"), allow(dead_code))]
    pub(crate) is_silent: bool,
}

impl Default for Options {
    fn default() -> Options {
        Options {
            interval: 0,
            max_message: 8192,
            other_has_static: false,
            lacking_psks: 0,
            flushes: false,
            is_silent: false,
        }
    }
}

impl<S: Dh, E: Ephemeral> Handshake<S, E> {
    pub(crate) fn begun(
        memory: Held<raw::Handshake>,
        stage: Stage,
        static_key: Option<S>,
        ephemeral: E,
        options: Options,
    ) -> Self {
        Handshake {
            memory,
            stage,
            static_key,
            ephemeral,
            options,
            is_asked: false,
            chosen: 0,
            #[cfg(feature = "std")]
            later: None,
        }
    }

    /// Writes the next message, with this payload, to the start of `out`, and returns its length. At an error, as
    /// `WantedPsk`, nothing is changed.
    ///
    /// # Errors
    ///
    /// `Room`, `TooLong`, `NotYourTurn`, `Done`, `WantedPsk`, `KeyPair` and `Zeros`.
    pub fn write(&mut self, payload: &[u8], out: &mut [u8]) -> Result<usize, Error> {
        let mut result = CallResult::default();
        loop {
            match self.memory.write(payload, out, &mut result) {
                OK => {
                    self.pass();
                    return Ok(result.len);
                }
                WANTED => self.answer(&result)?,
                WANTED_PSK => return Err(result.wanted_psk()),
                code => return Err(Error::of(code, None)),
            }
        }
    }

    /// Reads the message that is due, in place, and returns its payload. `Short` and `Tag` end the handshake; otherwise
    /// an error, as `WantedPsk`, changes nothing.
    ///
    /// # Errors
    ///
    /// Also `NotYourTurn`, `Done`, `KeyPair` and `Zeros`.
    pub fn read<'m>(&mut self, message: &'m mut [u8]) -> Result<&'m mut [u8], Error> {
        let payload = self.read_by(raw::Handshake::read, message)?;
        Ok(&mut message[payload])
    }

    /// Reads as `read` does, but an error changes nothing, neither the handshake nor the message: for a message that
    /// anybody may have sent, as a datagram. A psk that was chosen for a refused message is taken back.
    ///
    #[cfg_attr(any(feature = "x25519", feature = "openssl"), doc = "```")]
    #[cfg_attr(not(any(feature = "x25519", feature = "openssl")), doc = "```ignore")]
    /// # fn main() -> Result<(), yulimosar::Error> {
    /// use yulimosar::{Builder, Error};
    ///
    /// let (mut client, mut server) = (Builder::new("NN").initiator()?, Builder::new("NN").responder()?);
    /// let mut message = [0; 100];
    /// let len = client.write(b"", &mut message)?;
    /// server.try_read(&mut message[..len])?;
    /// let len = server.write(b"", &mut message)?;
    /// assert_eq!(client.try_read(&mut [7; 48]), Err(Error::Tag { token: Some(2) })); // of a stranger: drop it
    /// client.try_read(&mut message[..len])?;
    /// assert!(client.is_done() && server.is_done());
    /// # Ok(()) }
    /// ```
    ///
    /// # Errors
    ///
    /// Those of `read`.
    pub fn try_read<'m>(&mut self, message: &'m mut [u8]) -> Result<&'m mut [u8], Error> {
        match self.read_by(raw::Handshake::try_read, message) {
            Ok(payload) => Ok(&mut message[payload]),
            Err(error) => {
                if !matches!(error, Error::WantedPsk { .. }) {
                    self.take_back();
                }
                Err(error)
            }
        }
    }

    // Takes the psks back that were chosen for a message: another one may be of another party.
    fn take_back(&mut self) {
        for _ in 0..core::mem::take(&mut self.chosen) {
            self.memory.unset_psk();
            self.options.lacking_psks += 1;
        }
    }

    fn read_by(
        &mut self,
        read: fn(&mut raw::Handshake, &mut [u8], &mut CallResult) -> u32,
        message: &mut [u8],
    ) -> Result<Range<usize>, Error> {
        let mut result = CallResult::default();
        self.is_asked = false;
        loop {
            match read(&mut self.memory, message, &mut result) {
                OK => {
                    self.pass();
                    self.chosen = 0;
                    return Ok(result.from..result.from + result.len);
                }
                WANTED => self.answer(&result)?,
                WANTED_PSK => {
                    self.is_asked = true;
                    return Err(result.wanted_psk());
                }
                code => {
                    self.stage = self.memory.stage();
                    return Err(Error::of(code, Some(result.token)));
                }
            }
        }
    }

    // One more message was written or read. To say so itself the library would check all that the struct has.
    fn pass(&mut self) {
        self.stage = self.stage.next();
        debug_assert!(self.stage.is(&self.memory.stage()));
    }

    // Passes the X25519 result that the call needs. Zeros are refused (Noise, 12.1).
    #[inline(never)] // what it leaves on the stack is overwritten once the handshake is finished
    fn answer(&mut self, result: &CallResult) -> Result<(), Error> {
        let agreed = match &self.static_key {
            Some(key) if result.of_static != 0 => key.agree(&result.remote),
            _ => self.ephemeral.agree(&result.remote),
        };
        #[cfg(feature = "std")]
        if matches!(&agreed, Err(error) if error.is_later()) {
            self.later = Some((result.of_static, result.remote));
        }
        self.agreed(result.of_static, &result.remote, agreed?)
    }

    #[inline(never)]
    fn agreed(&mut self, of_static: u8, remote: &[u8; 32], mut dh_result: [u8; 32]) -> Result<(), Error> {
        if dh_result == [0; 32] {
            return Err(Error::Zeros);
        }
        let code = self.memory.answer(of_static, remote, &dh_result);
        raw::wipe(&mut dh_result);
        match code {
            OK => Ok(()),
            code => Err(Error::of(code, None)),
        }
    }

    // The result that comes later, and how it is passed.
    #[cfg(any(feature = "tokio", feature = "futures-io"))]
    pub(crate) fn agree_async(&self) -> Option<crate::DhFuture> {
        let (of_static, remote) = self.later.as_ref()?;
        match &self.static_key {
            Some(key) if *of_static != 0 => Some(key.agree_async(remote)),
            _ => Some(self.ephemeral.agree_async(remote)),
        }
    }

    #[cfg(any(feature = "tokio", feature = "futures-io"))]
    pub(crate) fn answer_later(&mut self, dh_result: &[u8; 32]) -> Result<(), Error> {
        match self.later.take() {
            Some((of_static, remote)) => self.agreed(of_static, &remote, *dh_result),
            None => Ok(()),
        }
    }

    #[cfg(feature = "std")]
    pub(crate) fn flushes(&self) -> bool {
        self.options.flushes
    }

    /// Passes the secret of the first psk token that has none: after `WantedPsk`, or before. If it is wrong, the other
    /// party's message is refused with `Tag`; `try_read` then takes it back.
    ///
    #[cfg_attr(any(feature = "x25519", feature = "openssl"), doc = "```")]
    #[cfg_attr(not(any(feature = "x25519", feature = "openssl")), doc = "```ignore")]
    /// # fn main() -> Result<(), yulimosar::Error> {
    /// use yulimosar::{Builder, Error, KeyPair};
    ///
    /// let (client_key, server_key) = (KeyPair::generate()?, KeyPair::generate()?);
    /// let psks = std::collections::HashMap::from([(*client_key.public_key(), [7; 32])]);
    /// let mut client = Builder::new("XXpsk3").static_key(client_key).psk(&[7; 32]).initiator()?;
    /// let mut server = Builder::new("XXpsk3").static_key(server_key).late_psks().responder()?;
    /// let mut message = [0; 100];
    /// let len = client.write(b"", &mut message)?;
    /// server.read(&mut message[..len])?;
    /// let len = server.write(b"", &mut message)?;
    /// client.read(&mut message[..len])?;
    /// let len = client.write(b"", &mut message)?;
    /// if let Err(Error::WantedPsk { remote_static: Some(key) }) = server.read(&mut message[..len]) {
    ///     server.set_psk(psks.get(&key).ok_or(Error::Refused)?)?;
    ///     server.read(&mut message[..len])?; // the same message again
    /// }
    /// assert_eq!(client.hash(), server.hash());
    /// # Ok(()) }
    /// ```
    ///
    /// # Errors
    ///
    /// `PskCount`: no token that is still to come lacks its secret.
    pub fn set_psk(&mut self, secret: &[u8; 32]) -> Result<(), Error> {
        match self.memory.set_psk(secret) {
            OK => {
                self.options.lacking_psks -= 1;
                self.chosen += usize::from(core::mem::take(&mut self.is_asked));
                Ok(())
            }
            code => Err(Error::of(code, None)),
        }
    }

    /// Whether a psk token that is still to come lacks its secret.
    #[must_use]
    pub fn lacks_psk(&self) -> bool {
        self.options.lacking_psks > 0
    }

    /// How many bytes the next message has with a payload of this length; `None` if `write` wouldn't accept it now.
    #[must_use]
    pub fn message_len(&self, payload_len: usize) -> Option<usize> {
        self.memory.message_len(payload_len)
    }

    /// Whether the next message, if there is one, is this party's to write.
    #[must_use]
    pub fn writes_next(&self) -> bool {
        self.stage.writes_next != 0 && !self.is_done()
    }

    /// Whether all messages have passed.
    #[must_use]
    pub fn is_done(&self) -> bool {
        self.stage.ended == 0 && self.stage.passed == self.stage.messages
    }

    /// The handshake hash so far. After the last message it is the same at both parties (Noise, 11.2).
    #[must_use]
    pub fn hash(&self) -> [u8; 32] {
        self.memory.hash()
    }

    /// The other party's static key, if it is known. Compare it before you send anything that matters.
    #[must_use]
    pub fn remote_static(&self) -> Option<[u8; 32]> {
        self.memory.remote_static()
    }

    /// Makes the transport, after all messages have passed.
    ///
    /// # Errors
    ///
    /// `NotDone` while messages are still due.
    pub fn finish(mut self) -> Result<Transport, Error> {
        let (mut sender, mut receiver) = (raw::Sender::new(), raw::Receiver::new());
        let code = self.memory.finish(self.options.interval, &mut sender, &mut receiver);
        self.end(code)?;
        Ok(Transport::of(sender, receiver))
    }

    // Whether the pattern has a static key of the other party.
    #[cfg(feature = "alloc")]
    pub(crate) fn other_has_static(&self) -> bool {
        self.options.other_has_static
    }

    // Whether nothing comes after the handshake: a one-way pattern's initiator receives nothing.
    #[cfg(feature = "alloc")]
    pub(crate) fn is_silent(&self) -> bool {
        self.options.is_silent
    }

    // The most bytes that a `Connecting` accepts as a message of the handshake.
    #[cfg(feature = "alloc")]
    pub(crate) fn max_message(&self) -> usize {
        self.options.max_message
    }

    #[cfg(feature = "alloc")]
    #[allow(clippy::type_complexity)]
    pub(crate) fn finish_stream(mut self) -> Result<(Held<raw::StreamSender>, Held<raw::StreamReceiver>), Error> {
        let (mut sender, mut receiver) = (raw::StreamSender::new(), raw::StreamReceiver::new());
        let code = self.memory.finish_stream(self.options.interval, &mut sender, &mut receiver);
        self.end(code)?;
        Ok((sender, receiver))
    }

    // Overwrites what the handshake has, and what its calls have left on the stack.
    fn end(self, code: u32) -> Result<(), Error> {
        drop(self);
        raw::wipe_stack();
        match code {
            OK => Ok(()),
            code => Err(Error::of(code, None)),
        }
    }

    /// Makes the two cipher states of Split (Noise, 5.2), for packets of your own: the one to encrypt what this party
    /// sends, and the one to decrypt what it receives. The one for the responder's messages of a one-way pattern has no
    /// key: each call returns `OneWay` (Noise, 7.4).
    ///
    /// # Errors
    ///
    /// `NotDone` while messages are still due.
    pub fn finish_ciphers(mut self) -> Result<(SendCipherState, ReceiveCipherState), Error> {
        let (mut send, mut receive) = (raw::Cipher::new(), raw::Cipher::new());
        let code = self.memory.finish_ciphers(&mut send, &mut receive);
        self.end(code)?;
        Ok((SendCipherState(send), ReceiveCipherState(receive)))
    }

    /// Makes the state for datagrams, after all messages have passed. A datagram may arrive after others whose numbers
    /// are less than `window` greater: 64, 256 or 1024. No direction is rekeyed: `Builder::interval` does nothing here.
    ///
    /// # Errors
    ///
    /// `NotDone` while messages are still due, and `Window`.
    pub fn finish_datagrams(mut self, window: u32) -> Result<Datagrams, Error> {
        let (mut sender, mut receiver) = (raw::DatagramSender::new(), raw::DatagramReceiver::new());
        let code = self.memory.finish_datagrams(window, &mut sender, &mut receiver);
        self.end(code)?;
        Ok(Datagrams::of(sender, receiver))
    }
}

impl<S: Dh, E: Ephemeral> fmt::Debug for Handshake<S, E> {
    fn fmt(&self, f: &mut fmt::Formatter<'_>) -> fmt::Result {
        f.debug_struct("Handshake")
            .field("is_done", &self.is_done())
            .field("writes_next", &self.writes_next())
            .field("remote_static", &self.remote_static())
            .finish_non_exhaustive()
    }
}

impl CallResult {
    fn wanted_psk(&self) -> Error {
        Error::WantedPsk { remote_static: Some(self.remote).filter(|_| self.remote_known != 0) }
    }
}

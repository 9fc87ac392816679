use super::buffers::{Incoming, Outgoing};
use super::Connection;
use crate::header::{MAX_FRAME, MAX_MESSAGE, MORE, OK};
use crate::raw::{frame_find, frame_message, StreamResult};
use crate::{Dh, Ephemeral, Error, Handshake};
use core::fmt;

const LENGTH: usize = MAX_FRAME - MAX_MESSAGE; // the bytes of a frame before its message

/// A handshake without a transport, which becomes a [`Connection`]. Each message comes after its length in two bytes,
/// the higher first (Noise, 13), and has an empty payload. `step` says what to do, until it says [`Step::Done`];
/// [`Connection`] has an example.
///
/// After an error the handshake has failed: each later `step` returns the same error, and there
/// is nothing more to send.
pub struct Connecting<S: Dh, E: Ephemeral> {
    handshake: Handshake<S, E>,
    incoming: Incoming,
    outgoing: Outgoing,
    wanted: usize,
    is_closed: bool,
    peer: Peer,
    is_accepted: bool,
    failure: Option<Error>,
}

/// What a handshake needs next.
#[derive(Debug, PartialEq, Eq)]
#[non_exhaustive]
pub enum Step<'c> {
    /// Send these bytes, and say by `sent` how many of them are sent.
    Send(&'c [u8]),
    /// More bytes are needed, of which `receive` accepts at most so many; or `closed` says that none comes.
    Receive(usize),
    /// The other party's static key is known. If it is one that you accept call `accept`; else drop the handshake,
    /// and close the connection.
    Verify([u8; 32]),
    /// A psk token needs its secret: the one that you share with the owner of this static key. Pass it to `set_psk`; or
    /// drop the handshake, and close the connection. The other party hasn't shown yet that it has the secret key.
    WantedPsk([u8; 32]),
    /// All messages have passed: call `finish`.
    Done,
}

// Who may be the other party.
#[derive(Clone, Copy, Debug, PartialEq, Eq)]
pub(crate) enum Peer {
    Verified,
    Anybody,
    Chosen, // a secret is chosen for it
}

impl<S: Dh, E: Ephemeral> Connecting<S, E> {
    /// A handshake in which you verify the other party's static key: [`Step::Verify`] comes as soon as it is known. A
    /// pattern without such a key, as NN, is refused: see `anonymous`.
    ///
    /// # Errors
    ///
    /// `Refused` where the other party has no static key; `PskCount` after `Builder::late_psks`.
    pub fn new(handshake: Handshake<S, E>) -> Result<Self, Error> {
        Connecting::with(handshake, Peer::Verified)
    }

    /// A handshake in which the other party has no static key, or one that you don't compare: with a secret that both
    /// have (psk), or with anybody.
    ///
    /// # Errors
    ///
    /// `PskCount` after `Builder::late_psks`.
    pub fn anonymous(handshake: Handshake<S, E>) -> Result<Self, Error> {
        Connecting::with(handshake, Peer::Anybody)
    }

    /// A handshake of [`Builder::late_psks`](crate::Builder::late_psks): [`Step::WantedPsk`] comes at each psk
    /// token that lacks its secret.
    ///
    /// # Errors
    ///
    /// `PskCount` without `Builder::late_psks`. `WantedPsk` where the pattern never gives the other party's key; where
    /// it gives that after the token, `step` returns it.
    pub fn with_late_psks(handshake: Handshake<S, E>) -> Result<Self, Error> {
        Connecting::with(handshake, Peer::Chosen)
    }

    pub(crate) fn with(handshake: Handshake<S, E>, peer: Peer) -> Result<Self, Error> {
        if handshake.lacks_psk() != (peer == Peer::Chosen) {
            return Err(Error::PskCount);
        }
        match peer {
            Peer::Verified if !handshake.other_has_static() => return Err(Error::Refused),
            Peer::Chosen if !handshake.other_has_static() => return Err(Error::WantedPsk { remote_static: None }),
            _ => {}
        }
        Ok(Connecting {
            handshake,
            incoming: Incoming::default(),
            outgoing: Outgoing::default(),
            wanted: 0,
            is_closed: false,
            peer,
            is_accepted: peer != Peer::Verified,
            failure: None,
        })
    }

    /// What to do next.
    ///
    /// # Errors
    ///
    /// `Tag`, `Short`, `TooLong`, `Cut`, `KeyPair` and `Zeros` end the handshake, and each later call returns the same.
    /// After `KeyPair` with [`DhError::later`](crate::DhError::later) call it again.
    pub fn step(&mut self) -> Result<Step<'_>, Error> {
        if let Some(failure) = &self.failure {
            return Err(failure.clone());
        }
        if !self.outgoing.rest().is_empty() {
            return Ok(Step::Send(self.outgoing.rest()));
        }
        match self.advance() {
            Ok(Some(step)) => Ok(step),
            Ok(None) => Ok(Step::Send(self.outgoing.rest())),
            Err(Error::KeyPair(error)) if error.is_later() => Err(Error::KeyPair(error)),
            Err(error) => {
                self.failure = Some(error.clone());
                Err(error)
            }
        }
    }

    // Passes messages until something is needed; `None`: a message is to be sent.
    fn advance(&mut self) -> Result<Option<Step<'static>>, Error> {
        self.wanted = 0;
        loop {
            if let Some(key) = self.handshake.remote_static().filter(|_| !self.is_accepted) {
                return Ok(Some(Step::Verify(key)));
            }
            if self.handshake.is_done() {
                return Ok(Some(Step::Done));
            }
            let writes = self.handshake.writes_next();
            match if writes { self.write() } else { self.read() } {
                Ok(()) if writes => return Ok(None),
                Ok(()) if self.wanted > 0 => return Ok(Some(Step::Receive(self.wanted))),
                Ok(()) => {}
                Err(Error::WantedPsk { remote_static: Some(key) }) => return Ok(Some(Step::WantedPsk(key))),
                Err(error) => return Err(error),
            }
        }
    }

    fn write(&mut self) -> Result<(), Error> {
        let len = self.handshake.message_len(0).unwrap_or(MAX_MESSAGE);
        let room = self.outgoing.room(LENGTH + len);
        let len = self.handshake.write(&[], &mut room[LENGTH..])?;
        let mut result = StreamResult::default();
        match frame_message(room, len, &mut result) {
            OK => self.outgoing.put(result.len),
            code => return Err(Error::of(code, None)),
        }
        Ok(())
    }

    // Reads the message that is due, or says how many bytes more are wanted.
    fn read(&mut self) -> Result<(), Error> {
        let mut result = StreamResult::default();
        let is_part = frame_find(self.incoming.bytes(), &mut result) == MORE;
        let len = if is_part { self.incoming.len() + result.wanted } else { result.used };
        if len > LENGTH.saturating_add(self.handshake.max_message()) {
            return Err(Error::TooLong);
        }
        if is_part {
            if self.is_closed {
                return Err(Error::Cut);
            }
            self.wanted = result.wanted;
            return Ok(());
        }
        self.handshake.read(&mut self.incoming.bytes_mut()[result.from..result.from + result.len])?;
        self.incoming.remove(result.used);
        Ok(())
    }

    /// Receives bytes that came, in their order, and returns how many: at most as many as the last [`Step::Receive`]
    /// says, so none before it. Ask `step` again before you pass the others.
    pub fn receive(&mut self, bytes: &[u8]) -> usize {
        let count = self.incoming.take(bytes, self.wanted);
        self.wanted -= count;
        count
    }

    /// The connection has closed, and all that came over it was received.
    pub fn closed(&mut self) {
        self.is_closed = true;
    }

    /// The first bytes of [`Step::Send`], so many, were sent.
    pub fn sent(&mut self, count: usize) {
        self.outgoing.sent(count);
    }

    /// Accepts the key of [`Step::Verify`].
    pub fn accept(&mut self) {
        self.is_accepted |= self.handshake.remote_static().is_some();
    }

    /// Passes the secret of [`Step::WantedPsk`].
    ///
    /// # Errors
    ///
    /// `PskCount`: no psk token that is still to come lacks its secret.
    pub fn set_psk(&mut self, secret: &[u8; 32]) -> Result<(), Error> {
        self.handshake.set_psk(secret)
    }

    /// The channel, after [`Step::Done`]. Where the last message is still to be sent, the channel sends it before its
    /// first frame.
    ///
    /// # Errors
    ///
    /// `NotDone` before [`Step::Done`], `Refused` if the other party's static key wasn't accepted, or the error that
    /// ended the handshake.
    pub fn finish(self) -> Result<Connection, Error> {
        if let Some(failure) = self.failure {
            return Err(failure);
        }
        if !self.is_accepted && self.handshake.is_done() {
            return Err(Error::Refused);
        }
        let (hash, remote_static) = (self.handshake.hash(), self.handshake.remote_static());
        let is_silent = self.handshake.is_silent();
        let raw = self.handshake.finish_stream()?;
        let (mut outgoing, mut incoming) = (self.outgoing, self.incoming);
        outgoing.release();
        incoming.release();
        Ok(Connection { hash, remote_static, ..Connection::of(raw, (outgoing, incoming), is_silent) })
    }

    // An X25519 result that comes later, and how it is passed.
    #[cfg(any(feature = "tokio", feature = "futures-io"))]
    pub(crate) fn agree_async(&self) -> Option<crate::DhFuture> {
        self.handshake.agree_async()
    }

    #[cfg(any(feature = "tokio", feature = "futures-io"))]
    pub(crate) fn answer_later(&mut self, dh_result: &[u8; 32]) -> Result<(), Error> {
        self.handshake.answer_later(dh_result)
    }

    #[cfg(feature = "std")]
    pub(crate) fn flushes(&self) -> bool {
        self.handshake.flushes()
    }

    // What is to be sent, and whether it is the last message.
    #[cfg(feature = "std")]
    pub(crate) fn outgoing(&self) -> &[u8] {
        self.outgoing.rest()
    }

    #[cfg(feature = "std")]
    pub(crate) fn is_last(&self) -> bool {
        self.handshake.is_done()
    }

    // Room for what comes, and how many bytes of it came.
    #[cfg(feature = "std")]
    pub(crate) fn room(&mut self) -> &mut [u8] {
        self.incoming.room()
    }

    #[cfg(feature = "std")]
    pub(crate) fn came(&mut self, count: usize) {
        self.incoming.came(count);
        self.wanted = self.wanted.saturating_sub(count);
    }

    #[cfg(feature = "std")]
    pub(crate) fn peer(&self) -> Peer {
        self.peer
    }
}

impl<S: Dh, E: Ephemeral> fmt::Debug for Connecting<S, E> {
    fn fmt(&self, f: &mut fmt::Formatter<'_>) -> fmt::Result {
        f.debug_struct("Connecting")
            .field("handshake", &self.handshake)
            .field("peer", &self.peer)
            .finish_non_exhaustive()
    }
}

use crate::handshake::Options;
use crate::header::{MAX_PSKS, OK};
use crate::pattern::with_name;
use crate::raw::{self, Key, Setup, Stage};
#[cfg(any(feature = "x25519", feature = "openssl"))]
use crate::KeyPair;
use crate::{Dh, Ephemeral, Error, Handshake, NoKey, Pattern};
use core::fmt;

/// What a handshake starts from.
///
#[cfg_attr(any(feature = "x25519", feature = "openssl"), doc = "```")]
#[cfg_attr(not(any(feature = "x25519", feature = "openssl")), doc = "```ignore")]
/// # fn main() -> Result<(), yulimosar::Error> {
/// use yulimosar::{Builder, KeyPair};
///
/// let secret = [7; 32]; // shared by both parties
/// let handshake = Builder::new("XXpsk3")
///     .prologue(b"chat 1")
///     .static_key(KeyPair::generate()?)
///     .psk(&secret)
///     .interval(1000)
///     .initiator()?;
/// assert!(handshake.writes_next());
/// # Ok(()) }
/// ```
#[must_use = "it does nothing until `initiator` or `responder` is called"]
pub struct Builder<'a, S: Dh = NoKey> {
    pattern: &'a str,
    prologue: &'a [u8],
    static_key: Option<S>,
    remote_static: Option<[u8; 32]>,
    psks: [Option<&'a [u8; 32]>; MAX_PSKS],
    psk_count: usize,
    late_psks: bool,
    options: Options,
}

impl<'a> Builder<'a, NoKey> {
    /// A handshake of this pattern: a protocol name, as `Noise_XX_25519_ChaChaPoly_SHA256`; the name of a pattern
    /// alone, as `XXpsk3`; or the text of your own pattern, whose last byte is a line feed.
    pub fn new(pattern: &'a str) -> Self {
        Builder {
            pattern,
            prologue: &[],
            static_key: None,
            remote_static: None,
            psks: [None; MAX_PSKS],
            psk_count: 0,
            late_psks: false,
            options: Options::default(),
        }
    }
}

impl<'a, S: Dh> Builder<'a, S> {
    /// What the parties have agreed on before, at most 65535 bytes: the same bytes at both.
    pub fn prologue(mut self, prologue: &'a [u8]) -> Self {
        self.prologue = prologue;
        self
    }

    /// This party's static key pair. A pattern in which this party has none, as NN, doesn't use it, and
    /// that is no error: the channel then says nothing of this key. A reference, as `&key`, stays in the
    /// type of a [`HandshakeError`](crate::HandshakeError), which `?` then doesn't turn into a `Box<dyn
    /// Error>`: pass a clone of the key pair.
    pub fn static_key<T: Dh>(self, key: T) -> Builder<'a, T> {
        let Builder { pattern, prologue, static_key: _, remote_static, psks, psk_count, late_psks, options } = self;
        Builder { pattern, prologue, static_key: Some(key), remote_static, psks, psk_count, late_psks, options }
    }

    /// The other party's static key, if the pattern needs it beforehand, as the responder's in IK.
    pub fn remote_static(mut self, key: &[u8; 32]) -> Self {
        self.remote_static = Some(*key);
        self
    }

    /// The secret of the next psk token.
    pub fn psk(mut self, secret: &'a [u8; 32]) -> Self {
        if let Some(place) = self.psks.get_mut(self.psk_count) {
            *place = Some(secret);
        }
        self.psk_count += 1;
        self
    }

    /// The secrets of the psk tokens for which `psk` gives none come when their tokens do, chosen by the other party's
    /// static key: by [`Stream::with_psk_for`](crate::Stream::with_psk_for),
    /// [`Connecting::set_psk`](crate::Connecting::set_psk) or [`Handshake::set_psk`].
    pub fn late_psks(mut self) -> Self {
        self.late_psks = true;
        self
    }

    /// The number of messages after which each direction of a stream or a transport is rekeyed (Noise, 11.3); 0, the
    /// default, is never. The same at both parties: with another number the handshake passes, and the first message
    /// after one party's rekey is refused with `Tag`. Datagrams and cipher states aren't rekeyed by it.
    pub fn interval(mut self, messages: u64) -> Self {
        self.options.interval = messages;
        self
    }

    /// `Stream::new`, `AsyncStream::new` and their like send the last message of the handshake, where this party writes
    /// it, before they return. Without this it leaves with what is written first, by `flush`, or before the first read
    /// that may wait; until then the other party waits.
    pub fn flush_handshake(mut self) -> Self {
        self.options.flushes = true;
        self
    }

    /// The most bytes of a handshake message that `Connecting` accepts, and so `Stream` and `AsyncStream`; 8192 at
    /// first. A longer one is refused with `TooLong` as soon as its length has come.
    pub fn max_handshake_message(mut self, len: usize) -> Self {
        self.options.max_message = len;
        self
    }

    /// Starts as the initiator, which writes the first message, with a new ephemeral key pair: a [`KeyPair`].
    ///
    /// # Errors
    ///
    /// What is wrong or missing, as `Name`, `StaticMissing`, `RemoteMissing` or `PskCount`; `KeyPair` if no pair is
    /// drawn.
    #[cfg(any(feature = "x25519", feature = "openssl"))]
    pub fn initiator(self) -> Result<Handshake<S, KeyPair>, Error> {
        self.begin(0)
    }

    /// Starts as the responder, with a new ephemeral key pair: a [`KeyPair`].
    ///
    /// # Errors
    ///
    /// As `initiator`.
    #[cfg(any(feature = "x25519", feature = "openssl"))]
    pub fn responder(self) -> Result<Handshake<S, KeyPair>, Error> {
        self.begin(1)
    }

    /// Starts as the initiator, with a new ephemeral key pair of your own type.
    ///
    /// # Errors
    ///
    /// What is wrong or missing, as `Name`, `StaticMissing`, `RemoteMissing` or `PskCount`; `KeyPair` if no pair is
    /// drawn.
    pub fn initiator_with<E: Ephemeral>(self) -> Result<Handshake<S, E>, Error> {
        self.begin(0)
    }

    /// Starts as the responder, with a new ephemeral key pair of your own type.
    ///
    /// # Errors
    ///
    /// As `initiator_with`.
    pub fn responder_with<E: Ephemeral>(self) -> Result<Handshake<S, E>, Error> {
        self.begin(1)
    }

    fn begin<E: Ephemeral>(self, responder: u8) -> Result<Handshake<S, E>, Error> {
        let pattern = Pattern::of_handshake(self.pattern)?;
        // Where psks are late, one at least has to lack.
        if self.psk_count > pattern.psks() || (self.psk_count < pattern.psks()) != self.late_psks {
            return Err(Error::PskCount);
        }
        let ephemeral = E::draw()?;
        let mut setup = Setup::new(responder, Key::of(Some(ephemeral.public())));
        setup.s = Key::of(self.static_key.as_ref().map(|key| key.public()));
        setup.remote_s = Key::of(self.remote_static);
        setup.psk_count = self.psk_count as u8;
        for (place, psk) in setup.psks.iter_mut().zip(self.psks.iter().flatten()) {
            place.copy_from_slice(&psk[..]);
        }
        let mut memory = raw::Handshake::new();
        match with_name(self.pattern, |name| memory.start(name, self.prologue, &setup)) {
            OK => {
                let options = Options {
                    lacking_psks: pattern.psks() - self.psk_count,
                    other_has_static: pattern.keys(1 - responder).static_key,
                    is_silent: pattern.is_one_way() && responder == 0,
                    ..self.options
                };
                let stage = Stage::first(pattern.messages(), responder);
                Ok(Handshake::begun(memory, stage, self.static_key, ephemeral, options))
            }
            code => Err(Error::of(code, None)),
        }
    }
}

impl<S: Dh> fmt::Debug for Builder<'_, S> {
    fn fmt(&self, f: &mut fmt::Formatter<'_>) -> fmt::Result {
        f.debug_struct("Builder")
            .field("pattern", &self.pattern)
            .field("remote_static", &self.remote_static)
            .finish_non_exhaustive()
    }
}

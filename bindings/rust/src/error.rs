use crate::{header, DhError};
use core::fmt;

/// Why a call did nothing.
///
#[cfg_attr(any(feature = "x25519", feature = "openssl"), doc = "```")]
#[cfg_attr(not(any(feature = "x25519", feature = "openssl")), doc = "```ignore")]
/// use yulimosar::{Builder, Error};
///
/// let error = Builder::new("XX").initiator().err().unwrap();
/// assert_eq!(error, Error::StaticMissing);
/// assert_eq!(error.to_string(), "the pattern needs a static key of this party: Builder::static_key");
/// ```
#[derive(Debug, Clone, PartialEq, Eq)]
#[non_exhaustive]
pub enum Error {
    /// Not the name of a fundamental pattern with 25519, ChaChaPoly and SHA256.
    Name,
    /// The pattern text has a fault, or the pattern isn't valid.
    Pattern,
    /// The pattern needs a static key of this party: `Builder::static_key`.
    StaticMissing,
    /// The pattern needs the other party's static key beforehand: `Builder::remote_static`.
    RemoteMissing,
    /// The other party's static key isn't in a pre-message of the pattern.
    RemoteUnexpected,
    /// The number of secrets isn't the number of psk tokens: `Builder::psk`,
    /// `Builder::late_psks`, `Handshake::set_psk`.
    PskCount,
    /// The message that is due needs the secret of a psk token: pass it to `Handshake::set_psk`, and
    /// make the same call again.
    WantedPsk {
        /// The other party's static key, if it is known. It hasn't shown yet that it has the secret key.
        remote_static: Option<[u8; 32]>,
    },
    /// It is the other party's turn.
    NotYourTurn,
    /// The message would be too long, or is.
    TooLong,
    /// All messages of the handshake have passed.
    Done,
    /// A refused message has ended the handshake.
    Ended,
    /// The message is too short. In a handshake the token, from 0 on, is where it was refused, and
    /// the handshake has ended.
    Short {
        /// The token, in a handshake.
        token: Option<u8>,
    },
    /// A tag is wrong: the parties differ in something, or the message was changed. In a handshake the token, from 0
    /// on, is where, and the handshake has ended.
    Tag {
        /// The token, in a handshake.
        token: Option<u8>,
    },
    /// This key encrypts and decrypts no more messages.
    Exhausted,
    /// The buffer is too short for the message.
    Room,
    /// Messages of the handshake are still due.
    NotDone,
    /// The pattern is one-way, and this is the other direction.
    OneWay,
    /// The window isn't 64, 256 or 1024.
    Window,
    /// The datagram has the reserved nonce.
    Reserved,
    /// The datagram is older than the window.
    Old,
    /// A datagram with this nonce was opened before.
    Repeated,
    /// A key pair couldn't be drawn or read, or X25519 by it failed: the cause is the `source` of this error.
    KeyPair(DhError),
    /// X25519 of the other party's public key gives zeros (Noise, 12.1).
    Zeros,
    /// The program refused the other party's static key, or the handshake has none.
    Refused,
    /// The connection ended before the stream did: what was read isn't all that the other party has written. In a
    /// handshake: before its last message, as where the other party has refused something.
    Cut,
    /// This party has ended its stream.
    Closed,
    /// The channel is over: a message was refused, or the connection was lost. Nothing more is sent.
    Aborted,
    /// The time of a `Deadline` has passed: the handshake has failed.
    Deadline,
    /// The linked library has another version or other sizes than this crate.
    Version,
    /// A code that the library doesn't return to this crate.
    Library(u32),
}

impl Error {
    #[cold]
    pub(crate) fn of(code: u32, token: Option<u8>) -> Error {
        match code {
            header::NAME => Error::Name,
            header::PATTERN => Error::Pattern,
            header::STATIC_MISSING => Error::StaticMissing,
            header::REMOTE_MISSING => Error::RemoteMissing,
            header::REMOTE_UNEXPECTED => Error::RemoteUnexpected,
            header::PSK_COUNT => Error::PskCount,
            header::NOT_YOUR_TURN => Error::NotYourTurn,
            header::TOO_LONG | header::LENGTH => Error::TooLong,
            header::DONE => Error::Done,
            header::ENDED => Error::Ended,
            header::SHORT => Error::Short { token },
            header::TAG => Error::Tag { token },
            header::EXHAUSTED => Error::Exhausted,
            header::ROOM => Error::Room,
            header::NOT_DONE => Error::NotDone,
            header::ONE_WAY => Error::OneWay,
            header::WINDOW => Error::Window,
            header::RESERVED => Error::Reserved,
            header::OLD => Error::Old,
            header::REPEATED => Error::Repeated,
            header::CUT => Error::Cut,
            header::CLOSED => Error::Closed,
            _ => Error::Library(code),
        }
    }
}

impl fmt::Display for Error {
    fn fmt(&self, f: &mut fmt::Formatter<'_>) -> fmt::Result {
        let text = match self {
            Error::Name => "not the name of a fundamental pattern with 25519, ChaChaPoly and SHA256",
            Error::Pattern => "the pattern text has a fault, or the pattern isn't valid",
            Error::StaticMissing => "the pattern needs a static key of this party: Builder::static_key",
            Error::RemoteMissing => "the pattern needs the other party's static key beforehand: Builder::remote_static",
            Error::RemoteUnexpected => {
                "the other party's static key isn't in a pre-message of the pattern: Builder::remote_static"
            }
            Error::PskCount => "the number of secrets isn't the number of psk tokens: Builder::psk, Builder::late_psks",
            Error::WantedPsk { .. } => "the message needs the secret of a psk token: Handshake::set_psk",
            Error::NotYourTurn => "it is the other party's turn",
            Error::TooLong => "the message would be too long, or is",
            Error::Done => "all messages of the handshake have passed",
            Error::Ended => "a refused message has ended the handshake",
            Error::Short { .. } => "the message is too short",
            Error::Tag { .. } => "a tag is wrong: the parties differ in something, or the message was changed",
            Error::Exhausted => "this key encrypts and decrypts no more messages",
            Error::Room => "the buffer is too short for the message",
            Error::NotDone => "messages of the handshake are still due",
            Error::OneWay => "the pattern is one-way, and this is the other direction",
            Error::Window => "the window isn't 64, 256 or 1024",
            Error::Reserved => "the datagram has the reserved nonce",
            Error::Old => "the datagram is older than the window",
            Error::Repeated => "a datagram with this nonce was opened before",
            Error::KeyPair(_) => "a key pair couldn't be drawn or read, or X25519 by it failed",
            Error::Zeros => "X25519 of the other party's public key gives zeros",
            Error::Refused => "the other party's static key isn't accepted",
            Error::Cut => "the connection ended during the handshake, or before the other party had ended its stream",
            Error::Closed => "the stream was ended before",
            Error::Aborted => "the channel is over: a message was refused, or the connection was lost",
            Error::Deadline => "the deadline has passed",
            Error::Version => "the linked library has another version or other sizes than this crate",
            Error::Library(code) => return write!(f, "code {code} of the library"),
        };
        match self {
            Error::Short { token: Some(token) } | Error::Tag { token: Some(token) } => {
                write!(f, "{text} (token {token}, from 0 on)")
            }
            _ => f.write_str(text),
        }
    }
}

#[cfg(feature = "std")]
impl Error {
    // What it is as an `io::Error`.
    fn kind(&self) -> std::io::ErrorKind {
        use std::io::ErrorKind;
        match self {
            Error::Short { .. } | Error::Tag { .. } | Error::TooLong => ErrorKind::InvalidData,
            Error::Reserved | Error::Old | Error::Repeated | Error::Zeros => ErrorKind::InvalidData,
            Error::Name | Error::Pattern | Error::Window | Error::Room => ErrorKind::InvalidInput,
            Error::StaticMissing | Error::RemoteMissing | Error::RemoteUnexpected => ErrorKind::InvalidInput,
            Error::PskCount | Error::WantedPsk { .. } => ErrorKind::InvalidInput,
            Error::NotYourTurn | Error::Done | Error::Ended | Error::NotDone => ErrorKind::InvalidInput,
            Error::Refused => ErrorKind::PermissionDenied,
            Error::OneWay | Error::Version => ErrorKind::Unsupported,
            Error::Cut => ErrorKind::UnexpectedEof,
            Error::Deadline => ErrorKind::TimedOut,
            Error::Closed => ErrorKind::BrokenPipe,
            Error::Aborted => ErrorKind::ConnectionAborted,
            Error::KeyPair(cause) if cause.is_later() => ErrorKind::WouldBlock,
            Error::Exhausted | Error::KeyPair(_) | Error::Library(_) => ErrorKind::Other,
        }
    }
}

impl From<DhError> for Error {
    fn from(cause: DhError) -> Error {
        Error::KeyPair(cause)
    }
}

#[cfg(feature = "std")]
impl std::error::Error for Error {
    fn source(&self) -> Option<&(dyn std::error::Error + 'static)> {
        match self {
            Error::KeyPair(cause) => Some(cause.cause()),
            _ => None,
        }
    }
}

#[cfg(feature = "std")]
impl From<Error> for std::io::Error {
    fn from(error: Error) -> std::io::Error {
        std::io::Error::new(error.kind(), error)
    }
}

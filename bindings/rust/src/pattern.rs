use crate::header::{NAME, OK};
use crate::raw::{self, Needed, PatternInfo};
use crate::Error;
use core::fmt;

/// What a valid pattern has, as the library says.
///
/// ```
/// use yulimosar::{Error, Pattern};
///
/// let pattern = Pattern::new("IKpsk2")?;
/// assert_eq!((pattern.messages(), pattern.psks(), pattern.is_one_way()), (2, 1, false));
/// assert!(pattern.initiator().static_key && pattern.initiator().remote_static);
/// assert!(pattern.responder().static_key && !pattern.responder().remote_static);
/// assert_eq!(Pattern::new("IL").err(), Some(Error::Name));
/// assert_eq!(Pattern::new("NN1:\n  -> ee\n").err(), Some(Error::Pattern));
/// # Ok::<(), Error>(())
/// ```
#[derive(Clone)]
pub struct Pattern(PatternInfo);

/// Which keys a party brings to a handshake.
#[derive(Clone, Copy, Debug, PartialEq, Eq)]
#[non_exhaustive]
pub struct Keys {
    /// Its ephemeral key pair, which a builder draws.
    pub ephemeral: bool,
    /// Its static key pair: `Builder::static_key`.
    pub static_key: bool,
    /// The other party's static key: `Builder::remote_static`.
    pub remote_static: bool,
}

impl Pattern {
    /// The pattern of this name or text, as [`Builder::new`](crate::Builder::new) takes it.
    ///
    /// # Errors
    ///
    /// `Name` of a name, and `Pattern` of a text, that isn't valid; `Version` where the library has another one.
    pub fn new(pattern: &str) -> Result<Pattern, Error> {
        if !raw::is_library() {
            return Err(Error::Version);
        }
        let mut info = PatternInfo::default();
        match with_name(pattern, |name| info.read(name)) {
            OK => Ok(Pattern(info)),
            NAME => Err(Error::Name),
            _ => Err(Error::Pattern),
        }
    }

    // The same for a handshake. A program begins most of its handshakes by one pattern: with std each thread keeps the
    // last, of which the library isn't asked again.
    pub(crate) fn of_handshake(pattern: &str) -> Result<Pattern, Error> {
        #[cfg(feature = "std")]
        if let Some(kept) = kept::get(pattern) {
            return Ok(kept);
        }
        let asked = Pattern::new(pattern)?;
        #[cfg(feature = "std")]
        kept::set(pattern, &asked);
        Ok(asked)
    }

    /// How many messages the handshake has, 1 to 8. The initiator writes the first; then the parties take turns.
    #[must_use]
    pub fn messages(&self) -> usize {
        self.0.messages.into()
    }

    /// Whether it has one message alone, after which only the initiator sends (Noise, 7.4).
    #[must_use]
    pub fn is_one_way(&self) -> bool {
        self.0.one_way != 0
    }

    /// How many psk tokens it has.
    #[must_use]
    pub fn psks(&self) -> usize {
        self.0.psks.into()
    }

    /// What the initiator brings.
    #[must_use]
    pub fn initiator(&self) -> Keys {
        self.keys(0)
    }

    /// What the responder brings.
    #[must_use]
    pub fn responder(&self) -> Keys {
        self.keys(1)
    }

    pub(crate) fn keys(&self, responder: u8) -> Keys {
        let Needed { e, s, remote_s, .. } = self.0.needed[usize::from(responder)];
        Keys { ephemeral: e != 0, static_key: s != 0, remote_static: remote_s != 0 }
    }
}

impl fmt::Debug for Pattern {
    fn fmt(&self, f: &mut fmt::Formatter<'_>) -> fmt::Result {
        f.debug_struct("Pattern")
            .field("messages", &self.messages())
            .field("psks", &self.psks())
            .finish_non_exhaustive()
    }
}

// The last pattern of this thread's handshakes; of a thread that ends there is none.
#[cfg(feature = "std")]
mod kept {
    use super::Pattern;
    use std::cell::RefCell;

    std::thread_local! {
        static LAST: RefCell<Option<(String, Pattern)>> = RefCell::new(None);
    }

    pub(super) fn get(text: &str) -> Option<Pattern> {
        let of_text = |last: &RefCell<Option<(String, Pattern)>>| match &*last.borrow() {
            Some((kept, pattern)) if kept == text => Some(pattern.clone()),
            _ => None,
        };
        LAST.try_with(of_text).ok().flatten()
    }

    pub(super) fn set(text: &str, pattern: &Pattern) {
        let _ = LAST.try_with(|last| *last.borrow_mut() = Some((text.into(), pattern.clone())));
    }
}

const SUITE: &[u8] = b"_25519_ChaChaPoly_SHA256";

// Passes on the protocol name of a pattern's name; a text and a protocol name as they are.
pub(crate) fn with_name<R>(pattern: &str, call: impl FnOnce(&[u8]) -> R) -> R {
    if pattern.ends_with('\n') || pattern.starts_with("Noise_") {
        return call(pattern.as_bytes());
    }
    // The library knows no name that is longer than this.
    let mut name = [0; 128];
    let mut len = 0;
    for part in [b"Noise_", pattern.as_bytes(), SUITE] {
        let end = (len + part.len()).min(name.len());
        name[len..end].copy_from_slice(&part[..end - len]);
        len = end;
    }
    call(&name[..len])
}

#[cfg(all(test, feature = "std", any(feature = "x25519", feature = "openssl")))]
mod tests {
    use crate::raw::ASKED;
    use crate::{Builder, Error, KeyPair};

    #[test]
    fn the_library_is_asked_of_a_pattern_once() {
        let begin = |pattern: &str| {
            let begun = Builder::new(pattern).static_key(KeyPair::generate().unwrap()).responder();
            begun.map(|handshake| (handshake.lacks_psk(), ASKED.with(|asked| asked.take())))
        };
        assert_eq!(begin("XX"), Ok((false, 1)));
        assert_eq!(begin("XX"), Ok((false, 0)));
        assert_eq!(begin("IK"), Ok((false, 1)));
        assert_eq!(begin("IL"), Err(Error::Name));
        assert_eq!(begin("IK"), Ok((false, 1))); // of "IL": "IK" is kept
        assert_eq!(begin("XXpsk3"), Err(Error::PskCount));
        assert_eq!(begin("XXpsk3"), Err(Error::PskCount));
    }
}

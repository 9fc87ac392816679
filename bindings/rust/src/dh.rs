use core::fmt;
#[cfg(feature = "std")]
use std::{
    future::{ready, Future},
    pin::Pin,
};

/// The future of an X25519 result: see [`Dh::agree_async`].
#[cfg(feature = "std")]
pub type DhFuture = Pin<Box<dyn Future<Output = Result<[u8; 32], DhError>> + Send>>;

/// A key pair of X25519. The secret key may be in a device: nothing but the public key and results of X25519 is asked
/// of it.
///
/// ```
/// use yulimosar::{Dh, DhError, Ephemeral};
/// # struct Token;
/// # impl Token {
/// #     fn public_key(&self) -> [u8; 32] { [1; 32] }
/// #     fn x25519(&self, _: &[u8; 32]) -> Result<[u8; 32], &'static str> { Err("the token was pulled out") }
/// # }
///
/// struct InToken(Token); // a device that computes X25519
///
/// impl Dh for InToken {
///     fn public(&self) -> [u8; 32] {
///         self.0.public_key()
///     }
///
///     fn agree(&self, remote: &[u8; 32]) -> Result<[u8; 32], DhError> {
///         self.0.x25519(remote).map_err(DhError::new)
///     }
/// }
/// # assert_eq!(InToken(Token).agree(&[2; 32]).unwrap_err().to_string(), "the token was pulled out");
/// ```
pub trait Dh {
    /// The public key.
    fn public(&self) -> [u8; 32];
    /// X25519 of the secret key and this public key of the other party. The caller refuses zeros (Noise, 12.1).
    ///
    /// # Errors
    ///
    /// What the key pair says. With [`DhError::later`] the handshake goes on when it is asked again.
    fn agree(&self, remote: &[u8; 32]) -> Result<[u8; 32], DhError>;

    /// The same result later, for `AsyncStream`, where `agree` has said [`DhError::later`]. [`Agent`] has it of a
    /// closure.
    #[cfg(feature = "std")]
    fn agree_async(&self, remote: &[u8; 32]) -> DhFuture {
        Box::pin(ready(self.agree(remote)))
    }
}

/// A key pair whose secret key is in an agent: another process, a device or a service, which is asked for X25519
/// and answers later. `AsyncStream` waits for the future of the closure. The closure gets the other party's public key;
/// a result of zeros is refused.
///
#[cfg_attr(all(feature = "tokio", any(feature = "x25519", feature = "openssl")), doc = "```")]
#[cfg_attr(not(all(feature = "tokio", any(feature = "x25519", feature = "openssl"))), doc = "```ignore")]
/// # #[tokio::main(flavor = "current_thread")]
/// # async fn main() -> std::io::Result<()> {
/// use tokio::io::duplex;
/// use tokio::sync::{mpsc, oneshot};
/// use yulimosar::{Agent, AsyncStream, Builder, Dh, DhError, KeyPair};
///
/// // The agent: a task that has the secret key.
/// let (key, client) = (KeyPair::generate()?, KeyPair::generate()?);
/// let public = *key.public_key();
/// let (asks, mut asked) = mpsc::channel::<([u8; 32], oneshot::Sender<_>)>(8);
/// tokio::spawn(async move {
///     while let Some((remote, answers)) = asked.recv().await {
///         let _ = answers.send(key.agree(&remote));
///     }
/// });
///
/// let server = Agent::new(public, move |remote| {
///     let asks = asks.clone();
///     async move {
///         let (answers, answer) = oneshot::channel();
///         asks.send((remote, answers)).await.map_err(|_| DhError::new("the agent has gone"))?;
///         answer.await.map_err(DhError::new)?
///     }
/// });
/// let (here, there) = duplex(100);
/// let handshake = Builder::new("NK").static_key(server).flush_handshake().responder()?;
/// let server = AsyncStream::anonymous(there, handshake);
/// let handshake = Builder::new("NK").remote_static(&public).initiator()?;
/// let client = AsyncStream::new(here, handshake, |key| async move { key == public });
/// let (client, server) = tokio::try_join!(client, server)?;
/// assert_eq!(client.hash(), server.hash());
/// # Ok(()) }
/// ```
#[cfg(feature = "std")]
#[derive(Clone)]
pub struct Agent<F> {
    public: [u8; 32],
    agree: F,
}

#[cfg(feature = "std")]
impl<F, A> Agent<F>
where
    F: Fn([u8; 32]) -> A,
    A: Future<Output = Result<[u8; 32], DhError>> + Send + 'static,
{
    /// The key pair with this public key, and how its agent is asked.
    pub fn new(public: [u8; 32], agree: F) -> Agent<F> {
        Agent { public, agree }
    }
}

#[cfg(feature = "std")]
impl<F, A> Dh for Agent<F>
where
    F: Fn([u8; 32]) -> A,
    A: Future<Output = Result<[u8; 32], DhError>> + Send + 'static,
{
    fn public(&self) -> [u8; 32] {
        self.public
    }

    fn agree(&self, _: &[u8; 32]) -> Result<[u8; 32], DhError> {
        Err(DhError::later())
    }

    fn agree_async(&self, remote: &[u8; 32]) -> DhFuture {
        Box::pin((self.agree)(*remote))
    }
}

#[cfg(feature = "std")]
impl<F> fmt::Debug for Agent<F> {
    fn fmt(&self, f: &mut fmt::Formatter<'_>) -> fmt::Result {
        f.debug_struct("Agent").field("public", &self.public).finish_non_exhaustive()
    }
}

macro_rules! by_what_it_leads_to {
    ($($(#[$attribute:meta])* $pointer:ty;)*) => {
        $(
            $(#[$attribute])*
            impl<T: Dh + ?Sized> Dh for $pointer {
                fn public(&self) -> [u8; 32] {
                    (**self).public()
                }

                fn agree(&self, remote: &[u8; 32]) -> Result<[u8; 32], DhError> {
                    (**self).agree(remote)
                }

                #[cfg(feature = "std")]
                fn agree_async(&self, remote: &[u8; 32]) -> DhFuture {
                    (**self).agree_async(remote)
                }
            }
        )*
    };
}

by_what_it_leads_to! {
    &T;
    #[cfg(feature = "alloc")]
    alloc::boxed::Box<T>;
    #[cfg(feature = "alloc")]
    alloc::rc::Rc<T>;
    #[cfg(feature = "alloc")]
    alloc::sync::Arc<T>;
}

/// A key pair that can be drawn: each handshake draws a new ephemeral one.
pub trait Ephemeral: Dh + Sized {
    /// Draws a new key pair.
    ///
    /// # Errors
    ///
    /// What the key pair says, as that there are no random bytes.
    fn draw() -> Result<Self, DhError>;
}

/// The type of the static key pair of a party without one.
#[derive(Debug)]
pub enum NoKey {}

impl Dh for NoKey {
    fn public(&self) -> [u8; 32] {
        match *self {}
    }

    fn agree(&self, _: &[u8; 32]) -> Result<[u8; 32], DhError> {
        match *self {}
    }
}

#[cfg(feature = "std")]
type Cause = std::sync::Arc<dyn std::error::Error + Send + Sync>;
#[cfg(not(feature = "std"))]
type Cause = &'static str;

/// Why a key pair couldn't be drawn or read, or X25519 by it failed: what the [`Dh`] says. It is in
/// [`Error::KeyPair`](crate::Error::KeyPair), whose `source` is the cause.
///
/// ```
/// use yulimosar::DhError;
///
/// assert_eq!(DhError::new("the device is busy").to_string(), "the device is busy");
/// ```
#[derive(Clone)]
pub struct DhError(Cause);

const LATER: &str = "the result of X25519 isn't there yet";

#[cfg(feature = "std")]
#[derive(Debug)]
struct Later;

#[cfg(feature = "std")]
impl fmt::Display for Later {
    fn fmt(&self, f: &mut fmt::Formatter<'_>) -> fmt::Result {
        f.write_str(LATER)
    }
}

#[cfg(feature = "std")]
impl std::error::Error for Later {}

impl DhError {
    /// The result isn't there yet, and nothing has failed: `agree` is to be called again. `AsyncStream` waits for
    /// [`Dh::agree_async`]. `Stream::new` returns `HandshakeError::Interrupted`, whose `resume` calls `agree` again.
    /// `Connecting::step`, and `read` and `write` of a `Handshake`, return this error, change nothing, and are called
    /// again.
    #[must_use]
    pub fn later() -> DhError {
        #[cfg(feature = "std")]
        return DhError::new(Later);
        #[cfg(not(feature = "std"))]
        return DhError::new(LATER);
    }

    /// Whether it is [`DhError::later`].
    #[must_use]
    pub fn is_later(&self) -> bool {
        #[cfg(feature = "std")]
        return self.0.is::<Later>();
        #[cfg(not(feature = "std"))]
        return self.0 == LATER;
    }

    /// The error with this cause.
    #[cfg(feature = "std")]
    pub fn new(cause: impl Into<Box<dyn std::error::Error + Send + Sync>>) -> DhError {
        DhError(cause.into().into())
    }

    /// The error with this text; with the feature `std` any error is taken.
    #[cfg(not(feature = "std"))]
    #[must_use]
    pub fn new(cause: &'static str) -> DhError {
        DhError(cause)
    }

    #[cfg(feature = "std")]
    pub(crate) fn cause(&self) -> &(dyn std::error::Error + 'static) {
        &*self.0
    }
}

impl fmt::Display for DhError {
    fn fmt(&self, f: &mut fmt::Formatter<'_>) -> fmt::Result {
        fmt::Display::fmt(&self.0, f)
    }
}

impl fmt::Debug for DhError {
    fn fmt(&self, f: &mut fmt::Formatter<'_>) -> fmt::Result {
        write!(f, "DhError({})", self.0)
    }
}

#[cfg(feature = "std")]
impl std::error::Error for DhError {
    fn source(&self) -> Option<&(dyn std::error::Error + 'static)> {
        self.0.source()
    }
}

impl PartialEq for DhError {
    fn eq(&self, other: &DhError) -> bool {
        #[cfg(feature = "std")]
        return self.to_string() == other.to_string();
        #[cfg(not(feature = "std"))]
        return self.0 == other.0;
    }
}

impl Eq for DhError {}

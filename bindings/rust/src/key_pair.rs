use crate::{Dh, DhError, Ephemeral, Error};
use core::fmt;
use secret::Secret;
use zeroize::Zeroizing;

#[cfg(feature = "openssl")]
#[path = "key_pair/by_openssl.rs"]
mod secret;
#[cfg(not(feature = "openssl"))]
#[path = "key_pair/own.rs"]
mod secret;

/// A key pair of X25519, by this crate (feature `x25519`) or, with the feature `openssl`, by OpenSSL. A clone shares
/// the secret key, and copies nothing of it.
///
/// ```
/// # fn main() -> Result<(), Box<dyn std::error::Error>> {
/// use yulimosar::{Dh, KeyPair};
///
/// let (one, two) = (KeyPair::generate()?, KeyPair::generate()?);
/// assert_eq!(one.agree(two.public_key())?, two.agree(one.public_key())?);
/// let again = KeyPair::from_secret(&*one.secret_key()?)?;
/// assert_eq!(again.public_key(), one.public_key());
/// # Ok(()) }
/// ```
#[derive(Clone)]
pub struct KeyPair {
    secret: Secret,
    public: [u8; 32],
}

impl KeyPair {
    /// Draws a new key pair, from the random bytes of the system.
    ///
    /// # Errors
    ///
    /// `KeyPair`: the system has given no random bytes, or OpenSSL has failed.
    pub fn generate() -> Result<KeyPair, Error> {
        Ok(KeyPair::draw()?)
    }

    /// The key pair of this secret key.
    ///
    /// # Errors
    ///
    /// `KeyPair`: OpenSSL has failed.
    pub fn from_secret(secret: &[u8; 32]) -> Result<KeyPair, Error> {
        Ok(KeyPair::of(Secret::of(secret)?)?)
    }

    fn of(secret: Secret) -> Result<KeyPair, DhError> {
        let public = secret.public()?;
        Ok(KeyPair { secret, public })
    }

    /// The public key.
    #[must_use]
    pub fn public_key(&self) -> &[u8; 32] {
        &self.public
    }

    /// The secret key: keep it from others. It is overwritten when it is dropped.
    ///
    /// # Errors
    ///
    /// `KeyPair`: OpenSSL has failed.
    pub fn secret_key(&self) -> Result<Zeroizing<[u8; 32]>, Error> {
        Ok(self.secret.bytes()?)
    }
}

impl Dh for KeyPair {
    fn public(&self) -> [u8; 32] {
        self.public
    }

    fn agree(&self, remote: &[u8; 32]) -> Result<[u8; 32], DhError> {
        self.secret.agree(remote)
    }
}

impl Ephemeral for KeyPair {
    fn draw() -> Result<KeyPair, DhError> {
        KeyPair::of(Secret::draw()?)
    }
}

impl fmt::Debug for KeyPair {
    fn fmt(&self, f: &mut fmt::Formatter<'_>) -> fmt::Result {
        f.debug_struct("KeyPair").field("public_key", &self.public).finish_non_exhaustive()
    }
}

use crate::header::OK;
use crate::raw::{CallResult, Cipher, Held};
use crate::Error;
use core::fmt;

/// The CipherState (Noise, 5.1) by which this party encrypts what it sends, for a protocol whose packets have
/// associated data, name their nonces or have a form of their own.
/// [`Handshake::finish_ciphers`](crate::Handshake::finish_ciphers) makes it.
///
#[cfg_attr(any(feature = "x25519", feature = "openssl"), doc = "```")]
#[cfg_attr(not(any(feature = "x25519", feature = "openssl")), doc = "```ignore")]
/// # fn main() -> Result<(), yulimosar::Error> {
/// use yulimosar::{Builder, Error, TAG_LEN};
///
/// let mut client = Builder::new("NN").initiator()?;
/// let mut server = Builder::new("NN").responder()?;
/// let mut message = [0; 100];
/// let len = client.write(b"", &mut message)?;
/// server.read(&mut message[..len])?;
/// let len = server.write(b"", &mut message)?;
/// client.read(&mut message[..len])?;
///
/// let ((mut sends, _), (_, mut receives)) = (client.finish_ciphers()?, server.finish_ciphers()?);
/// let mut packet = *b"hello----------------";
/// assert_eq!(sends.encrypt(b"header", &mut packet, 5)?, 5 + TAG_LEN);
/// assert_eq!(receives.decrypt(b"another", &mut packet), Err(Error::Tag { token: None }));
/// assert_eq!(receives.decrypt(b"header", &mut packet)?, b"hello");
/// # Ok(()) }
/// ```
#[doc(alias = "CipherState")]
pub struct SendCipherState(pub(crate) Held<Cipher>);

/// The CipherState (Noise, 5.1) by which this party decrypts what it receives. [`SendCipherState`] has an example.
#[doc(alias = "CipherState")]
pub struct ReceiveCipherState(pub(crate) Held<Cipher>);

fn done(code: u32) -> Result<(), Error> {
    match code {
        OK => Ok(()),
        code => Err(Error::of(code, None)),
    }
}

impl SendCipherState {
    /// EncryptWithAd, in place: the text is the first `text_len` bytes of `buffer`, at most 65519, and the message,
    /// whose length it returns, 16 bytes longer. Neither the data, of at most 65535 bytes, nor the nonce is in it. The
    /// next nonce is one greater; after an error nothing is changed.
    ///
    /// # Errors
    ///
    /// `Room`, `TooLong`, also of the data, `Exhausted` and `OneWay`.
    pub fn encrypt(&mut self, ad: &[u8], buffer: &mut [u8], text_len: usize) -> Result<usize, Error> {
        let mut result = CallResult::default();
        done(self.0.encrypt(ad, buffer, text_len, &mut result))?;
        Ok(result.len)
    }

    /// Sets the nonce of the next message (SetNonce: Noise, 11.4). **Never encrypt twice at one nonce**: whoever sees
    /// both messages learns how the texts differ, and can forge messages of that nonce.
    ///
    /// # Errors
    ///
    /// `OneWay`.
    pub fn set_nonce(&mut self, nonce: u64) -> Result<(), Error> {
        done(self.0.set_nonce(nonce))
    }
}

impl ReceiveCipherState {
    /// DecryptWithAd, in place: returns the text. The next nonce is one greater; after an error nothing is changed.
    ///
    /// # Errors
    ///
    /// `Short` and `Tag`; `TooLong`, also of the data, `Exhausted` and `OneWay`.
    pub fn decrypt<'m>(&mut self, ad: &[u8], message: &'m mut [u8]) -> Result<&'m mut [u8], Error> {
        let mut result = CallResult::default();
        done(self.0.decrypt(ad, message, &mut result))?;
        Ok(&mut message[result.from..result.from + result.len])
    }

    /// Sets the nonce of the next message (SetNonce: Noise, 11.4). Refuse one that was decrypted before.
    ///
    /// # Errors
    ///
    /// `OneWay`.
    pub fn set_nonce(&mut self, nonce: u64) -> Result<(), Error> {
        done(self.0.set_nonce(nonce))
    }
}

macro_rules! cipher_state {
    ($name:ident) => {
        impl $name {
            /// Replaces the key by the one that follows from it (Rekey: Noise, 11.3), and keeps the nonce.
            ///
            /// # Errors
            ///
            /// `OneWay`.
            pub fn rekey(&mut self) -> Result<(), Error> {
                done(self.0.rekey())
            }

            /// The nonce of the next message.
            #[must_use]
            pub fn nonce(&self) -> u64 {
                self.0.nonce()
            }
        }

        impl fmt::Debug for $name {
            fn fmt(&self, f: &mut fmt::Formatter<'_>) -> fmt::Result {
                f.debug_struct(stringify!($name)).field("nonce", &self.nonce()).finish_non_exhaustive()
            }
        }
    };
}

cipher_state!(SendCipherState);
cipher_state!(ReceiveCipherState);

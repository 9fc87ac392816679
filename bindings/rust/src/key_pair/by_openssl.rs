// Secret keys by OpenSSL.
use crate::raw::wipe;
use crate::DhError;
use openssl::derive::Deriver;
use openssl::error::ErrorStack;
use openssl::pkey::{Id, PKey, Private};
use zeroize::Zeroizing;

#[derive(Clone)]
pub(super) struct Secret(PKey<Private>);

impl Secret {
    pub(super) fn draw() -> Result<Secret, DhError> {
        PKey::generate_x25519().map(Secret).map_err(DhError::new)
    }

    pub(super) fn of(secret: &[u8; 32]) -> Result<Secret, DhError> {
        PKey::private_key_from_raw_bytes(secret, Id::X25519).map(Secret).map_err(DhError::new)
    }

    pub(super) fn public(&self) -> Result<[u8; 32], DhError> {
        let public = self.0.raw_public_key().map_err(DhError::new)?;
        public[..].try_into().map_err(DhError::new)
    }

    pub(super) fn agree(&self, remote: &[u8; 32]) -> Result<[u8; 32], DhError> {
        let mut result = [0; 32];
        self.derive(remote, &mut result).map_err(DhError::new)?;
        Ok(result)
    }

    fn derive(&self, remote: &[u8; 32], result: &mut [u8; 32]) -> Result<usize, ErrorStack> {
        let remote = PKey::public_key_from_raw_bytes(remote, Id::X25519)?;
        let mut deriver = Deriver::new(&self.0)?;
        deriver.set_peer(&remote)?;
        deriver.derive(result)
    }

    // OpenSSL's copy is overwritten.
    pub(super) fn bytes(&self) -> Result<Zeroizing<[u8; 32]>, DhError> {
        let mut got = self.0.raw_private_key().map_err(DhError::new)?;
        let mut bytes = Zeroizing::new([0; 32]);
        let is_key = got.len() == bytes.len();
        if is_key {
            bytes.copy_from_slice(&got);
        }
        wipe(&mut got);
        is_key.then(|| bytes).ok_or_else(|| DhError::new("OpenSSL has a secret key of another length"))
    }
}

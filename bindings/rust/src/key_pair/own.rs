// Secret keys by the code of this crate.
use crate::raw::wipe_stack;
use crate::x25519::{x25519, BASE};
use crate::DhError;
use zeroize::Zeroizing;

// With an allocator the bytes stay in one place.
#[cfg(feature = "alloc")]
type Shared<T> = alloc::sync::Arc<T>;
#[cfg(not(feature = "alloc"))]
type Shared<T> = T;

#[derive(Clone)]
pub(super) struct Secret(Shared<Zeroizing<[u8; 32]>>);

impl Secret {
    pub(super) fn draw() -> Result<Secret, DhError> {
        Secret::filled(|bytes| getrandom::getrandom(bytes).map_err(|_| DhError::new("the system has no random bytes")))
    }

    pub(super) fn of(secret: &[u8; 32]) -> Result<Secret, DhError> {
        Secret::filled(|bytes| {
            bytes.copy_from_slice(secret);
            Ok(())
        })
    }

    fn filled(fill: impl FnOnce(&mut [u8; 32]) -> Result<(), DhError>) -> Result<Secret, DhError> {
        #[cfg(feature = "alloc")]
        {
            let mut shared = Shared::new(Zeroizing::new([0; 32]));
            Shared::get_mut(&mut shared).map_or(Ok(()), |bytes| fill(bytes))?;
            Ok(Secret(shared))
        }
        #[cfg(not(feature = "alloc"))]
        {
            let mut bytes = Zeroizing::new([0; 32]);
            fill(&mut bytes)?;
            Ok(Secret(bytes))
        }
    }

    pub(super) fn public(&self) -> Result<[u8; 32], DhError> {
        self.agree(&BASE)
    }

    pub(super) fn agree(&self, remote: &[u8; 32]) -> Result<[u8; 32], DhError> {
        let result = x25519(&self.0, remote);
        wipe_stack();
        Ok(result)
    }

    pub(super) fn bytes(&self) -> Result<Zeroizing<[u8; 32]>, DhError> {
        let mut bytes = Zeroizing::new([0; 32]);
        bytes.copy_from_slice(&self.0[..]);
        Ok(bytes)
    }
}

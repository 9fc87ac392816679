//! The crate of bindings/rust. Copy this file, and have it call your implementation.

use std::cell::Cell;
use vectors::{run, Fault, Party, Setup};
use yulimosar::{Builder, Dh, DhError, Ephemeral, Error, Handshake, KeyPair, ReceiveCipherState, SendCipherState};

thread_local!(static SECRET: Cell<[u8; 32]> = Cell::new([0; 32]));

/// The ephemeral key pair of the vector, in the place of one that is drawn.
struct Fixed(KeyPair);

impl Dh for Fixed {
    fn public(&self) -> [u8; 32] {
        self.0.public()
    }

    fn agree(&self, remote: &[u8; 32]) -> Result<[u8; 32], DhError> {
        self.0.agree(remote)
    }
}

impl Ephemeral for Fixed {
    fn draw() -> Result<Fixed, DhError> {
        KeyPair::from_secret(&SECRET.with(Cell::get)).map(Fixed).map_err(DhError::new)
    }
}

struct Ours<S: Dh> {
    handshake: Option<Handshake<S, Fixed>>,
    ciphers: Option<(SendCipherState, ReceiveCipherState)>,
    hash: [u8; 32],
    remote: Option<[u8; 32]>,
}

fn refused(error: Error) -> Fault {
    let token = match error {
        Error::Short { token } | Error::Tag { token } => token.map(usize::from),
        _ => None,
    };
    Fault::Refused(error.to_string(), token)
}

fn start(setup: &Setup) -> Result<Box<dyn Party>, Fault> {
    let is_early = |line: &&str| line[3..].starts_with('e');
    if setup.pattern.iter().position(|it| *it == "...").map_or(false, |at| setup.pattern[..at].iter().any(is_early)) {
        return Err(Fault::NotSupported("ephemeral keys in pre-messages".into()));
    }
    if !setup.by_name && !setup.protocol.ends_with("_25519_ChaChaPoly_SHA256") {
        return Err(Fault::NotSupported("another suite".into()));
    }
    let name = setup.protocol.trim_start_matches("Noise_").split('_').next().unwrap();
    let text = format!("{}:\n{}", name, setup.pattern.iter().map(|it| format!("  {}\n", it)).collect::<String>());
    let pattern = if setup.by_name { setup.protocol } else { &text };
    let builder = Builder::new(pattern).prologue(&setup.prologue);
    match &setup.s {
        Some(key) => begin(setup, builder.static_key(KeyPair::from_secret(key).map_err(refused)?)),
        None => begin(setup, builder),
    }
}

fn begin<'a, S: Dh + 'static>(setup: &'a Setup, mut builder: Builder<'a, S>) -> Result<Box<dyn Party>, Fault> {
    if let Some(key) = &setup.rs {
        builder = builder.remote_static(key);
    }
    for psk in &setup.psks {
        builder = builder.psk(psk);
    }
    SECRET.with(|it| it.set(setup.e.unwrap_or([1; 32])));
    let handshake =
        if setup.responder { builder.responder_with() } else { builder.initiator_with() }.map_err(refused)?;
    Ok(Box::new(Ours { handshake: Some(handshake), ciphers: None, hash: [0; 32], remote: None }))
}

impl<S: Dh> Ours<S> {
    /// After the last message: the hash and the cipher states.
    fn passed(&mut self) -> Result<(), Error> {
        if let Some(handshake) = self.handshake.take() {
            if handshake.is_done() {
                self.hash = handshake.hash();
                self.remote = handshake.remote_static();
                self.ciphers = Some(handshake.finish_ciphers()?);
            } else {
                self.handshake = Some(handshake);
            }
        }
        Ok(())
    }
}

impl<S: Dh> Party for Ours<S> {
    fn write(&mut self, payload: &[u8]) -> Result<Vec<u8>, Fault> {
        let mut out = vec![0; payload.len().max(65535) + 16];
        let len = match (&mut self.ciphers, &mut self.handshake) {
            (Some((send, _)), _) => {
                out[..payload.len()].copy_from_slice(payload);
                send.encrypt(&[], &mut out, payload.len()).map_err(refused)?
            }
            (_, Some(handshake)) => handshake.write(payload, &mut out).map_err(refused)?,
            _ => return Err(refused(Error::Ended)),
        };
        out.truncate(len);
        self.passed().map_err(refused)?;
        Ok(out)
    }

    fn read(&mut self, message: &[u8]) -> Result<Vec<u8>, Fault> {
        let mut data = message.to_vec();
        let payload = match (&mut self.ciphers, &mut self.handshake) {
            (Some((_, receive)), _) => receive.decrypt(&[], &mut data).map_err(refused)?.to_vec(),
            (_, Some(handshake)) => handshake.read(&mut data).map_err(refused)?.to_vec(),
            _ => return Err(refused(Error::Ended)),
        };
        self.passed().map_err(refused)?;
        Ok(payload)
    }

    fn rekey(&mut self, receive: bool) -> Result<(), Fault> {
        let (send, receiver) = self.ciphers.as_mut().unwrap();
        if receive { receiver.rekey() } else { send.rekey() }.map_err(refused)
    }

    fn set_nonce(&mut self, receive: bool, nonce: u64) -> Result<(), Fault> {
        let (send, receiver) = self.ciphers.as_mut().unwrap();
        if receive { receiver.set_nonce(nonce) } else { send.set_nonce(nonce) }.map_err(refused)
    }

    fn hash(&self) -> Vec<u8> {
        self.hash.to_vec()
    }

    fn remote_static(&self) -> Result<Vec<u8>, Fault> {
        Ok(self.remote.map_or(Vec::new(), |it| it.to_vec()))
    }
}

fn main() {
    std::process::exit(run("yulimosar for Rust", start));
}

//! The crate `snow`, written after its documentation: where this repository is checked the crate isn't at hand, so this
//! file was never compiled.

use snow::{Builder, Error, HandshakeState, TransportState};
use vectors::{run, Fault, Party, Setup};

struct Snow {
    handshake: Option<HandshakeState>,
    transport: Option<TransportState>,
    hash: Vec<u8>,
}

fn refused(error: Error) -> Fault {
    Fault::Refused(error.to_string(), None)
}

fn start(setup: &Setup) -> Result<Box<dyn Party>, Fault> {
    if setup.re.is_some() {
        return Err(Fault::NotSupported("ephemeral keys in pre-messages".into()));
    }
    let params = setup.protocol.parse().map_err(|error: Error| {
        if setup.by_name { refused(error) } else { Fault::NotSupported("patterns of one's own".into()) }
    })?;
    let mut builder = Builder::new(params).prologue(&setup.prologue);
    if let Some(key) = &setup.s {
        builder = builder.local_private_key(key);
    }
    if let Some(key) = &setup.e {
        builder = builder.fixed_ephemeral_key_for_testing_only(key);
    }
    if let Some(key) = &setup.rs {
        builder = builder.remote_public_key(key);
    }
    // The places of the psks are in the name.
    let places = setup.protocol.split("psk").skip(1).filter_map(|it| it.get(..1)?.parse().ok());
    for (place, psk) in places.zip(&setup.psks) {
        builder = builder.psk(place, psk);
    }
    let built = if setup.responder { builder.build_responder() } else { builder.build_initiator() };
    Ok(Box::new(Snow { handshake: Some(built.map_err(refused)?), transport: None, hash: Vec::new() }))
}

impl Snow {
    fn passed(&mut self) -> Result<(), Error> {
        if let Some(handshake) = self.handshake.take() {
            if handshake.is_handshake_finished() {
                self.hash = handshake.get_handshake_hash().to_vec();
                self.transport = Some(handshake.into_transport_mode()?);
            } else {
                self.handshake = Some(handshake);
            }
        }
        Ok(())
    }
}

impl Party for Snow {
    fn write(&mut self, payload: &[u8]) -> Result<Vec<u8>, Fault> {
        let mut out = vec![0; 70000];
        let len = match (&mut self.transport, &mut self.handshake) {
            (Some(transport), _) => transport.write_message(payload, &mut out),
            (_, Some(handshake)) => handshake.write_message(payload, &mut out),
            _ => unreachable!(),
        }
        .map_err(refused)?;
        out.truncate(len);
        self.passed().map_err(refused)?;
        Ok(out)
    }

    fn read(&mut self, message: &[u8]) -> Result<Vec<u8>, Fault> {
        let mut out = vec![0; 70000];
        let len = match (&mut self.transport, &mut self.handshake) {
            (Some(transport), _) => transport.read_message(message, &mut out),
            (_, Some(handshake)) => handshake.read_message(message, &mut out),
            _ => unreachable!(),
        }
        .map_err(refused)?;
        out.truncate(len);
        self.passed().map_err(refused)?;
        Ok(out)
    }

    fn rekey(&mut self, receive: bool) -> Result<(), Fault> {
        let transport = self.transport.as_mut().unwrap();
        if receive {
            transport.rekey_incoming()
        } else {
            transport.rekey_outgoing()
        }
        Ok(())
    }

    fn set_nonce(&mut self, receive: bool, nonce: u64) -> Result<(), Fault> {
        if !receive {
            return Err(Fault::NotSupported("no call sets the nonce for sending".into()));
        }
        self.transport.as_mut().unwrap().set_receiving_nonce(nonce);
        Ok(())
    }

    fn hash(&self) -> Vec<u8> {
        self.hash.clone()
    }

    fn remote_static(&self) -> Result<Vec<u8>, Fault> {
        Ok(self.transport.as_ref().and_then(TransportState::get_remote_static).unwrap_or(&[]).to_vec())
    }
}

fn main() {
    std::process::exit(run("snow", start));
}

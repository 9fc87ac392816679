// A hundred handshakes at once on one thread, by an agent that answers once all have asked.
use std::io;
use std::sync::Arc;
use tokio::io::duplex;
use tokio::sync::Barrier;
use yulimosar::{Agent, AsyncStream, Builder, Dh, DhError, KeyPair};

#[derive(Clone)]
struct Remote(KeyPair, Arc<Barrier>);

impl Remote {
    async fn x25519(&self, remote: [u8; 32]) -> Result<[u8; 32], DhError> {
        self.1.wait().await;
        self.0.agree(&remote)
    }
}

async fn open(agent: Remote, public_key: [u8; 32]) -> io::Result<()> {
    // page: let key = Agent::new(public_key, move |remote: [u8; 32]| {
    let (here, there) = duplex(100);
    let handshake = Builder::new("NK").static_key(key).flush_handshake().responder()?;
    let server = AsyncStream::anonymous(there, handshake);
    let handshake = Builder::new("NK").remote_static(&public_key).initiator()?;
    let client = AsyncStream::new(here, handshake, |peer| async move { peer == public_key });
    let (client, server) = tokio::try_join!(client, server)?;
    assert_eq!(client.hash(), server.hash());
    Ok(())
}

#[tokio::main(flavor = "current_thread")]
async fn main() -> io::Result<()> {
    let key = KeyPair::generate()?;
    let (public_key, agent) = (*key.public_key(), Remote(key, Arc::new(Barrier::new(100))));
    let all: Vec<_> = (0..100).map(|_| tokio::spawn(open(agent.clone(), public_key))).collect();
    for it in all {
        it.await??;
    }
    println!("agent: 100 handshakes");
    Ok(())
}

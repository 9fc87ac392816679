// Joins each plain connection to a channel, and each channel to a plain connection: many at once.
use std::io;
use std::net::SocketAddr;
use std::time::Duration;
use tokio::io::{copy_bidirectional, AsyncReadExt, AsyncWriteExt};
use tokio::net::{TcpListener, TcpStream};
use tokio::time::timeout;
use yulimosar::{AsyncStream, Builder, KeyPair};

const LIMIT: Duration = Duration::from_secs(60);

async fn enter(mut plain: TcpStream, exit: SocketAddr, key: KeyPair, server: [u8; 32]) -> io::Result<()> {
    let handshake = Builder::new("IK").static_key(key).remote_static(&server).initiator()?;
    let below = TcpStream::connect(exit).await?;
    below.set_nodelay(true)?;
    let opening = AsyncStream::new(below, handshake, |peer| async move { peer == server });
    let mut channel = timeout(LIMIT, opening).await??;
    copy_bidirectional(&mut plain, &mut channel).await?;
    Ok(())
}

async fn leave(below: TcpStream, target: SocketAddr, key: KeyPair, client: [u8; 32]) -> io::Result<()> {
    below.set_nodelay(true)?;
    // The target may wait for nothing to come: so the last message of the handshake leaves at once.
    let handshake = Builder::new("IK").static_key(key).flush_handshake().responder()?;
    let opening = AsyncStream::new(below, handshake, |peer| async move { peer == client });
    let mut channel = timeout(LIMIT, opening).await??;
    let mut plain = TcpStream::connect(target).await?;
    copy_bidirectional(&mut channel, &mut plain).await?;
    Ok(())
}

// Sends back what it reads; `speaks`: it is the first to say something.
async fn target(mut plain: TcpStream, speaks: bool) -> io::Result<()> {
    if speaks {
        plain.write_all(b"220 ").await?;
    }
    let (mut reads, mut writes) = plain.split();
    tokio::io::copy(&mut reads, &mut writes).await?;
    writes.shutdown().await
}

async fn talk(entry: SocketAddr, speaks: bool, len: usize) -> io::Result<()> {
    let bytes: Vec<u8> = (0..len).map(|place| (place * 7 >> 3) as u8).collect();
    let (mut reads, mut writes) = TcpStream::connect(entry).await?.into_split();
    if speaks {
        reads.read_exact(&mut [0; 4]).await?;
    }
    let sent = bytes.clone();
    let sender = tokio::spawn(async move {
        writes.write_all(&sent).await?;
        writes.shutdown().await
    });
    let mut back = Vec::new();
    reads.read_to_end(&mut back).await?;
    sender.await??;
    assert!(back == bytes, "{} of {len} bytes came back", back.len());
    Ok(())
}

#[tokio::main]
async fn main() -> io::Result<()> {
    let (client, server) = (KeyPair::generate()?, KeyPair::generate()?);
    let (client_key, server_key) = (*client.public_key(), *server.public_key());
    let local = || TcpListener::bind("127.0.0.1:0");
    let (targets, exits, entries) = (local().await?, local().await?, local().await?);
    let (target_at, exit_at, entry_at) = (targets.local_addr()?, exits.local_addr()?, entries.local_addr()?);
    tokio::spawn(async move {
        for place in 0.. {
            tokio::spawn(target(targets.accept().await.unwrap().0, place >= 20));
        }
    });
    tokio::spawn(async move {
        loop {
            tokio::spawn(leave(exits.accept().await.unwrap().0, target_at, server.clone(), client_key));
        }
    });
    tokio::spawn(async move {
        loop {
            tokio::spawn(enter(entries.accept().await.unwrap().0, exit_at, client.clone(), server_key));
        }
    });
    for speaks in [false, true] {
        let lens = [0, 1, 100, 65519, 65520, 1_000_000].into_iter().cycle().take(20);
        let talks: Vec<_> = lens.map(|len| tokio::spawn(timeout(LIMIT, talk(entry_at, speaks, len)))).collect();
        for it in talks {
            it.await???;
        }
    }
    println!("tunnel: 40 connections");
    Ok(())
}

use std::io;
use std::sync::Arc;
use std::time::Duration;
use tokio::io::{AsyncReadExt, AsyncWriteExt};
use tokio::net::{TcpListener, TcpStream};
use tokio::sync::Semaphore;
use tokio::time::{sleep, timeout};
use yulimosar::{AsyncStream, Builder, KeyPair};

#[tokio::main]
async fn main() -> io::Result<()> {
    let key = KeyPair::generate()?; // a server that lives longer keeps it in a file
    let listener = TcpListener::bind("127.0.0.1:4043").await?;
    // The client gets this file by a way that nobody else can write to.
    std::fs::write("server.public", key.public_key())?;
    let places = Arc::new(Semaphore::new(100));
    loop {
        let below = match listener.accept().await {
            Ok((below, _)) => below,
            Err(error) => {
                eprintln!("server: {error}"); // as too many open files, until some are closed
                sleep(Duration::from_millis(100)).await;
                continue;
            }
        };
        if let Ok(place) = places.clone().try_acquire_owned() {
            let key = key.clone();
            tokio::spawn(async move {
                if let Err(error) = serve(below, key).await {
                    eprintln!("server: {error}");
                }
                drop(place);
            });
        }
    }
}

async fn serve(below: TcpStream, key: KeyPair) -> io::Result<()> {
    let builder = Builder::new("XX").prologue(b"example channel 1").interval(1000);
    let handshake = builder.static_key(key).responder()?;
    below.set_nodelay(true)?;
    let accept = |_peer| async { true }; // or look the key up
    let opening = AsyncStream::new(below, handshake, accept);
    let mut stream = timeout(Duration::from_secs(10), opening).await??;
    while timeout(Duration::from_secs(60), echo(&mut stream)).await?? > 0 {}
    timeout(Duration::from_secs(60), stream.shutdown()).await?
}

async fn echo(stream: &mut AsyncStream<TcpStream>) -> io::Result<usize> {
    let mut bytes = [0; 4096];
    let count = stream.read(&mut bytes).await?;
    stream.write_all(&bytes[..count]).await?;
    stream.flush().await?;
    Ok(count)
}

use super::{bytes_of, Report, Run};
use std::io;
use tokio::io::{AsyncRead, AsyncReadExt, AsyncWrite, AsyncWriteExt};
use tokio::net::{TcpListener, TcpStream};
use tokio::sync::oneshot;
use yulimosar::AsyncStream;

#[tokio::main]
pub async fn run(run: Run) -> io::Result<Report> {
    let below = if run.is_initiator {
        TcpStream::connect(&run.address).await?
    } else {
        let listener = TcpListener::bind(&run.address).await?;
        println!("{}", listener.local_addr()?);
        listener.accept().await?.0
    };
    below.set_nodelay(true)?;
    let stream = match run.peer() {
        Some(peer) => AsyncStream::new(below, run.handshake()?, |key| async move { key == peer }).await?,
        None => AsyncStream::anonymous(below, run.handshake()?).await?,
    };
    let (reads, mut writes) = stream.split(TcpStream::into_split).await?;
    let (says, hears) = oneshot::channel();
    let (bytes, first) = (bytes_of(run.is_initiator, run.size), run.ends_first);
    let writer = tokio::spawn(async move {
        let (wrote, is_whole) = write(&mut writes, &bytes).await;
        let may_end = is_whole && (first || hears.await == Ok(true));
        (wrote, may_end && writes.shutdown().await.is_ok())
    });
    let (read, end) = read(reads, &bytes_of(!run.is_initiator, run.size)).await;
    let _ = says.send(end.is_ok());
    let (wrote, has_ended) = writer.await?;
    Ok(Report { wrote, has_ended, read, end })
}

// Writes, and returns how many bytes, with those of a write that has failed after a part of them was
// sent; and whether none has.
async fn write(writes: &mut (impl AsyncWrite + Unpin), bytes: &[u8]) -> (usize, bool) {
    let mut wrote = 0;
    for part in bytes.chunks(10_000) {
        wrote += part.len();
        if writes.write_all(part).await.is_err() {
            return (wrote, false);
        }
    }
    // What was taken may still wait.
    (wrote, writes.flush().await.is_ok())
}

async fn read(mut reads: impl AsyncRead + Unpin, expected: &[u8]) -> (usize, io::Result<()>) {
    let (mut bytes, mut count) = ([0; 5000], 0);
    loop {
        match reads.read(&mut bytes).await {
            Ok(0) => return (count, Ok(())),
            Ok(some) => {
                assert_eq!(&bytes[..some], &expected[count..count + some]);
                count += some;
            }
            Err(error) => return (count, Err(error)),
        }
    }
}

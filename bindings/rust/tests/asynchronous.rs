// `AsyncStream` over TCP: halves in tasks, peers that are silent or don't read, futures that are dropped, keys and
// secrets that are waited for.
#![cfg(feature = "tokio")]
use std::io::{self, ErrorKind};
use std::pin::Pin;
use std::task::{Context, Poll};
use std::time::Duration;
use tokio::io::{copy, copy_bidirectional, duplex, split};
use tokio::io::{AsyncBufReadExt, AsyncRead, AsyncReadExt, AsyncWrite, AsyncWriteExt, BufStream, ReadBuf};
use tokio::net::{TcpListener, TcpStream};
use tokio::time::{sleep, timeout};
use toy::{begun, builder, Toy};
use yulimosar::{AsyncStream, Builder, Dh, Error};

mod toy;

async fn tcp() -> (TcpStream, TcpStream) {
    let listener = TcpListener::bind("127.0.0.1:0").await.unwrap();
    let client = TcpStream::connect(listener.local_addr().unwrap()).await.unwrap();
    (client, listener.accept().await.unwrap().0)
}

type Pair = (AsyncStream<TcpStream>, AsyncStream<TcpStream>);

async fn streams(pattern: &str) -> Pair {
    let ((a, b), (client, server)) = (tcp().await, begun(pattern));
    let server = tokio::spawn(AsyncStream::new(b, server, |key| async move { key == [3; 32] }));
    let mut client = AsyncStream::new(a, client, |key| async move { key == [5; 32] }).await.unwrap();
    client.flush().await.unwrap(); // the last message of the handshake
    (client, server.await.unwrap().unwrap())
}

fn inner(error: &io::Error) -> Option<&Error> {
    error.get_ref().and_then(|inner| inner.downcast_ref())
}

#[tokio::test(flavor = "multi_thread")]
async fn halves_carry_all_both_ways_at_once() {
    let sent: Vec<u8> = (0..1_000_000_u32).map(|i| (i % 251) as u8).collect();
    let (client, server) = streams("XX").await;
    assert_eq!(client.hash(), server.hash());
    assert_eq!((client.remote_static(), server.remote_static()), (Some(&[5; 32]), Some(&[3; 32])));
    let mut tasks = Vec::new();
    for stream in [client, server] {
        let (mut reads, mut writes) = stream.split(TcpStream::into_split).await.unwrap();
        let bytes = sent.clone();
        let writer = tokio::spawn(async move {
            writes.write_all(&bytes).await?;
            writes.shutdown().await
        });
        let reader = tokio::spawn(async move {
            let mut got = Vec::new();
            reads.read_to_end(&mut got).await.map(|_| got)
        });
        tasks.push((writer, reader));
    }
    for (writer, reader) in tasks {
        writer.await.unwrap().unwrap();
        assert!(reader.await.unwrap().unwrap() == sent);
    }
}

#[tokio::test]
async fn ends_cuts_and_refusals() {
    // The client ends its stream, and can still read; what it writes then is refused.
    let (mut client, mut server) = streams("XX").await;
    client.write_all(b"hello").await.unwrap();
    client.shutdown().await.unwrap();
    let mut text = String::new();
    server.read_to_string(&mut text).await.unwrap();
    assert_eq!(text, "hello");
    server.write_all(b"answer").await.unwrap();
    server.shutdown().await.unwrap();
    text.clear();
    client.read_to_string(&mut text).await.unwrap();
    assert_eq!(text, "answer");
    assert_eq!(client.write(b"x").await.unwrap_err().kind(), ErrorKind::BrokenPipe);
    // A connection that closes without an end is a cut; damage is refused; after both nothing is sent.
    for (bytes, kind) in [(&[][..], ErrorKind::UnexpectedEof), (&[0, 2, 1, 1], ErrorKind::InvalidData)] {
        let (client, mut server) = streams("XX").await;
        let (mut below, rest) = client.into_inner();
        assert!(rest.is_empty());
        below.write_all(bytes).await.unwrap();
        below.shutdown().await.unwrap();
        for _ in 0..2 {
            assert_eq!(server.read(&mut [0]).await.unwrap_err().kind(), kind);
        }
        let aborted = |result: io::Result<()>| assert_eq!(inner(&result.unwrap_err()), Some(&Error::Aborted));
        aborted(server.write(b"x").await.map(drop));
        aborted(server.flush().await);
        aborted(server.shutdown().await);
        drop(server);
        assert_eq!(below.read_to_end(&mut Vec::new()).await.unwrap(), 0);
    }
}

// What a stream below that is full doesn't take waits, and a read whose future is dropped loses nothing.
#[tokio::test]
async fn dropped_futures_lose_nothing() {
    let (mut client, mut server) = streams("XX").await;
    let part = vec![7; 50_000];
    let mut written = 0;
    while let Ok(count) = timeout(Duration::from_millis(20), client.write(&part)).await {
        written += count.unwrap();
    }
    let sender = tokio::spawn(async move { client.shutdown().await.map(|_| client) });
    let (mut got, mut bytes) = (0, vec![0; 4096]);
    loop {
        // Each read is begun, dropped where it is pending, and begun again.
        match timeout(Duration::from_micros(50), server.read(&mut bytes)).await {
            Ok(Ok(0)) => break,
            Ok(count) => got += count.unwrap(),
            Err(_) => {}
        }
    }
    assert_eq!(got, written);
    sender.await.unwrap().unwrap();
}

#[tokio::test]
async fn a_silent_party_is_waited_for_until_the_timeout() {
    let (mut client, server) = tcp().await;
    client.write_all(&[0]).await.unwrap();
    let opening = AsyncStream::new(server, begun("XX").1, |_| async { true });
    assert!(timeout(Duration::from_millis(50), opening).await.is_err());
    // The connection was dropped with the future.
    assert_eq!(client.read(&mut [0]).await.unwrap(), 0);
}

#[tokio::test]
async fn keys_and_secrets_are_waited_for() {
    let later = |answer: bool| async move {
        sleep(Duration::from_millis(5)).await;
        answer
    };
    for accepts in [true, false] {
        let ((a, b), (client, server)) = (tcp().await, begun("XX"));
        let server = tokio::spawn(AsyncStream::new(b, server, |_| async { true }));
        let client = AsyncStream::new(a, client, |_| later(accepts)).await;
        assert_eq!(client.is_ok(), accepts);
        if let Err(error) = client {
            assert_eq!(error.kind(), ErrorKind::PermissionDenied);
            assert_eq!(server.await.unwrap().err().unwrap().kind(), ErrorKind::UnexpectedEof);
        }
    }
    for (key, secret) in [(Toy(11), Some([7; 32])), (Toy(13), None)] {
        let (a, b) = tcp().await;
        let server =
            Builder::new("XXpsk3").prologue(b"test").static_key(Toy(5)).late_psks().responder_with::<Toy>().unwrap();
        let server = tokio::spawn(AsyncStream::with_psk_for(b, server, move |peer| async move {
            sleep(Duration::from_millis(5)).await;
            assert_eq!(peer, key.public());
            secret
        }));
        let client = builder("XXpsk3", key, Toy(5), true).initiator_with::<Toy>().unwrap();
        let mut client = AsyncStream::anonymous(a, client).await.unwrap();
        client.flush().await.unwrap();
        assert_eq!(server.await.unwrap().is_ok(), secret.is_some());
    }
}

#[tokio::test]
async fn unauthenticated_set_ups_are_refused_before_a_byte() {
    let (mut client, server) = tcp().await;
    let error = AsyncStream::new(server, begun("NN").1, |_| async { true }).await.err().unwrap();
    assert_eq!(inner(&error), Some(&Error::Refused));
    assert_eq!(client.read(&mut [0]).await.unwrap(), 0);
}

#[tokio::test]
async fn the_stream_below_comes_back() {
    fn must_be_sent<T: Send + Sync + Unpin>(_: &T) {}
    let (mut client, server) = streams("XX").await;
    must_be_sent(&client);
    client.get_ref().set_nodelay(true).unwrap();
    assert!(client.get_mut().nodelay().unwrap());
    let text = format!("{client:?} {:?}", server.split(TcpStream::into_split).await.unwrap());
    assert!(text.starts_with("AsyncStream { below: ") && text.len() < 1000, "{text}");
}

// A stream below that says `WouldBlock` in place of pending wakes nobody: that is an error, and not a wait for ever.
struct NeverReady;

impl AsyncRead for NeverReady {
    fn poll_read(self: Pin<&mut Self>, _: &mut Context<'_>, _: &mut ReadBuf<'_>) -> Poll<io::Result<()>> {
        Poll::Ready(Err(ErrorKind::WouldBlock.into()))
    }
}

impl AsyncWrite for NeverReady {
    fn poll_write(self: Pin<&mut Self>, _: &mut Context<'_>, bytes: &[u8]) -> Poll<io::Result<usize>> {
        Poll::Ready(Ok(bytes.len()))
    }

    fn poll_flush(self: Pin<&mut Self>, _: &mut Context<'_>) -> Poll<io::Result<()>> {
        Poll::Ready(Ok(()))
    }

    fn poll_shutdown(self: Pin<&mut Self>, _: &mut Context<'_>) -> Poll<io::Result<()>> {
        Poll::Ready(Ok(()))
    }
}

#[tokio::test]
async fn a_stream_below_that_says_would_block_is_not_waited_for() {
    let opening = AsyncStream::new(NeverReady, begun("XX").0, |_| async { true });
    let opened = timeout(Duration::from_secs(5), opening).await.expect("it doesn't hang");
    assert_eq!(opened.err().unwrap().kind(), ErrorKind::WouldBlock);
    let mut client = AsyncStream::anonymous(NeverReady, begun("N").0).await.unwrap();
    client.write_all(b"hello").await.unwrap();
}

#[tokio::test]
async fn the_last_message_leaves_with_a_read_and_a_split() {
    for splits in [false, true] {
        let ((a, b), (client, server)) = (tcp().await, begun("XX"));
        let server = tokio::spawn(AsyncStream::new(b, server, |_| async { true }));
        let mut client = AsyncStream::new(a, client, |_| async { true }).await.unwrap();
        if splits {
            let _halves = client.split(TcpStream::into_split).await.unwrap();
            server.await.unwrap().unwrap();
        } else {
            assert!(timeout(Duration::from_millis(50), client.read(&mut [0])).await.is_err());
            server.await.unwrap().unwrap();
        }
    }
}

#[tokio::test]
async fn lines_are_read() {
    let (mut client, server) = streams("XX").await;
    client.write_all(b"one\ntwo").await.unwrap();
    client.shutdown().await.unwrap();
    let mut lines = server.lines();
    assert_eq!(lines.next_line().await.unwrap().as_deref(), Some("one"));
    assert_eq!(lines.next_line().await.unwrap().as_deref(), Some("two"));
    assert_eq!(lines.next_line().await.unwrap(), None);
}

// Streams below with little room, and with a buffer that waits for a flush, which is pending at times.
const ROOMS: [usize; 3] = [16, 65, 8192];

async fn tunnel(room: usize) -> io::Result<()> {
    let sent: Vec<u8> = (0..20_000_u32).map(|i| (i % 251) as u8).collect();
    let ((a, b), (client, server)) = (duplex(room), begun("XX"));
    let ((own, mut near), (mut far, echo)) = (duplex(room), duplex(room));
    let served = tokio::spawn(async move {
        let mut channel = AsyncStream::new(BufStream::new(b), server, |_| async { true }).await?;
        copy_bidirectional(&mut channel, &mut far).await
    });
    let carried = tokio::spawn(async move {
        let mut channel = AsyncStream::new(BufStream::new(a), client, |_| async { true }).await?;
        copy_bidirectional(&mut near, &mut channel).await
    });
    let echoed = tokio::spawn(async move {
        let (mut reads, mut writes) = split(echo);
        copy(&mut reads, &mut writes).await?;
        writes.shutdown().await
    });
    let ((mut reads, mut writes), bytes) = (split(own), sent.clone());
    let written = tokio::spawn(async move {
        writes.write_all(&bytes).await?;
        writes.shutdown().await
    });
    let mut got = Vec::new();
    reads.read_to_end(&mut got).await?;
    assert!(got == sent);
    written.await??;
    echoed.await??;
    assert_eq!((served.await??, carried.await??), ((20_000, 20_000), (20_000, 20_000)));
    Ok(())
}

#[tokio::test]
async fn tunnels_over_streams_with_little_room() {
    for room in ROOMS {
        timeout(Duration::from_secs(60), tunnel(room)).await.expect("it doesn't hang").unwrap();
    }
}

// The one that reads is polled first, and both send the last message of the handshake.
async fn shared(room: usize) -> io::Result<()> {
    let ((a, b), (client, server)) = (duplex(room), begun("XX"));
    let server = tokio::spawn(async move {
        let mut stream = AsyncStream::new(BufStream::new(b), server, |_| async { true }).await?;
        let mut said = [0; 5];
        stream.read_exact(&mut said).await?;
        stream.write_all(&said).await?;
        stream.shutdown().await
    });
    let client = AsyncStream::new(BufStream::new(a), client, |_| async { true }).await?;
    let (mut reads, mut writes) = split(client);
    let reader = tokio::spawn(async move {
        let mut text = String::new();
        reads.read_to_string(&mut text).await.map(|_| text)
    });
    tokio::task::yield_now().await;
    let writer = tokio::spawn(async move {
        writes.write_all(b"hello").await?;
        writes.flush().await?;
        writes.shutdown().await
    });
    writer.await??;
    assert_eq!(reader.await??, "hello");
    server.await?
}

#[tokio::test]
async fn two_tasks_share_a_stream() {
    for room in ROOMS {
        timeout(Duration::from_secs(60), shared(room)).await.expect("it doesn't hang").unwrap();
    }
}

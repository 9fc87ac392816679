// The code of docs/RUST.md after its first listing, run; and what the page says of intervals, of errors and of a first
// datagram that comes twice.
#![cfg(any(feature = "x25519", feature = "openssl"))]
use std::collections::HashMap;
use std::io::{self, ErrorKind, Read, Write};
use std::net::{TcpListener, TcpStream, ToSocketAddrs, UdpSocket};
use std::thread;
use std::time::Duration;
use yulimosar::{Builder, Datagrams, Deadline, Error, KeyPair, Stream, DATAGRAM_OVERHEAD};

fn keys() -> (KeyPair, KeyPair) {
    (KeyPair::generate().unwrap(), KeyPair::generate().unwrap())
}

fn tcp() -> (TcpStream, TcpStream) {
    let listener = TcpListener::bind("127.0.0.1:0").unwrap();
    let client = TcpStream::connect(listener.local_addr().unwrap()).unwrap();
    (client, listener.accept().unwrap().0)
}

// Sends what was read back, as the server of the page.
fn echo(below: TcpStream, key: KeyPair) -> io::Result<()> {
    let handshake = Builder::new("XX").prologue(b"chat 1").static_key(key).responder()?;
    let mut stream = Stream::new(below, handshake, |_| true)?;
    let mut bytes = [0; 4096];
    loop {
        match stream.read(&mut bytes)? {
            0 => return stream.close_write(),
            count => stream.write_all(&bytes[..count])?,
        }
    }
}

fn talk(address: impl ToSocketAddrs, client: KeyPair, server_key: [u8; 32]) -> io::Result<String> {
    let handshake = Builder::new("XX").prologue(b"chat 1").static_key(client).initiator()?;
    let below = TcpStream::connect(address)?;
    below.set_nodelay(true)?;
    below.set_read_timeout(Some(Duration::from_secs(60)))?;
    below.set_write_timeout(Some(Duration::from_secs(60)))?;
    let below = Deadline::after(below, Duration::from_secs(10))?;
    let stream = Stream::new(below, handshake, |peer| peer == &server_key)?;
    let mut stream = stream.lift_deadline()?;
    stream.write_all(b"hello")?;
    stream.close_write()?; // the end: without it the other party reads a cut
    let mut answer = String::new();
    stream.read_to_string(&mut answer)?;
    Ok(answer)
}

#[test]
fn the_client_of_the_page() {
    let ((server, client), listener) = (keys(), TcpListener::bind("127.0.0.1:0").unwrap());
    let (address, server_key) = (listener.local_addr().unwrap(), *server.public_key());
    let server = thread::spawn(move || echo(listener.accept()?.0, server));
    assert_eq!(talk(address, client, server_key).unwrap(), "hello");
    server.join().unwrap().unwrap();
}

fn send(stream: &mut Stream<TcpStream>, bytes: &[u8]) -> io::Result<()> {
    stream.write_all(bytes)?;
    stream.close_write()?;
    let mut receipt = String::new();
    stream.read_to_string(&mut receipt)?; // an error, too, where the end is missing
    if receipt != "received" {
        return Err(ErrorKind::InvalidData.into());
    }
    Ok(())
}

#[test]
fn a_receipt_and_its_end() {
    let answers: [(&str, bool, Result<(), ErrorKind>); 3] = [
        ("received", true, Ok(())),
        ("received", false, Err(ErrorKind::UnexpectedEof)),
        ("refused", true, Err(ErrorKind::InvalidData)),
    ];
    for (answer, ends, expected) in answers {
        let (here, there) = tcp();
        let server = thread::spawn(move || -> io::Result<()> {
            let mut stream = Stream::anonymous(there, Builder::new("NN").responder()?)?;
            let mut all = Vec::new();
            stream.read_to_end(&mut all)?;
            stream.write_all(answer.as_bytes())?;
            if ends {
                stream.close_write()?;
            }
            Ok(())
        });
        let mut stream = Stream::anonymous(here, Builder::new("NN").initiator().unwrap()).unwrap();
        assert_eq!(send(&mut stream, b"all of it").map_err(|error| error.kind()), expected);
        server.join().unwrap().unwrap();
    }
}

fn accept(below: TcpStream, server: KeyPair, client_key: [u8; 32]) -> io::Result<Stream<TcpStream>> {
    let psk = [7; 32];
    let psks = HashMap::from([(client_key, psk)]);
    let handshake = Builder::new("XXpsk3").static_key(server).late_psks().responder()?;
    let stream = Stream::with_psk_for(below, handshake, |key| psks.get(key).copied())?;
    Ok(stream)
}

#[test]
fn a_psk_for_each_peer() {
    for known in [true, false] {
        let ((server, client), (here, there)) = (keys(), tcp());
        let key = if known { *client.public_key() } else { [9; 32] };
        let server = thread::spawn(move || accept(there, server, key).map(|_| ()).map_err(|error| error.kind()));
        let handshake = Builder::new("XXpsk3").static_key(client).psk(&[7; 32]).initiator().unwrap();
        Stream::anonymous(here, handshake).unwrap().flush().unwrap();
        assert_eq!(server.join().unwrap(), if known { Ok(()) } else { Err(ErrorKind::PermissionDenied) });
    }
}

/// Sends each datagram of one client back.
fn serve(socket: &UdpSocket, key: &KeyPair, known: &[[u8; 32]]) -> io::Result<()> {
    let (mut first, mut answer, mut is_shown) = (Vec::new(), [0; 48], false);
    let (mut channel, mut buffer) = (None::<Datagrams>, [0; 1500]);
    loop {
        let (len, from) = socket.recv_from(&mut buffer)?;
        let datagram = &mut buffer[..len];
        if let Some(channel) = &mut channel {
            if datagram == first {
                socket.send_to(&answer, from)?; // it may have been lost
                continue;
            }
            if let Ok(payload) = channel.open(datagram) {
                is_shown = true; // that the client has the secret key
                let mut out = vec![0; payload.len() + DATAGRAM_OVERHEAD];
                channel.seal(payload, &mut out)?;
                socket.send_to(&out, from)?;
            }
        }
        if !is_shown {
            let builder = Builder::new("IK").prologue(b"udp 1").static_key(key);
            let (mut handshake, sent) = (builder.responder()?, datagram.to_vec());
            let is_valid = handshake.try_read(datagram).is_ok(); // else it is a stranger's
            if is_valid && handshake.remote_static().map_or(false, |key| known.contains(&key)) {
                handshake.write(b"", &mut answer)?;
                socket.send_to(&answer, from)?;
                (channel, first) = (Some(handshake.finish_datagrams(64)?), sent);
            }
        }
    }
}

/// Needs a socket that is connected, and has a read timeout.
fn connect(socket: &UdpSocket, key: &KeyPair, server: &[u8; 32]) -> io::Result<Datagrams> {
    let is_late = |it: &io::Error| matches!(it.kind(), ErrorKind::WouldBlock | ErrorKind::TimedOut);
    let builder = Builder::new("IK").prologue(b"udp 1").static_key(key);
    let mut handshake = builder.remote_static(server).initiator()?;
    let (mut first, mut buffer) = ([0; 96], [0; 1500]);
    handshake.write(b"", &mut first)?;
    for _ in 0..10 {
        socket.send(&first)?; // the same bytes each time
        match socket.recv(&mut buffer) {
            Ok(len) if handshake.try_read(&mut buffer[..len]).is_ok() => {
                return Ok(handshake.finish_datagrams(64)?);
            }
            Err(error) if !is_late(&error) => return Err(error),
            _ => {} // a stranger's, or none
        }
    }
    Err(ErrorKind::TimedOut.into())
}

fn udp() -> UdpSocket {
    let socket = UdpSocket::bind("127.0.0.1:0").unwrap();
    socket.set_read_timeout(Some(Duration::from_secs(60))).unwrap();
    socket
}

#[test]
fn datagrams_of_one_client() {
    let ((server, client), (here, there), stranger) = (keys(), (udp(), udp()), udp());
    let (server_key, client_key) = (*server.public_key(), *client.public_key());
    let address = there.local_addr().unwrap();
    thread::spawn(move || {
        there.set_read_timeout(None).unwrap();
        serve(&there, &server, &[client_key])
    });
    // What isn't a message, and a client that isn't known, get no answer.
    stranger.connect(address).unwrap();
    stranger.send(b"hello").unwrap();
    let builder = Builder::new("IK").prologue(b"udp 1").static_key(KeyPair::generate().unwrap());
    let (mut unknown, mut message) = (builder.remote_static(&server_key).initiator().unwrap(), [0; 96]);
    unknown.write(b"", &mut message).unwrap();
    stranger.send(&message).unwrap();
    // A client's first message that is replayed gets one, and doesn't keep the client itself out.
    let builder = Builder::new("IK").prologue(b"udp 1").static_key(&client);
    let mut before = builder.remote_static(&server_key).initiator().unwrap();
    before.write(b"", &mut message).unwrap();
    stranger.send(&message).unwrap();
    let mut buffer = [0; 100];
    assert_eq!(stranger.recv(&mut buffer).unwrap(), 48);
    stranger.send(&message).unwrap();
    assert_eq!(stranger.recv(&mut buffer).unwrap(), 48, "the same answer again");
    here.connect(address).unwrap();
    let mut channel = connect(&here, &client, &server_key).unwrap();
    for text in [&b"one"[..], b"two", b"three"] {
        let len = channel.seal(text, &mut buffer).unwrap();
        here.send(&buffer[..len]).unwrap();
        let len = here.recv(&mut buffer).unwrap();
        assert_eq!(channel.open(&mut buffer[..len]).unwrap(), text);
        // Now it does nothing.
        stranger.send(&message).unwrap();
    }
    stranger.set_read_timeout(Some(Duration::from_millis(500))).unwrap();
    assert!(stranger.recv(&mut buffer).is_err());
}

#[test]
fn a_first_message_that_comes_twice() {
    let (server, client) = keys();
    let responder = || Builder::new("IK").static_key(&server).responder().unwrap();
    let builder = Builder::new("IK").static_key(&client).remote_static(server.public_key());
    let (mut initiator, mut message) = (builder.initiator().unwrap(), [0; 96]);
    initiator.write(b"", &mut message).unwrap();
    let mut first = responder();
    first.try_read(&mut message.clone()).unwrap();
    assert_eq!(first.remote_static(), Some(*client.public_key()), "before the answer");
    assert_eq!(first.try_read(&mut message.clone()), Err(Error::NotYourTurn));
    first.write(b"", &mut [0; 48]).unwrap();
    assert_eq!(first.try_read(&mut message.clone()), Err(Error::Done));
    // A new responder can't tell a replay from the client.
    assert!(responder().try_read(&mut message).is_ok());
}

fn streams(intervals: [u64; 2]) -> (Stream<TcpStream>, Stream<TcpStream>) {
    let (here, there) = tcp();
    let handshake = Builder::new("NN").interval(intervals[1]).responder().unwrap();
    let server = thread::spawn(move || {
        let mut stream = Stream::anonymous(there, handshake).unwrap();
        stream.flush().unwrap();
        stream
    });
    let handshake = Builder::new("NN").interval(intervals[0]).initiator().unwrap();
    (Stream::anonymous(here, handshake).unwrap(), server.join().unwrap())
}

#[test]
fn intervals_that_differ() {
    let (mut client, mut server) = streams([0, 3]);
    let mut count = 0;
    let error = loop {
        client.write_all(b"hello").unwrap();
        match server.read_exact(&mut [0; 5]) {
            Ok(()) => count += 1,
            Err(error) => break error,
        }
    };
    let inner = error.get_ref().and_then(|inner| inner.downcast_ref::<Error>());
    assert_eq!((count, inner), (3, Some(&Error::Tag { token: None })));
    // Datagrams have none.
    let begun = |interval| Builder::new("NN").interval(interval);
    let (mut client, mut server) = (begun(0).initiator().unwrap(), begun(3).responder().unwrap());
    let mut message = [0; 100];
    let len = client.write(b"", &mut message).unwrap();
    server.read(&mut message[..len]).unwrap();
    let len = server.write(b"", &mut message).unwrap();
    client.read(&mut message[..len]).unwrap();
    let (mut client, mut server) = (client.finish_datagrams(64).unwrap(), server.finish_datagrams(64).unwrap());
    for _ in 0..10 {
        let len = client.seal(b"hello", &mut message).unwrap();
        assert_eq!(server.open(&mut message[..len]).unwrap(), b"hello");
    }
}

#[test]
fn the_texts_of_errors() {
    let tag = Error::Tag { token: Some(2) }.to_string();
    assert!(tag.ends_with("(token 2, from 0 on)"), "{tag}");
    assert!(Error::Short { token: Some(0) }.to_string().ends_with("(token 0, from 0 on)"));
    // A connection that ends in a handshake, and one that ends in a stream.
    let (here, there) = tcp();
    drop(there);
    let error = Stream::anonymous(here, Builder::new("NN").responder().unwrap()).unwrap_err();
    assert_eq!(
        error.to_string(),
        "the connection ended during the handshake, or before the other party had ended its stream"
    );
    let (mut client, server) = streams([0, 0]);
    drop(server);
    assert_eq!(client.read(&mut [0]).unwrap_err().to_string(), error.to_string());
    // After the end that this party has written.
    let (mut client, _server) = streams([0, 0]);
    client.close_write().unwrap();
    let error = client.write(b"x").unwrap_err();
    assert_eq!(error.get_ref().unwrap().downcast_ref::<Error>(), Some(&Error::Closed));
    assert_eq!(error.kind(), ErrorKind::BrokenPipe);
}

#[cfg(feature = "tokio")]
mod by_tokio {
    use super::*;
    use std::error::Error;
    use tokio::io::{AsyncReadExt, AsyncWriteExt};
    use tokio::net::{TcpListener, TcpStream};
    use tokio::sync::{mpsc, oneshot};
    use tokio::time::timeout;
    use yulimosar::{Agent, AsyncStream, Dh, DhError, Handshake};

    async fn serve(below: TcpStream, key: KeyPair) -> io::Result<()> {
        let handshake = Builder::new("XX").prologue(b"chat 1").static_key(key).responder()?;
        below.set_nodelay(true)?;
        let opening = AsyncStream::new(below, handshake, |peer: [u8; 32]| async move {
            println!("a client with the key {peer:02x?}");
            true // or look the key up, and wait for the answer
        });
        let mut stream = timeout(Duration::from_secs(10), opening).await??;
        let (mut bytes, limit) = ([0; 4096], Duration::from_secs(60));
        loop {
            match timeout(limit, stream.read(&mut bytes)).await?? {
                0 => return timeout(limit, stream.shutdown()).await?,
                count => timeout(limit, stream.write_all(&bytes[..count])).await??,
            }
            timeout(limit, stream.flush()).await??;
        }
    }

    // What an agent is asked: another party's key, and where the DH result goes.
    type Ask = ([u8; 32], oneshot::Sender<Result<[u8; 32], DhError>>);

    // An agent: a task that has the secret key.
    #[derive(Clone)]
    struct Keeper(mpsc::Sender<Ask>);

    impl Keeper {
        fn start(key: KeyPair) -> Keeper {
            let (asks, mut asked) = mpsc::channel(8);
            tokio::spawn(async move {
                while let Some((remote, answers)) = asked.recv().await {
                    tokio::time::sleep(Duration::from_millis(20)).await;
                    let _: Result<_, Result<[u8; 32], DhError>> = oneshot::Sender::send(answers, key.agree(&remote));
                }
            });
            Keeper(asks)
        }

        async fn x25519(&self, remote: [u8; 32]) -> Result<[u8; 32], &'static str> {
            let (answers, answer) = oneshot::channel();
            self.0.send((remote, answers)).await.map_err(|_| "the agent has gone")?;
            answer.await.map_err(|_| "the agent has gone")?.map_err(|_| "the agent refuses")
        }
    }

    fn responder(public_key: [u8; 32], agent: Keeper) -> io::Result<Handshake<impl Dh, KeyPair>> {
        let key = Agent::new(public_key, move |remote: [u8; 32]| {
            let agent = agent.clone();
            async move { agent.x25519(remote).await.map_err(DhError::new) }
        });
        let handshake = Builder::new("XX").prologue(b"chat 1").static_key(key).responder()?;
        Ok(handshake)
    }

    #[tokio::test]
    async fn a_key_in_an_agent() {
        let ((server, client), listener) = (keys(), TcpListener::bind("127.0.0.1:0").await.unwrap());
        let (address, public_key) = (listener.local_addr().unwrap(), *server.public_key());
        let handshake = responder(public_key, Keeper::start(server)).unwrap();
        let client = thread::spawn(move || talk(address, client, public_key));
        let below = listener.accept().await.unwrap().0;
        let mut stream = AsyncStream::new(below, handshake, |_| async { true }).await.unwrap();
        let mut text = String::new();
        stream.read_to_string(&mut text).await.unwrap();
        stream.write_all(text.as_bytes()).await.unwrap();
        stream.shutdown().await.unwrap();
        assert_eq!(client.join().unwrap().unwrap(), "hello");
        // An agent that has gone is an error with its cause.
        let (gone, _) = mpsc::channel(1);
        let (here, there) = tokio::io::duplex(1000);
        let key = Agent::new([9; 32], move |remote| {
            let agent = Keeper(gone.clone());
            async move { agent.x25519(remote).await.map_err(DhError::new) }
        });
        let handshake = Builder::new("KN").static_key(key).initiator().unwrap();
        let other = Builder::new("KN").remote_static(&[9; 32]).flush_handshake().responder().unwrap();
        tokio::spawn(AsyncStream::anonymous(there, other));
        let error = AsyncStream::anonymous(here, handshake).await.err().unwrap();
        assert_eq!(error.kind(), ErrorKind::Other);
        assert_eq!(error.source().unwrap().to_string(), "the agent has gone");
    }

    #[tokio::test]
    async fn the_server_of_the_page_and_its_client() {
        let ((server, client), listener) = (keys(), TcpListener::bind("127.0.0.1:0").await.unwrap());
        let (address, server_key) = (listener.local_addr().unwrap(), *server.public_key());
        let client = thread::spawn(move || talk(address, client, server_key));
        serve(listener.accept().await.unwrap().0, server).await.unwrap();
        assert_eq!(client.join().unwrap().unwrap(), "hello");
    }
}

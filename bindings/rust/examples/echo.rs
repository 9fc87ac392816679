// One end over TCP: echo PATTERN OWN_SECRET PEER_KEY PSK ADDRESS. It connects as the initiator, sends 128 KiB, and
// wants them back; where ADDRESS begins with '@' it listens there, prints the address, and sends back what it reads.
// PSK is '-' if there is none; "KEY=SECRET,.." has the secrets that a listener chooses by the other party's key.
use std::io::{self, Read, Write};
use std::net::{TcpListener, TcpStream};
use yulimosar::{Builder, KeyPair, Pattern, Stream};

fn bytes32(digits: &str) -> [u8; 32] {
    let mut bytes = [0; 32];
    for (i, byte) in bytes.iter_mut().enumerate() {
        *byte = u8::from_str_radix(&digits[2 * i..2 * i + 2], 16).expect("hex digits");
    }
    bytes
}

fn main() -> io::Result<()> {
    let words: Vec<String> = std::env::args().collect();
    let (pattern, secret, peer, psk, address) = match &words[..] {
        [_, pattern, secret, peer, psk, address] => (pattern, secret, peer, psk, address),
        _ => panic!("usage: echo PATTERN OWN_SECRET PEER_KEY PSK ADDRESS"),
    };
    let listens = address.strip_prefix('@');
    let (own, peer) = (KeyPair::from_secret(&bytes32(secret))?, bytes32(peer));
    let secrets: Vec<([u8; 32], [u8; 32])> =
        psk.split(',').filter_map(|it| it.split_once('=')).map(|(key, it)| (bytes32(key), bytes32(it))).collect();
    let psk = if psk == "-" || !secrets.is_empty() { None } else { Some(bytes32(psk)) };
    let mut builder = Builder::new(pattern).prologue(b"live").static_key(own);
    let facts = Pattern::new(pattern)?;
    let keys = if listens.is_some() { facts.responder() } else { facts.initiator() };
    if keys.remote_static {
        builder = builder.remote_static(&peer);
    }
    if let Some(psk) = &psk {
        builder = builder.psk(psk);
    }
    match listens {
        None => {
            let below = TcpStream::connect(address)?;
            below.set_nodelay(true)?;
            send(Stream::anonymous(below, builder.initiator()?)?, facts.is_one_way())
        }
        Some(address) => {
            let listener = TcpListener::bind(address)?;
            println!("{}", listener.local_addr()?);
            let below = listener.accept()?.0;
            below.set_nodelay(true)?;
            let stream = if secrets.is_empty() {
                Stream::anonymous(below, builder.responder()?)?
            } else {
                let secret_of =
                    |key: &[u8; 32]| secrets.iter().find(|(known, _)| known == key).map(|(_, secret)| *secret);
                Stream::with_psk_for(below, builder.late_psks().responder()?, secret_of)?
            };
            echo(stream, facts.is_one_way())
        }
    }
}

fn send(mut stream: Stream<TcpStream>, one_way: bool) -> io::Result<()> {
    let bytes: Vec<u8> = (0..1 << 17).map(|i: u32| (i % 251) as u8).collect();
    if one_way {
        stream.write_all(&bytes)?;
        return stream.close_write();
    }
    let (mut reads, mut writes) = stream.split(TcpStream::try_clone)?;
    let sent = bytes.clone();
    let writer = std::thread::spawn(move || writes.write_all(&sent).and_then(|_| writes.close_write()));
    let mut back = Vec::new();
    reads.read_to_end(&mut back)?;
    writer.join().expect("no panic")?;
    assert!(back == bytes, "other bytes came back");
    Ok(())
}

fn echo(mut stream: Stream<TcpStream>, one_way: bool) -> io::Result<()> {
    let mut all = Vec::new();
    stream.read_to_end(&mut all)?;
    if one_way {
        return Ok(());
    }
    stream.write_all(&all)?;
    stream.close_write()
}

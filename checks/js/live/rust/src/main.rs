//! The other party of a channel with the crate, with the words of peer.py.
use openssl::sha::{sha256, Sha256};
use std::io::{self, Read, Write};
use std::net::{Shutdown, TcpListener, TcpStream};
use std::sync::mpsc::{channel, Receiver};
use std::time::Duration;
use yulimosar::{Builder, KeyPair, Stream, WriteHalf};

struct Words {
    pattern: String,
    secret: [u8; 32],
    peer: [u8; 32],
    psk: Option<[u8; 32]>,
    address: String,
    order: String,
    size: usize,
    count: usize,
}

/// What a party reports of a connection.
struct Report {
    count: usize,
    sum: [u8; 32],
    other_ended: bool,
    ended: bool,
    error: &'static str,
}

fn bytes32(digits: &str) -> [u8; 32] {
    let mut bytes = [0; 32];
    for (i, byte) in bytes.iter_mut().enumerate() {
        *byte = u8::from_str_radix(&digits[2 * i..2 * i + 2], 16).expect("hex digits");
    }
    bytes
}

fn words() -> Words {
    let words: Vec<String> = std::env::args().collect();
    Words {
        pattern: words[1].clone(),
        secret: bytes32(&words[2]),
        peer: bytes32(&words[3]),
        psk: (words[4] != "-").then(|| bytes32(&words[4])),
        address: words[5].clone(),
        order: words[6].clone(),
        size: words[7].parse().expect("a size"),
        count: words[8].parse().expect("a count"),
    }
}

fn open(words: &Words, below: TcpStream, is_initiator: bool) -> io::Result<Stream<TcpStream>> {
    let own = KeyPair::from_secret(&words.secret)?;
    let base = words.pattern.split("psk").next().unwrap_or_default();
    let mut builder = Builder::new(&words.pattern).prologue(b"live").static_key(own);
    if base == "KK" || base == "IK" && is_initiator {
        builder = builder.remote_static(&words.peer);
    }
    if let Some(psk) = &words.psk {
        builder = builder.psk(psk);
    }
    let handshake = if is_initiator { builder.initiator() } else { builder.responder() }?;
    let opened = if base == "NN" {
        Stream::anonymous(below, handshake).map_err(|error| error.to_string())
    } else {
        Stream::new(below, handshake, |key| key == &words.peer).map_err(|error| error.to_string())
    };
    opened.map_err(|error| io::Error::new(io::ErrorKind::Other, error))
}

/// Writes all, and ends the stream when that is due; says whether it has ended it.
fn send(words: &Words, mut write: WriteHalf<TcpStream>, over: Receiver<bool>) -> io::Result<bool> {
    let all: Vec<u8> = (0..words.size).map(|n| (n % 251) as u8).collect();
    let (mut at, mut size) = (0, 1);
    while at < all.len() {
        size = usize::min(usize::min(size * 3, 65519), all.len() - at);
        write.write_all(&all[at..at + size])?;
        write.flush()?;
        at += size;
    }
    Ok((words.order != "waits" || over.recv() == Ok(true)) && write.close_write().is_ok())
}

/// Both directions at once.
fn run(words: &Words, below: TcpStream, is_initiator: bool) -> io::Result<Report> {
    let connection = below.try_clone()?;
    let (mut reads, writes) = open(words, below, is_initiator)?.split(TcpStream::try_clone)?;
    let (tell, over) = channel();
    let mut report = Report { count: 0, sum: sha256(b""), other_ended: false, ended: false, error: "-" };
    std::thread::scope(|threads| {
        let sending = threads.spawn(move || send(words, writes, over));
        if words.order != "closes" {
            let (mut hash, mut buffer) = (Sha256::new(), vec![0; 100_000]);
            report.error = loop {
                match reads.read(&mut buffer) {
                    Ok(0) => {
                        report.other_ended = true;
                        break "-";
                    }
                    Ok(n) => {
                        hash.update(&buffer[..n]);
                        report.count += n;
                    }
                    Err(_) => {
                        let _ = connection.shutdown(Shutdown::Both);
                        break "refused";
                    }
                }
            };
            report.sum = hash.finish();
            let _ = tell.send(report.other_ended);
        }
        report.ended = sending.join().expect("no panic").unwrap_or(false);
    });
    Ok(report)
}

fn main() -> io::Result<()> {
    let words = words();
    let listener = words.address.strip_prefix('@').map(TcpListener::bind).transpose()?;
    if let Some(listener) = &listener {
        println!("{}", listener.local_addr()?);
    }
    for _ in 0..words.count {
        let below = match &listener {
            Some(listener) => listener.accept()?.0,
            None => TcpStream::connect(&words.address)?,
        };
        below.set_nodelay(true)?;
        for set in [TcpStream::set_read_timeout, TcpStream::set_write_timeout] {
            set(&below, Some(Duration::from_secs(120)))?;
        }
        let refused = |_| Report { count: 0, sum: sha256(b""), other_ended: false, ended: false, error: "refused" };
        let Report { count, sum, other_ended, ended, error } =
            run(&words, below, listener.is_none()).unwrap_or_else(refused);
        let digits: String = sum.iter().map(|byte| format!("{byte:02x}")).collect();
        println!("{count} {digits} {} {} {error}", u8::from(other_ended), u8::from(ended));
    }
    Ok(())
}

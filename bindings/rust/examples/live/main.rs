// One party over TCP, for tests/live/run.py: live PATTERN OWN_SECRET PEER_KEY PSK ADDRESS ORDER SIZE
// [async|websocket]. It connects as the initiator; where ADDRESS begins with '@' it listens there, as the responder,
// and prints the address. Both parties send SIZE bytes at once. ORDER is "first": it ends its stream after its last
// byte; or "last": only once the other's has ended. PSK is '-' if there is none. The last line is "wrote COUNT
// ended|open, read COUNT end|cut|refused|lost".
mod asynchronous;
mod blocking;
mod websocket;
mod without_io;

use std::io::{self, ErrorKind};
use yulimosar::{Builder, Handshake, KeyPair, Pattern};

pub struct Run {
    words: Vec<String>,
    pub is_initiator: bool,
    pub address: String,
    pub ends_first: bool,
    pub size: usize,
}

pub type Party = Handshake<KeyPair, KeyPair>;

fn bytes32(digits: &str) -> [u8; 32] {
    let mut bytes = [0; 32];
    for (i, byte) in bytes.iter_mut().enumerate() {
        *byte = u8::from_str_radix(&digits[2 * i..2 * i + 2], 16).expect("hex digits");
    }
    bytes
}

impl Run {
    fn new(words: Vec<String>) -> Run {
        let is_initiator = !words[5].starts_with('@');
        let address = words[5].trim_start_matches('@').to_owned();
        let (ends_first, size) = (words[6] == "first", words[7].parse().expect("a size"));
        Run { words, is_initiator, address, ends_first, size }
    }

    pub fn handshake(&self) -> io::Result<Party> {
        let (pattern, peer, psk) = (&self.words[1], bytes32(&self.words[3]), &self.words[4]);
        let mut builder =
            Builder::new(pattern).prologue(b"live").static_key(KeyPair::from_secret(&bytes32(&self.words[2]))?);
        let facts = Pattern::new(pattern)?;
        if if self.is_initiator { facts.initiator() } else { facts.responder() }.remote_static {
            builder = builder.remote_static(&peer);
        }
        let secret = if psk == "-" { [0; 32] } else { bytes32(psk) };
        if psk != "-" {
            builder = builder.psk(&secret);
        }
        Ok(if self.is_initiator { builder.initiator()? } else { builder.responder()? })
    }

    pub fn peer(&self) -> Option<[u8; 32]> {
        Some(bytes32(&self.words[3])).filter(|_| !self.words[1].starts_with("NN"))
    }
}

// The bytes that a party sends.
pub fn bytes_of(is_initiator: bool, size: usize) -> Vec<u8> {
    (0..size).map(|i| ((i * 7 + usize::from(is_initiator)) % 251) as u8).collect()
}

// What a party tells of its two directions.
pub struct Report {
    pub wrote: usize,
    pub has_ended: bool,
    pub read: usize,
    pub end: io::Result<()>,
}

impl Report {
    fn print(&self) {
        let end = match self.end.as_ref().map_err(io::Error::kind) {
            Ok(()) => "end",
            Err(ErrorKind::UnexpectedEof) => "cut",
            Err(ErrorKind::InvalidData) => "refused",
            Err(_) => "lost",
        };
        let ended = if self.has_ended { "ended" } else { "open" };
        println!("wrote {} {ended}, read {} {end}", self.wrote, self.read);
    }
}

fn main() -> io::Result<()> {
    let words: Vec<String> = std::env::args().collect();
    let report = match words.last().map(String::as_str) {
        Some("async") => asynchronous::run(Run::new(words)),
        Some("websocket") => without_io::run(Run::new(words)),
        _ => blocking::run(Run::new(words)),
    };
    report.unwrap_or_else(|end| Report { wrote: 0, has_ended: false, read: 0, end: Err(end) }).print();
    Ok(())
}

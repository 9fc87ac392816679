//! The package for Rust, and what a program in Rust would seal with otherwise: ring's AEAD, which snow can use, too.
//! Standard input is that of c/server.h. X25519 costs nothing here.
mod channel;

use ring::aead::{Aad, LessSafeKey, Nonce, UnboundKey, CHACHA20_POLY1305};
use std::io::BufRead;
use yulimosar::{Builder, Dh, DhError, Ephemeral, Receiver, Sender};

const TAG_LEN: usize = 16;

struct Free;

impl Dh for Free {
    fn public(&self) -> [u8; 32] {
        [1; 32]
    }

    fn agree(&self, _: &[u8; 32]) -> Result<[u8; 32], DhError> {
        Ok([9; 32])
    }
}

impl Ephemeral for Free {
    fn draw() -> Result<Free, DhError> {
        Ok(Free)
    }
}

fn connect() -> (Sender, Receiver) {
    let mut client = Builder::new("XX").static_key(Free).initiator_with::<Free>().unwrap();
    let mut server = Builder::new("XX").static_key(Free).responder_with::<Free>().unwrap();
    let mut message = [0; 256];
    while !client.is_done() {
        let (writer, reader) =
            if client.writes_next() { (&mut client, &mut server) } else { (&mut server, &mut client) };
        let len = writer.write(b"", &mut message).unwrap();
        reader.read(&mut message[..len]).unwrap();
    }
    (client.finish().unwrap().split().0, server.finish().unwrap().split().1)
}

#[repr(C)]
struct Timespec {
    seconds: i64,
    nanoseconds: i64,
}

extern "C" {
    fn clock_gettime(clock: i32, time: *mut Timespec) -> i32;
}

/// The nanoseconds of processor time that this process has taken, by Linux's clock 2.
fn now() -> u64 {
    let mut taken = Timespec { seconds: 0, nanoseconds: 0 };
    // SAFETY: the call writes to `taken`, whose layout is that of C on a 64-bit system.
    assert_eq!(unsafe { clock_gettime(2, &mut taken) }, 0);
    taken.seconds as u64 * 1_000_000_000 + taken.nanoseconds as u64
}

fn repeat(count: usize, mut run: impl FnMut()) -> u64 {
    let begun = now();
    (0..count).for_each(|_| run());
    now() - begun
}

fn timed(name: &str, size: usize, count: usize) -> u64 {
    let mut buffer = vec![7; size + TAG_LEN];
    let key = LessSafeKey::new(UnboundKey::new(&CHACHA20_POLY1305, &[7; 32]).unwrap());
    let nonce = || Nonce::assume_unique_for_key([0; 12]);
    match name {
        "seal" => {
            let (mut sender, _) = connect();
            repeat(count, || assert_eq!(sender.seal_in_place(&mut buffer, size), Ok(size + TAG_LEN)))
        }
        "transport" => {
            let (mut sender, mut receiver) = connect();
            repeat(count, || {
                sender.seal_in_place(&mut buffer, size).unwrap();
                receiver.open(&mut buffer).unwrap();
            })
        }
        "XX" => repeat(count, || drop(connect())),
        "ring.seal" => repeat(count, || {
            let tag = key.seal_in_place_separate_tag(nonce(), Aad::empty(), &mut buffer[..size]).unwrap();
            buffer[size..].copy_from_slice(tag.as_ref());
        }),
        "ring.transport" => repeat(count, || {
            let tag = key.seal_in_place_separate_tag(nonce(), Aad::empty(), &mut buffer[..size]).unwrap();
            buffer[size..].copy_from_slice(tag.as_ref());
            key.open_in_place(nonce(), Aad::empty(), &mut buffer).unwrap();
        }),
        "channel" => channel::timed(channel::noise, size, count),
        #[cfg(feature = "tls")]
        "rustls.channel" => channel::timed(channel::tls::open, size, count),
        _ => panic!("{name}: no such operation"),
    }
}

/// The operation of rustls, which Debian has, where a certificate is there.
const TLS: &str = if cfg!(feature = "tls") { " rustls.channel" } else { "" };

fn main() {
    for line in std::io::stdin().lock().lines() {
        let line = line.unwrap();
        let words: Vec<&str> = line.split(' ').collect();
        match words[..] {
            ["list"] => println!("seal transport XX ring.seal ring.transport channel{TLS}"),
            [name, size, count] => println!("{}", timed(name, size.parse().unwrap(), count.parse().unwrap())),
            _ => panic!("{line}"),
        }
    }
}

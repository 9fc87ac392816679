// What stays on the stack of a handshake, a transport and a channel, once they are dropped: no part of a key.
use crate::{Builder, Handshake, KeyPair, Stream};
use std::io::{Read, Write};
use std::net::{TcpListener, TcpStream};

const DEPTH: usize = 200 << 10;

// Runs `work` on a stack of its own, and counts the places below this one that have a half of a key which it returns.
// The halves come inverted: so they themselves are none.
fn copies_after(work: fn() -> Vec<[u8; 16]>) -> usize {
    let run = move || {
        let inverted = work();
        let mut stack = vec![0; DEPTH];
        copy_stack(&mut stack);
        assert!(!inverted.is_empty());
        let is_half = |part: &[u8]| inverted.iter().any(|half| half.iter().zip(part).all(|(a, b)| *a == !*b));
        stack.windows(16).filter(|part| is_half(part)).count()
    };
    std::thread::Builder::new().stack_size(1 << 20).spawn(run).unwrap().join().unwrap()
}

#[inline(never)]
fn copy_stack(into: &mut [u8]) {
    let here = 0_u8;
    let top = std::ptr::addr_of!(here);
    for (place, byte) in into.iter_mut().enumerate() {
        // SAFETY: the stack of this thread has more bytes than these, and they are numbers.
        *byte = unsafe { top.wrapping_sub(place + 1).read_volatile() };
    }
    into.reverse();
}

// The halves of the key that two structs share, inverted.
fn halves(one: &[u8], other: &[u8]) -> Vec<[u8; 16]> {
    let inverted = |at: usize| -> [u8; 16] { std::array::from_fn(|place| !one[at + place]) };
    let is_of_key =
        |at: &usize| one[*at..at + 8] == other[*at..at + 8] && one[*at..at + 8].iter().all(|byte| *byte < 255);
    let mut all: Vec<[u8; 16]> = (0..=one.len() - 16).step_by(8).filter(is_of_key).map(inverted).collect();
    all.retain(|half| half.iter().filter(|byte| **byte == 255).count() < 4);
    all
}

fn begun() -> (Handshake<KeyPair, KeyPair>, Handshake<KeyPair, KeyPair>) {
    let (client, server) = (KeyPair::generate().unwrap(), KeyPair::generate().unwrap());
    (
        Builder::new("XX").static_key(client).initiator().unwrap(),
        Builder::new("XX").static_key(server).responder().unwrap(),
    )
}

fn done() -> (Handshake<KeyPair, KeyPair>, Handshake<KeyPair, KeyPair>) {
    let ((mut client, mut server), mut message) = (begun(), [0; 200]);
    for message_of_client in [true, false, true] {
        let (writer, reader) = if message_of_client { (&mut client, &mut server) } else { (&mut server, &mut client) };
        let len = writer.write(b"", &mut message).unwrap();
        reader.read(&mut message[..len]).unwrap();
    }
    (client, server)
}

#[inline(never)]
fn transports() -> Vec<[u8; 16]> {
    let (client, server) = done();
    let (client, server) = (client.finish().unwrap(), server.finish().unwrap());
    let moved = Box::new((client, server)); // a program moves them
    let (mut client, mut server) = *moved;
    let mut message = [0; 21];
    client.seal(b"hello", &mut message).unwrap();
    server.open(&mut message).unwrap();
    let ((sends, receives), (answers, reads)) = (client.split(), server.split());
    [halves(sends.memory(), reads.memory()), halves(answers.memory(), receives.memory())].concat()
}

#[inline(never)]
fn channels() -> Vec<[u8; 16]> {
    let listener = TcpListener::bind("127.0.0.1:0").unwrap();
    let address = listener.local_addr().unwrap();
    let (client, server) = begun();
    let below = TcpStream::connect(address).unwrap();
    let server = std::thread::spawn(move || {
        let mut server = Stream::new(listener.accept().unwrap().0, server, |_| true).unwrap();
        server.read_exact(&mut [0; 5]).unwrap();
        server
    });
    let mut client = Stream::new(below, client, |_| true).unwrap();
    client.write_all(b"hello").unwrap();
    let server = server.join().unwrap();
    let ((receives, sends), (reads, answers)) =
        (client.split(TcpStream::try_clone).unwrap(), server.split(TcpStream::try_clone).unwrap());
    [halves(sends.memory(), reads.memory()), halves(answers.memory(), receives.memory())].concat()
}

#[test]
fn a_transport_leaves_no_key_on_the_stack() {
    assert_eq!(copies_after(transports), 0);
}

#[test]
fn a_channel_leaves_no_key_on_the_stack() {
    assert_eq!(copies_after(channels), 0);
}

// The scan sees what is there.
#[test]
fn a_copy_on_the_stack_is_found() {
    #[inline(never)]
    fn leaves() -> Vec<[u8; 16]> {
        let key: [u8; 32] = std::array::from_fn(|place| 3 + 7 * place as u8);
        halves(&key, &key.clone())
    }
    #[inline(never)]
    fn deeper() -> Vec<[u8; 16]> {
        let mut room = [0; 20_000];
        crate::raw::wipe(&mut room);
        leaves()
    }
    assert!(copies_after(deeper) > 0);
}

#[test]
fn values_that_are_moved_are_small() {
    use std::mem::size_of;
    assert_eq!(size_of::<crate::Transport>(), 16);
    assert_eq!(size_of::<crate::Datagrams>(), 16);
    assert!(size_of::<Handshake<KeyPair, KeyPair>>() < 200);
}

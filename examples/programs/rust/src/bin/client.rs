// The initiator: client TEXT. It connects to 127.0.0.1, port 4043, and sends the text, which the server sends back.
use std::io::{self, Read, Write};
use std::net::TcpStream;
use yulimosar::{Builder, KeyPair, Stream};

fn main() -> io::Result<()> {
    let text = std::env::args().nth(1).expect("usage: client TEXT");
    let expected = std::fs::read("server.public")?;
    let handshake = Builder::new("XX")
        .prologue(b"example channel 1")
        .static_key(KeyPair::generate()?)
        .interval(1000)
        .initiator()?;
    let below = TcpStream::connect("127.0.0.1:4043")?;
    below.set_nodelay(true)?;
    let mut stream = Stream::new(below, handshake, |peer| peer[..] == expected[..])?;
    stream.write_all(text.as_bytes())?;
    stream.close_write()?;
    // To its end: else what the server hasn't read yet may be lost.
    let mut answer = String::new();
    stream.read_to_string(&mut answer)?;
    println!("client: the server says: {answer}");
    Ok(())
}

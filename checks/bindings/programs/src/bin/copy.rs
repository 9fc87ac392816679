// Sends a file with `io::copy`, and gets a receipt that has its length.
use std::fs::{self, File};
use std::io::{self, ErrorKind, Read, Write};
use std::net::{TcpListener, TcpStream};
use std::path::Path;
use std::thread;
use yulimosar::{Builder, KeyPair, Stream};

fn send(mut stream: Stream<TcpStream>, file: &Path) -> io::Result<u64> {
    let len = io::copy(&mut File::open(file)?, &mut stream)?;
    // page: stream.close_write()?;
    if receipt != len.to_string() {
        return Err(ErrorKind::InvalidData.into());
    }
    Ok(len)
}

fn receive(mut stream: Stream<TcpStream>, file: &Path) -> io::Result<()> {
    let len = io::copy(&mut stream, &mut File::create(file)?)?; // an error where the end is missing
    stream.write_all(len.to_string().as_bytes())?;
    stream.close_write()
}

fn main() -> io::Result<()> {
    let room = std::env::temp_dir().join(format!("copy-{}", std::process::id()));
    fs::create_dir(&room)?;
    let (sent, got) = (room.join("sent"), room.join("got"));
    fs::write(&sent, (0..3_000_000_u32).map(|place| (place * 7 >> 3) as u8).collect::<Vec<_>>())?;
    let (server, listener) = (KeyPair::generate()?, TcpListener::bind("127.0.0.1:0")?);
    let (server_key, address, to) = (*server.public_key(), listener.local_addr()?, got.clone());
    let receiver = thread::spawn(move || -> io::Result<()> {
        let below = listener.accept()?.0;
        below.set_nodelay(true)?;
        receive(Stream::anonymous(below, Builder::new("NK").static_key(server).responder()?)?, &to)
    });
    let below = TcpStream::connect(address)?;
    below.set_nodelay(true)?;
    let handshake = Builder::new("NK").remote_static(&server_key).initiator()?;
    let len = send(Stream::new(below, handshake, |peer| peer == &server_key)?, &sent)?;
    receiver.join().unwrap()?;
    assert_eq!(fs::read(&sent)?, fs::read(&got)?);
    fs::remove_dir_all(&room)?;
    println!("copy: {len} bytes");
    Ok(())
}

// The server and the client of docs/RUST.md over UDP, and three datagrams.
use std::io::{self, ErrorKind};
use std::net::UdpSocket;
use std::thread;
use std::time::Duration;
use yulimosar::{Builder, Datagrams, KeyPair, DATAGRAM_OVERHEAD};

// page: /// Sends each datagram of one client back.

fn main() -> io::Result<()> {
    let (server, client) = (KeyPair::generate()?, KeyPair::generate()?);
    let (server_key, client_key) = (*server.public_key(), *client.public_key());
    let (there, here) = (UdpSocket::bind("127.0.0.1:0")?, UdpSocket::bind("127.0.0.1:0")?);
    here.connect(there.local_addr()?)?;
    here.set_read_timeout(Some(Duration::from_secs(2)))?;
    thread::spawn(move || serve(&there, &server, &[client_key]));
    let mut channel = connect(&here, &client, &server_key)?;
    for text in ["one", "two", "three"] {
        let mut out = vec![0; text.len() + DATAGRAM_OVERHEAD];
        channel.seal(text.as_bytes(), &mut out)?;
        here.send(&out)?;
        let mut buffer = [0; 1500];
        let len = here.recv(&mut buffer)?;
        assert_eq!(channel.open(&mut buffer[..len])?, text.as_bytes());
    }
    println!("udp: three");
    Ok(())
}

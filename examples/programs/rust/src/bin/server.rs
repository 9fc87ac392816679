// The responder: it takes connections on 127.0.0.1, port 4043, says which client it is, and sends its text back.
use std::io::{self, Read, Write};
use std::net::{TcpListener, TcpStream};
use std::sync::Arc;
use std::thread;
use std::time::Duration;
use yulimosar::{Builder, Deadline, KeyPair, Stream};

fn main() -> io::Result<()> {
    let key = KeyPair::generate()?; // a server that lives longer keeps it in a file
    let listener = TcpListener::bind("127.0.0.1:4043")?;
    // The client gets this file by a way that nobody else can write to.
    std::fs::write("server.public", key.public_key())?;
    let clients = Arc::new(());
    for below in listener.incoming() {
        let below = match below {
            Ok(below) => below,
            Err(error) => {
                eprintln!("server: {error}"); // as too many open files, until some are closed
                thread::sleep(Duration::from_millis(100));
                continue;
            }
        };
        let (client, key) = (clients.clone(), key.clone());
        if Arc::strong_count(&clients) > 100 {
            continue; // too many at once
        }
        thread::spawn(move || {
            if let Err(error) = serve(below, key) {
                eprintln!("server: {error}");
            }
            drop(client);
        });
    }
    Ok(())
}

fn serve(below: TcpStream, key: KeyPair) -> io::Result<()> {
    let handshake = Builder::new("XX").prologue(b"example channel 1").static_key(key).interval(1000).responder()?;
    below.set_nodelay(true)?;
    // Each read and write takes at most a minute, and the whole handshake ten seconds.
    below.set_read_timeout(Some(Duration::from_secs(60)))?;
    below.set_write_timeout(Some(Duration::from_secs(60)))?;
    let below = Deadline::after(below, Duration::from_secs(10))?;
    let stream = Stream::new(below, handshake, |peer| {
        println!("server: a client with the key {peer:02x?}");
        true // a server that lets in only some looks the key up here
    })?;
    let mut stream = stream.lift_deadline()?;
    let mut bytes = [0; 4096];
    loop {
        match stream.read(&mut bytes)? {
            0 => return stream.close_write(),
            count => stream.write_all(&bytes[..count])?,
        }
    }
}

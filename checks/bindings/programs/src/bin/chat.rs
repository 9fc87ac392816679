// The server of docs/RUST.md and its client: a text, and its answer.
mod page {
    // page: use std::fs::{self, OpenOptions};

    pub mod client {
        use super::*;

        pub fn talk(address: std::net::SocketAddr, client: KeyPair, server_key: [u8; 32]) -> io::Result<String> {
            // page: let handshake = Builder::new("XX").prologue(b"chat 1").static_key(client).initiator()?;
            Ok(answer)
        }

        // The server's `main` on a port of the system's choice.
        pub fn chat() -> io::Result<String> {
            let file = std::env::temp_dir().join(format!("chat-{}.key", std::process::id()));
            let name = file.to_str().ok_or(ErrorKind::InvalidInput)?;
            let key = key_of(name)?;
            let again = key_of(name)?;
            fs::remove_file(&file)?;
            assert_eq!(hex(key.public_key()), hex(again.public_key()));
            let listener = TcpListener::bind("127.0.0.1:0")?;
            let address = listener.local_addr()?;
            let server = thread::spawn(move || serve(listener.accept()?.0, again));
            let answer = talk(address, KeyPair::generate()?, *key.public_key())?;
            server.join().unwrap()?;
            let _unused = main; // it listens on a port of its own
            Ok(answer)
        }
    }
}

fn main() -> std::io::Result<()> {
    assert_eq!(page::client::chat()?, "hello");
    println!("chat: hello");
    Ok(())
}

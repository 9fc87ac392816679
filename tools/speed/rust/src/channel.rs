//! Channels over TCP on this machine, of the package and of rustls: one thread writes, and another reads.
use super::{now, Free};
use std::io::{Read, Write};
use std::net::{TcpListener, TcpStream};
use yulimosar::{Builder, Stream};

/// A client's end or a server's of a socket, after its handshake.
type Open<T> = fn(TcpStream, bool) -> T;

/// The nanoseconds of processor time of so many writes of `size` bytes, which the other end reads.
pub fn timed<T: Read + Write + Send + 'static>(open: Open<T>, size: usize, count: usize) -> u64 {
    let listener = TcpListener::bind("127.0.0.1:0").unwrap();
    let client = TcpStream::connect(listener.local_addr().unwrap()).unwrap();
    let server = listener.accept().unwrap().0;
    let shaking = std::thread::spawn(move || open(server, false));
    let mut writer = open(client, true);
    let mut reader = shaking.join().unwrap();
    let payload = vec![7; size];
    let begun = now();
    let reading = std::thread::spawn(move || {
        let mut room = vec![0; 1 << 16];
        let mut left = size * count;
        while left > 0 {
            left -= reader.read(&mut room).unwrap();
        }
        now()
    });
    (0..count).for_each(|_| writer.write_all(&payload).unwrap());
    writer.flush().unwrap();
    reading.join().unwrap() - begun
}

pub fn noise(below: TcpStream, is_client: bool) -> Stream<TcpStream> {
    let builder = Builder::new("NN").static_key(Free).flush_handshake();
    let handshake = if is_client { builder.initiator_with::<Free>() } else { builder.responder_with::<Free>() };
    Stream::anonymous(below, handshake.unwrap()).unwrap()
}

#[cfg(feature = "tls")]
pub mod tls {
    use rustls::{
        cipher_suite::TLS13_CHACHA20_POLY1305_SHA256, version::TLS13, Certificate, ClientConfig, ClientConnection,
        ConnectionCommon, PrivateKey, RootCertStore, ServerConfig, ServerConnection, SideData, StreamOwned,
    };
    use std::io::{Read, Result, Write};
    use std::net::TcpStream;
    use std::ops::DerefMut;
    use std::sync::Arc;

    static SUITES: [rustls::SupportedCipherSuite; 1] = [TLS13_CHACHA20_POLY1305_SHA256];

    pub enum End {
        Client(StreamOwned<ClientConnection, TcpStream>),
        Server(StreamOwned<ServerConnection, TcpStream>),
    }

    impl Read for End {
        fn read(&mut self, into: &mut [u8]) -> Result<usize> {
            match self {
                End::Client(it) => it.read(into),
                End::Server(it) => it.read(into),
            }
        }
    }

    impl Write for End {
        fn write(&mut self, bytes: &[u8]) -> Result<usize> {
            match self {
                End::Client(it) => it.write(bytes),
                End::Server(it) => it.write(bytes),
            }
        }

        fn flush(&mut self) -> Result<()> {
            match self {
                End::Client(it) => it.flush(),
                End::Server(it) => it.flush(),
            }
        }
    }

    /// A file of the folder SPEED_KEYS.
    fn key(name: &str) -> Vec<u8> {
        std::fs::read(format!("{}/{name}", std::env::var("SPEED_KEYS").unwrap())).unwrap()
    }

    fn shaken<C, S: SideData>(mut connection: C, mut below: TcpStream) -> StreamOwned<C, TcpStream>
    where
        C: DerefMut<Target = ConnectionCommon<S>>,
    {
        while connection.is_handshaking() {
            connection.complete_io(&mut below).unwrap();
        }
        while connection.wants_write() {
            connection.write_tls(&mut below).unwrap();
        }
        StreamOwned::new(connection, below)
    }

    pub fn open(below: TcpStream, is_client: bool) -> End {
        if is_client {
            let mut roots = RootCertStore::empty();
            roots.add(&Certificate(key("ca.der"))).unwrap();
            let config = ClientConfig::builder()
                .with_cipher_suites(&SUITES)
                .with_safe_default_kx_groups()
                .with_protocol_versions(&[&TLS13])
                .unwrap()
                .with_root_certificates(roots)
                .with_no_client_auth();
            let connection = ClientConnection::new(Arc::new(config), "localhost".try_into().unwrap()).unwrap();
            return End::Client(shaken(connection, below));
        }
        let config = ServerConfig::builder()
            .with_cipher_suites(&SUITES)
            .with_safe_default_kx_groups()
            .with_protocol_versions(&[&TLS13])
            .unwrap()
            .with_no_client_auth()
            .with_single_cert(vec![Certificate(key("cert.der"))], PrivateKey(key("key.der")))
            .unwrap();
        End::Server(shaken(ServerConnection::new(Arc::new(config)).unwrap(), below))
    }
}

//! The Noise Protocol Framework, revision 34, with 25519, ChaChaPoly and SHA256. What computes the messages
//! is the library `noise_c`, whose calls are proved to do what the framework says; its text is in the
//! crate, and rustc assembles it.
//!
//! [`Builder`] starts a [`Handshake`], which becomes a [`Transport`], for messages in order, [`Datagrams`], for a
//! network that loses and reorders, or two cipher states, for packets of your own. [`Stream`] does all of this over
//! anything that reads and writes, [`AsyncStream`] over what tokio reads and writes, and [`Connection`] over
//! whatever you have: bytes go in, and bytes come out. [`Pattern`] says what a pattern needs. X25519 comes through
//! the trait [`Dh`]: from this crate, which has `KeyPair`, from OpenSSL with the feature `openssl`, or from any
//! other crate in a few lines.
//!
//! Without the feature `std` the crate is `no_std`, and with neither `std` nor `alloc` it uses no heap. The feature
//! `system` links an installed library in place of the text, as for a target that has none.
//!
//! A value's keys are overwritten when it is dropped. With the feature `alloc` they stay in one place while the
//! value is moved, and the stack is overwritten once a handshake is finished; without it what a move leaves on
//! the stack isn't. Calls through `&` only read, so threads may make them at once: each type is `Send` and `Sync`
//! where what it is made of is.
//!
//! ```
//! # #[cfg(any(feature = "x25519", feature = "openssl"))] fn main() -> Result<(), Box<dyn std::error::Error>> {
//! use std::io::{Read, Write};
//! use std::net::{TcpListener, TcpStream};
//! use yulimosar::{Builder, KeyPair, Stream};
//!
//! let (server, client) = (KeyPair::generate()?, KeyPair::generate()?);
//! let (server_key, client_key) = (*server.public_key(), *client.public_key());
//! let listener = TcpListener::bind("127.0.0.1:0")?;
//! let address = listener.local_addr()?;
//! let echo = std::thread::spawn(move || -> std::io::Result<()> {
//!     let handshake = Builder::new("XX").prologue(b"chat 1").static_key(server).responder()?;
//!     let below = listener.accept()?.0;
//!     below.set_nodelay(true)?;
//!     let mut stream = Stream::new(below, handshake, |key| key == &client_key)?;
//!     let mut said = String::new();
//!     stream.read_to_string(&mut said)?;
//!     stream.write_all(said.as_bytes())?;
//!     stream.close_write()
//! });
//! let handshake = Builder::new("XX").prologue(b"chat 1").static_key(client).initiator()?;
//! let below = TcpStream::connect(address)?;
//! below.set_nodelay(true)?;
//! let mut stream = Stream::new(below, handshake, |key| key == &server_key)?;
//! stream.write_all(b"hello")?;
//! stream.close_write()?; // the end: without it the other party's stream is truncated
//! let mut answer = String::new();
//! stream.read_to_string(&mut answer)?;
//! assert_eq!(answer, "hello");
//! echo.join().unwrap()?;
//! # Ok(()) }
//! # #[cfg(not(any(feature = "x25519", feature = "openssl")))] fn main() {}
//! ```
#![cfg_attr(not(feature = "std"), no_std)]
#![deny(unsafe_op_in_unsafe_fn, missing_docs, missing_debug_implementations)]
#![warn(clippy::missing_errors_doc, clippy::must_use_candidate)]
#![allow(unknown_lints, unexpected_cfgs)] // `sanitized`
#![allow(clippy::duplicate_mod)] // the code of `AsyncStream` over tokio and over futures-io
// Some link to what another feature adds.
#![cfg_attr(not(feature = "tokio"), allow(rustdoc::broken_intra_doc_links))]

#[cfg(feature = "alloc")]
extern crate alloc;

#[cfg(not(feature = "system"))]
mod assembly;
#[cfg(feature = "tokio")]
pub mod async_stream;
mod builder;
mod cipher_state;
#[cfg(feature = "alloc")]
mod connection;
#[cfg(feature = "std")]
mod deadline;
mod dh;
mod error;
#[cfg(feature = "futures-io")]
pub mod futures;
mod handshake;
#[allow(dead_code)]
mod header;
#[cfg(any(feature = "x25519", feature = "openssl"))]
mod key_pair;
mod pattern;
#[cfg_attr(not(feature = "alloc"), allow(dead_code))] // streams
mod raw;
#[cfg(all(test, not(sanitized), feature = "std", any(feature = "x25519", feature = "openssl")))]
mod stack; // what it reads no sanitizer allows: RUSTFLAGS="--cfg sanitized"
#[cfg(feature = "std")]
mod stream;
mod transport;
#[cfg(feature = "x25519")]
#[cfg_attr(feature = "openssl", allow(dead_code))]
mod x25519;

#[cfg(feature = "tokio")]
pub use async_stream::{AsyncReadHalf, AsyncStream, AsyncWriteHalf};
pub use builder::Builder;
pub use cipher_state::{ReceiveCipherState, SendCipherState};
#[cfg(feature = "alloc")]
pub use connection::{Connecting, Connection, Event, Step, StreamReceiver, StreamSender};
#[cfg(feature = "std")]
pub use deadline::{Deadline, Timeouts};
#[cfg(feature = "std")]
pub use dh::{Agent, DhFuture};
pub use dh::{Dh, DhError, Ephemeral, NoKey};
pub use error::Error;
pub use handshake::Handshake;
#[cfg(any(feature = "x25519", feature = "openssl"))]
pub use key_pair::KeyPair;
pub use pattern::{Keys, Pattern};
#[cfg(feature = "std")]
pub use stream::{HandshakeError, MidHandshake, ReadHalf, Stream, WriteHalf};
pub use transport::{DatagramReceiver, DatagramSender, Datagrams, Receiver, Sender, Transport};

/// The bytes of a key, a secret, a result of X25519, and a handshake hash.
pub const KEY_LEN: usize = header::KEY_LEN;
/// How much longer a transport message is than its payload, in bytes.
pub const TAG_LEN: usize = header::TAG_LEN;
/// How much longer a datagram is than its payload, in bytes.
pub const DATAGRAM_OVERHEAD: usize = header::DATAGRAM_OVERHEAD;
/// The bytes of the longest message of a handshake or a transport.
pub const MAX_MESSAGE: usize = header::MAX_MESSAGE;

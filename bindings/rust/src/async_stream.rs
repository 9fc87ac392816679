//! [`AsyncStream`] over anything that is `AsyncRead` and `AsyncWrite` of tokio. It is [`Stream`](crate::Stream),
//! without blocking: the same frames, ends and errors.
//!
//! `shutdown` sends the end of this party's stream, and shuts the stream below down for writing; what is dropped
//! without it is truncated. `read` returns 0 where the other party has ended its stream. A `write` that accepts bytes
//! seals them, and what the stream below doesn't accept at once waits: `flush` after the last `write`, or `shutdown`,
//! which flushes. A read or write whose future is dropped loses nothing.
//!
//! There is no limit of time in it: put `tokio::time::timeout` around the handshake, whose future may be dropped.
//!
#![cfg_attr(any(feature = "x25519", feature = "openssl"), doc = "```")]
#![cfg_attr(not(any(feature = "x25519", feature = "openssl")), doc = "```ignore")]
//! # #[tokio::main]
//! # async fn main() -> std::io::Result<()> {
//! use std::time::Duration;
//! use tokio::io::{AsyncReadExt, AsyncWriteExt};
//! use tokio::net::{TcpListener, TcpStream};
//! use tokio::time::timeout;
//! use yulimosar::{AsyncStream, Builder, KeyPair};
//!
//! let (server, client) = (KeyPair::generate()?, KeyPair::generate()?);
//! let (server_key, client_key) = (*server.public_key(), *client.public_key());
//! let listener = TcpListener::bind("127.0.0.1:0").await?;
//! let address = listener.local_addr()?;
//! let echo = tokio::spawn(async move {
//!     let handshake = Builder::new("XX").static_key(server).responder()?;
//!     let below = listener.accept().await?.0;
//!     below.set_nodelay(true)?;
//!     let accept = |key| async move { key == client_key }; // or look it up, and wait for the answer
//!     let mut stream = timeout(Duration::from_secs(10), AsyncStream::new(below, handshake, accept)).await??;
//!     let mut said = [0; 5];
//!     stream.read_exact(&mut said).await?;
//!     stream.write_all(&said).await?;
//!     stream.shutdown().await
//! });
//! let handshake = Builder::new("XX").static_key(client).initiator()?;
//! let accept = |key| async move { key == server_key };
//! let below = TcpStream::connect(address).await?;
//! below.set_nodelay(true)?;
//! let mut stream = AsyncStream::new(below, handshake, accept).await?;
//! stream.write_all(b"hello").await?;
//! stream.flush().await?;
//! let mut answer = String::new();
//! stream.read_to_string(&mut answer).await?;
//! assert_eq!(answer, "hello");
//! echo.await.unwrap()?;
//! # Ok(()) }
//! ```
use std::io;
use std::pin::Pin;
use std::task::{Context, Poll};
use tokio::io::{AsyncBufRead, AsyncRead, AsyncWrite, ReadBuf};

#[path = "async_shared.rs"]
mod shared;

pub use shared::{AsyncReadHalf, AsyncStream, AsyncWriteHalf};

fn below_reads<T: AsyncRead>(
    below: Pin<&mut T>,
    context: &mut Context<'_>,
    into: &mut [u8],
) -> Poll<io::Result<usize>> {
    let mut into = ReadBuf::new(into);
    below.poll_read(context, &mut into).map_ok(|()| into.filled().len())
}

fn below_closes<T: AsyncWrite>(below: Pin<&mut T>, context: &mut Context<'_>) -> Poll<io::Result<()>> {
    below.poll_shutdown(context)
}

macro_rules! reads {
    ($stream:ident: $($bound:tt)*) => {
        impl<T: $($bound)* + Unpin> AsyncRead for $stream<T> {
            fn poll_read(
                self: Pin<&mut Self>,
                context: &mut Context<'_>,
                into: &mut ReadBuf<'_>,
            ) -> Poll<io::Result<()>> {
                self.get_mut().read(context, into.initialize_unfilled()).map_ok(|count| into.advance(count))
            }
        }

        impl<T: $($bound)* + Unpin> AsyncBufRead for $stream<T> {
            fn poll_fill_buf(self: Pin<&mut Self>, context: &mut Context<'_>) -> Poll<io::Result<&[u8]>> {
                self.get_mut().fill(context)
            }

            fn consume(self: Pin<&mut Self>, count: usize) {
                self.get_mut().consume(count);
            }
        }
    };
}

macro_rules! writes {
    ($stream:ident) => {
        impl<T: AsyncWrite + Unpin> AsyncWrite for $stream<T> {
            fn poll_write(self: Pin<&mut Self>, context: &mut Context<'_>, bytes: &[u8]) -> Poll<io::Result<usize>> {
                self.get_mut().write(context, bytes)
            }

            fn poll_flush(self: Pin<&mut Self>, context: &mut Context<'_>) -> Poll<io::Result<()>> {
                self.get_mut().flush(context)
            }

            fn poll_shutdown(self: Pin<&mut Self>, context: &mut Context<'_>) -> Poll<io::Result<()>> {
                self.get_mut().end(context)
            }
        }
    };
}

reads!(AsyncStream: AsyncRead + AsyncWrite);
reads!(AsyncReadHalf: AsyncRead);
writes!(AsyncStream);
writes!(AsyncWriteHalf);

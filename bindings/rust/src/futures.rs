//! [`AsyncStream`] over anything that is `AsyncRead` and `AsyncWrite` of futures-io, as the streams of smol
//! and async-std. It is [`Stream`](crate::Stream), without blocking: the same frames, ends and errors, and
//! the same rules as over tokio.
//!
//! `close` sends the end of this party's stream, and closes the stream below for writing; what is dropped without it is
//! truncated. `flush` after the last `write`. A read or write whose future is dropped loses nothing. Limit the time of
//! the handshake, whose future may be dropped.
use futures_io::{AsyncBufRead, AsyncRead, AsyncWrite};
use std::io;
use std::pin::Pin;
use std::task::{Context, Poll};

#[path = "async_shared.rs"]
mod shared;

pub use shared::{AsyncReadHalf, AsyncStream, AsyncWriteHalf};

fn below_reads<T: AsyncRead>(
    below: Pin<&mut T>,
    context: &mut Context<'_>,
    into: &mut [u8],
) -> Poll<io::Result<usize>> {
    below.poll_read(context, into)
}

fn below_closes<T: AsyncWrite>(below: Pin<&mut T>, context: &mut Context<'_>) -> Poll<io::Result<()>> {
    below.poll_close(context)
}

macro_rules! reads {
    ($stream:ident: $($bound:tt)*) => {
        impl<T: $($bound)* + Unpin> AsyncRead for $stream<T> {
            fn poll_read(self: Pin<&mut Self>, context: &mut Context<'_>, into: &mut [u8]) -> Poll<io::Result<usize>> {
                self.get_mut().read(context, into)
            }
        }

        impl<T: $($bound)* + Unpin> AsyncBufRead for $stream<T> {
            fn poll_fill_buf(self: Pin<&mut Self>, context: &mut Context<'_>) -> Poll<io::Result<&[u8]>> {
                self.get_mut().fill(context)
            }

            fn consume(self: Pin<&mut Self>, count: usize) {
                self.get_mut().consume(count);
            }
        }
    };
}

macro_rules! writes {
    ($stream:ident) => {
        impl<T: AsyncWrite + Unpin> AsyncWrite for $stream<T> {
            fn poll_write(self: Pin<&mut Self>, context: &mut Context<'_>, bytes: &[u8]) -> Poll<io::Result<usize>> {
                self.get_mut().write(context, bytes)
            }

            fn poll_flush(self: Pin<&mut Self>, context: &mut Context<'_>) -> Poll<io::Result<()>> {
                self.get_mut().flush(context)
            }

            fn poll_close(self: Pin<&mut Self>, context: &mut Context<'_>) -> Poll<io::Result<()>> {
                self.get_mut().end(context)
            }
        }
    };
}

reads!(AsyncStream: AsyncRead + AsyncWrite);
reads!(AsyncReadHalf: AsyncRead);
writes!(AsyncStream);
writes!(AsyncWriteHalf);

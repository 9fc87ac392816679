use crate::stream::is_wait;
use crate::{Error, Stream};
use std::io::{self, ErrorKind, Read, Write};
use std::net::TcpStream;
use std::time::{Duration, Instant};

/// A stream that can have a time limit for each `read` and each `write`, as `TcpStream` does.
pub trait Timeouts {
    /// The time after which a `read` returns `WouldBlock` or `TimedOut`; `None` is never.
    ///
    /// # Errors
    ///
    /// What the system says.
    fn read_timeout(&self) -> io::Result<Option<Duration>>;
    /// The time after which a `write` returns `WouldBlock` or `TimedOut`; `None` is never.
    ///
    /// # Errors
    ///
    /// What the system says.
    fn write_timeout(&self) -> io::Result<Option<Duration>>;
    /// Sets the time of a `read`.
    ///
    /// # Errors
    ///
    /// What the system says.
    fn set_read_timeout(&self, time: Option<Duration>) -> io::Result<()>;
    /// Sets the time of a `write`.
    ///
    /// # Errors
    ///
    /// What the system says.
    fn set_write_timeout(&self, time: Option<Duration>) -> io::Result<()>;
}

macro_rules! timeouts {
    ($stream:ty) => {
        impl Timeouts for $stream {
            fn read_timeout(&self) -> io::Result<Option<Duration>> {
                <$stream>::read_timeout(self)
            }

            fn write_timeout(&self) -> io::Result<Option<Duration>> {
                <$stream>::write_timeout(self)
            }

            fn set_read_timeout(&self, time: Option<Duration>) -> io::Result<()> {
                <$stream>::set_read_timeout(self, time)
            }

            fn set_write_timeout(&self, time: Option<Duration>) -> io::Result<()> {
                <$stream>::set_write_timeout(self, time)
            }
        }
    };
}

timeouts!(TcpStream);
#[cfg(unix)]
timeouts!(std::os::unix::net::UnixStream);

/// A stream with a deadline for all that is read and written: for a whole handshake, whatever the other party sends and
/// however slowly. Past it `read` and `write` return `TimedOut`, with [`Error::Deadline`], and the handshake has
/// failed. Timeouts that the stream below has hold as well.
///
#[cfg_attr(any(feature = "x25519", feature = "openssl"), doc = "```")]
#[cfg_attr(not(any(feature = "x25519", feature = "openssl")), doc = "```ignore")]
/// # fn main() -> std::io::Result<()> {
/// use std::io::ErrorKind;
/// use std::net::{TcpListener, TcpStream};
/// use std::time::Duration;
/// use yulimosar::{Builder, Deadline, Stream};
///
/// let listener = TcpListener::bind("127.0.0.1:0")?;
/// let _silent = TcpStream::connect(listener.local_addr()?)?;
/// let serve = |below: TcpStream| -> std::io::Result<Stream<TcpStream>> {
///     let handshake = Builder::new("NN").responder()?;
///     let below = Deadline::after(below, Duration::from_millis(50))?;
///     Stream::anonymous(below, handshake)?.lift_deadline()
/// };
/// assert_eq!(serve(listener.accept()?.0).err().unwrap().kind(), ErrorKind::TimedOut);
/// # Ok(()) }
/// ```
#[derive(Debug)]
pub struct Deadline<T: Timeouts> {
    below: T,
    until: Instant,
    reads: Option<Duration>,
    writes: Option<Duration>,
}

impl<T: Timeouts> Deadline<T> {
    /// A deadline so much time from now.
    ///
    /// # Errors
    ///
    /// What the stream below says of its timeouts; `InvalidInput` where the time is too long for a clock.
    pub fn after(below: T, time: Duration) -> io::Result<Deadline<T>> {
        let until = Instant::now().checked_add(time).ok_or(ErrorKind::InvalidInput)?;
        let (reads, writes) = (below.read_timeout()?, below.write_timeout()?);
        Ok(Deadline { below, until, reads, writes })
    }

    /// The stream below.
    pub fn get_ref(&self) -> &T {
        &self.below
    }

    /// The stream below without the deadline, with the timeouts that it had before.
    ///
    /// # Errors
    ///
    /// What the stream below says of its timeouts.
    pub fn lift(self) -> io::Result<T> {
        self.below.set_read_timeout(self.reads)?;
        self.below.set_write_timeout(self.writes)?;
        Ok(self.below)
    }

    // How long a call may take whose own limit is this one.
    fn time(&self, own: Option<Duration>) -> io::Result<Option<Duration>> {
        match self.until.saturating_duration_since(Instant::now()) {
            Duration::ZERO => Err(Error::Deadline.into()),
            left => Ok(Some(own.map_or(left, |own| own.min(left)))),
        }
    }

    // After the deadline a wait of the stream below is final.
    fn or_deadline<R>(&self, result: io::Result<R>) -> io::Result<R> {
        match result {
            Err(error) if is_wait(&error) && Instant::now() >= self.until => Err(Error::Deadline.into()),
            result => result,
        }
    }
}

#[cfg(unix)]
impl<T: Timeouts + std::os::unix::io::AsFd> std::os::unix::io::AsFd for Deadline<T> {
    fn as_fd(&self) -> std::os::unix::io::BorrowedFd<'_> {
        self.below.as_fd()
    }
}

#[cfg(windows)]
impl<T: Timeouts + std::os::windows::io::AsSocket> std::os::windows::io::AsSocket for Deadline<T> {
    fn as_socket(&self) -> std::os::windows::io::BorrowedSocket<'_> {
        self.below.as_socket()
    }
}

impl<T: Read + Timeouts> Read for Deadline<T> {
    fn read(&mut self, into: &mut [u8]) -> io::Result<usize> {
        self.below.set_read_timeout(self.time(self.reads)?)?;
        let result = self.below.read(into);
        self.or_deadline(result)
    }
}

impl<T: Write + Timeouts> Write for Deadline<T> {
    fn write(&mut self, bytes: &[u8]) -> io::Result<usize> {
        self.below.set_write_timeout(self.time(self.writes)?)?;
        let result = self.below.write(bytes);
        self.or_deadline(result)
    }

    fn flush(&mut self) -> io::Result<()> {
        self.below.set_write_timeout(self.time(self.writes)?)?;
        let result = self.below.flush();
        self.or_deadline(result)
    }
}

impl<T: Timeouts> Stream<Deadline<T>> {
    /// The channel without the deadline, after the handshake. The timeouts are those that the stream below had before.
    ///
    /// # Errors
    ///
    /// What the stream below says of its timeouts.
    pub fn lift_deadline(self) -> io::Result<Stream<T>> {
        self.try_map(Deadline::lift)
    }
}

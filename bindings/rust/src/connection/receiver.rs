use super::buffers::Incoming;
use super::Over;
use crate::header::{CLOSED, END, MORE, OK};
use crate::raw::{self, Held, StreamResult};
use crate::Error;
use core::fmt;
use core::mem::take;
use core::ops::Range;

/// What has come over a [`Connection`](crate::Connection).
#[derive(PartialEq, Eq)]
#[non_exhaustive]
pub enum Event<'c> {
    /// Bytes that the other party has written, one at least. Each comes once.
    Data(&'c [u8]),
    /// More bytes are needed, of which `receive` accepts at most so many; or `closed` says that none comes.
    Receive(usize),
    /// The other party has ended its stream, and all that it wrote has come.
    End,
}

/// The direction of a [`Connection`](crate::Connection) that this party reads.
pub struct StreamReceiver {
    memory: Held<raw::StreamReceiver>,
    incoming: Incoming,
    wanted: usize,
    decrypted: Range<usize>, // what of the first frame is decrypted, and not read yet
    used: usize,             // how many bytes that frame has
    is_closed: bool,
    is_silent: bool,
    has_ended: bool,
    failure: Option<Error>,
    over: Over,
}

// What is due, without the bytes.
#[derive(Clone, Copy)]
pub(crate) enum Due {
    Data,
    Receive,
    End,
}

impl StreamReceiver {
    pub(super) fn new(
        memory: Held<raw::StreamReceiver>,
        incoming: Incoming,
        is_silent: bool,
        over: Over,
    ) -> StreamReceiver {
        StreamReceiver {
            memory,
            incoming,
            wanted: 0,
            decrypted: 0..0,
            used: 0,
            is_closed: false,
            is_silent,
            has_ended: false,
            failure: None,
            over,
        }
    }

    /// What has come. After an error each later call returns the same.
    ///
    /// # Errors
    ///
    /// `Tag`, `Short`, `Exhausted` and `Cut` end the channel. [`Error::OneWay`] alone, in the silent direction of a
    /// one-way pattern, leaves it as it was.
    pub fn event(&mut self) -> Result<Event<'_>, Error> {
        match self.due()? {
            Due::Data => {
                let range = take(&mut self.decrypted);
                Ok(Event::Data(&self.incoming.bytes()[range]))
            }
            Due::Receive => {
                self.incoming.release();
                Ok(Event::Receive(self.wanted))
            }
            Due::End => Ok(Event::End),
        }
    }

    /// Receives bytes that came, in their order, and returns how many: at most as many as the last [`Event::Receive`]
    /// says, so none before it. Ask `event` again before you pass the others.
    pub fn receive(&mut self, bytes: &[u8]) -> usize {
        let count = self.incoming.take(bytes, self.wanted);
        self.wanted -= count;
        count
    }

    /// The connection has closed, and all that came over it was received: `event` says whether the stream had ended.
    pub fn closed(&mut self) {
        self.is_closed = true;
    }

    // Decrypts the next payload, if none is decrypted.
    pub(crate) fn due(&mut self) -> Result<Due, Error> {
        if !self.decrypted.is_empty() {
            return Ok(Due::Data);
        }
        if self.has_ended {
            return Ok(Due::End);
        }
        if let Some(failure) = &self.failure {
            return Err(failure.clone());
        }
        if self.is_silent {
            return Err(Error::OneWay);
        }
        self.incoming.remove(take(&mut self.used));
        let mut result = StreamResult::default();
        match self.memory.read(self.incoming.bytes_mut(), &mut result) {
            OK => {
                self.decrypted = result.from..result.from + result.len;
                self.used = result.used;
                Ok(Due::Data)
            }
            MORE if !self.is_closed => {
                self.wanted = result.wanted;
                Ok(Due::Receive)
            }
            END => {
                // What came after the end is no part of the stream.
                self.incoming.remove(result.used);
                self.has_ended = true;
                self.ended(0)
            }
            MORE | CLOSED => self.ended(self.incoming.len()),
            code => Err(self.fail(Error::of(code, None))),
        }
    }

    // What it means that nothing more comes, with so many bytes left: the end of the stream, or a truncation.
    fn ended(&mut self, left: usize) -> Result<Due, Error> {
        self.wanted = 0;
        match self.memory.is_cut(left) {
            OK => Ok(Due::End),
            code => Err(self.fail(Error::of(code, None))),
        }
    }

    // Ends the channel: this party writes nothing more, not even the end of its stream.
    fn fail(&mut self, error: Error) -> Error {
        self.over.set();
        self.wanted = 0;
        self.failure = Some(error.clone());
        error
    }

    // The connection is lost.
    #[cfg(feature = "std")]
    pub(crate) fn lose(&self) {
        self.over.set();
    }

    // The bytes that are decrypted, and how many of them were read.
    #[cfg(feature = "std")]
    pub(crate) fn decrypted(&self) -> &[u8] {
        &self.incoming.bytes()[self.decrypted.clone()]
    }

    #[cfg(feature = "std")]
    pub(crate) fn read(&mut self, count: usize) {
        self.decrypted = match count {
            _ if count < self.decrypted.len() => self.decrypted.start + count..self.decrypted.end,
            _ => 0..0,
        };
    }

    // Room for what comes, and how many bytes of it came.
    #[cfg(feature = "std")]
    pub(crate) fn room(&mut self) -> &mut [u8] {
        self.incoming.room()
    }

    #[cfg(feature = "std")]
    pub(crate) fn came(&mut self, count: usize) {
        self.incoming.came(count);
        self.wanted = self.wanted.saturating_sub(count);
    }

    // Whether more bytes have to come: no frame is whole, and none is refused.
    #[cfg(feature = "std")]
    pub(crate) fn wants(&self) -> bool {
        let is_over = self.has_ended || self.is_closed || self.is_silent || self.failure.is_some();
        let rest = &self.incoming.bytes()[self.used..];
        self.decrypted.is_empty() && !is_over && raw::frame_find(rest, &mut StreamResult::default()) == MORE
    }

    // Gives a large buffer back, of which nothing is used any more.
    #[cfg(feature = "std")]
    pub(crate) fn release(&mut self) {
        self.incoming.release();
    }

    // What came after the frames that were decrypted.
    #[cfg(feature = "std")]
    pub(crate) fn rest(&self) -> &[u8] {
        &self.incoming.bytes()[self.used..]
    }
}

// What was written may be secret.
impl fmt::Debug for Event<'_> {
    fn fmt(&self, f: &mut fmt::Formatter<'_>) -> fmt::Result {
        match self {
            Event::Data(bytes) => write!(f, "Data(.. {} bytes)", bytes.len()),
            Event::Receive(wanted) => f.debug_tuple("Receive").field(wanted).finish(),
            Event::End => f.write_str("End"),
        }
    }
}

#[cfg(test)]
impl StreamReceiver {
    #[allow(dead_code)]
    pub(crate) fn memory(&self) -> &[u8] {
        self.memory.memory()
    }
}

impl fmt::Debug for StreamReceiver {
    fn fmt(&self, f: &mut fmt::Formatter<'_>) -> fmt::Result {
        f.debug_struct("StreamReceiver").field("failure", &self.failure).finish_non_exhaustive()
    }
}

use super::buffers::Outgoing;
use super::Over;
use crate::header::{CLOSED, MAX_FRAME, OK, STREAM_OVERHEAD};
use crate::raw::{self, Held, StreamResult};
use crate::Error;
use core::fmt;

/// The direction of a [`Connection`](crate::Connection) that this party writes.
pub struct StreamSender {
    memory: Held<raw::StreamSender>,
    outgoing: Outgoing,
    has_begun: bool, // before, what is to be sent is the last message of the handshake alone
    over: Over,
}

impl StreamSender {
    pub(super) fn new(memory: Held<raw::StreamSender>, outgoing: Outgoing, over: Over) -> StreamSender {
        StreamSender { memory, outgoing, has_begun: false, over }
    }

    /// Seals the first bytes, at most 65519, as a frame to send, and returns how many: none while an earlier frame is
    /// still to be sent; of the handshake's last message alone the frame is put after it.
    ///
    /// # Errors
    ///
    /// `Closed`: this party has ended its stream. `Aborted`: the channel is over. `Exhausted`: only the end can be
    /// written. `OneWay`.
    pub fn write(&mut self, bytes: &[u8]) -> Result<usize, Error> {
        self.check()?;
        if !self.takes() {
            return Ok(0);
        }
        self.has_begun = true;
        let mut result = StreamResult::default();
        let room = self.outgoing.room(bytes.len().saturating_add(STREAM_OVERHEAD).min(MAX_FRAME));
        match self.memory.write(bytes, room, &mut result) {
            OK => {
                self.outgoing.put(result.len);
                Ok(result.used)
            }
            code => Err(Error::of(code, None)),
        }
    }

    /// Ends this party's stream: its last frame is to be sent. A second time it changes nothing.
    ///
    /// # Errors
    ///
    /// `Aborted`: the channel is over. `OneWay`.
    pub fn end(&mut self) -> Result<(), Error> {
        self.check()?;
        let mut result = StreamResult::default();
        self.has_begun = true;
        match self.memory.end(self.outgoing.room(STREAM_OVERHEAD), &mut result) {
            OK => self.outgoing.put(result.len),
            CLOSED => {}
            code => return Err(Error::of(code, None)),
        }
        Ok(())
    }

    // Whether bytes may be sealed: nothing is to be sent but, at first, the last message of the handshake.
    pub(crate) fn takes(&self) -> bool {
        !self.has_begun || self.outgoing.rest().is_empty()
    }

    // Gives a large buffer back, of which all was sent.
    #[cfg(feature = "std")]
    pub(crate) fn release(&mut self) {
        self.outgoing.release();
    }

    /// The bytes to send, at most 131090: a message of the handshake, a frame, and the end. Once the
    /// channel is over there are none.
    #[must_use]
    pub fn outgoing(&self) -> &[u8] {
        if self.over.is_set() {
            return &[];
        }
        self.outgoing.rest()
    }

    /// The first bytes of [`outgoing`](StreamSender::outgoing), so many, were sent.
    pub fn sent(&mut self, count: usize) {
        self.outgoing.sent(count);
    }

    // Whether the channel isn't over.
    pub(crate) fn check(&self) -> Result<(), Error> {
        if self.over.is_set() {
            return Err(Error::Aborted);
        }
        Ok(())
    }

    // The connection is lost.
    #[cfg(feature = "std")]
    pub(crate) fn lose(&self) {
        self.over.set();
    }
}

#[cfg(test)]
impl StreamSender {
    #[allow(dead_code)]
    pub(crate) fn memory(&self) -> &[u8] {
        self.memory.memory()
    }
}

impl fmt::Debug for StreamSender {
    fn fmt(&self, f: &mut fmt::Formatter<'_>) -> fmt::Result {
        f.debug_struct("StreamSender").field("outgoing", &self.outgoing().len()).finish_non_exhaustive()
    }
}

use super::is_wait;
use crate::StreamSender;
use std::io::{self, ErrorKind, Write};

// The direction that this party writes, over a stream below.
#[derive(Debug)]
pub(crate) struct Writing {
    sender: StreamSender,
    is_due: bool, // the last message of the handshake, which this party sends: until the stream below has flushed it
    is_flushed: bool, // all that the stream below has taken
    is_asked: bool, // for a flush, which isn't done
    is_half: bool, // no read says when nothing is to do
}

impl Writing {
    pub(crate) fn new(sender: StreamSender) -> Writing {
        let is_due = !sender.outgoing().is_empty();
        Writing { sender, is_due, is_flushed: true, is_asked: false, is_half: false }
    }

    pub(crate) fn of_half(self) -> Writing {
        Writing { is_half: true, ..self }
    }

    pub(crate) fn write(&mut self, below: &mut impl Write, bytes: &[u8]) -> io::Result<usize> {
        if !self.sender.takes() {
            self.send(below)?;
        }
        let count = self.sender.write(bytes)?;
        match self.send(below) {
            Err(error) if !is_wait(&error) => Err(error),
            _ => Ok(count), // what isn't written below waits
        }
    }

    pub(crate) fn flush(&mut self, below: &mut impl Write) -> io::Result<()> {
        self.is_asked = true;
        self.send(below)?;
        if self.is_half {
            self.sender.release();
        }
        let flushed = below.flush();
        self.lose(flushed)?;
        (self.is_due, self.is_flushed, self.is_asked) = (false, true, false);
        Ok(())
    }

    // Whether the last message of the handshake is still to be sent, or to be flushed.
    pub(crate) fn is_due(&self) -> bool {
        self.is_due && self.sender.check().is_ok()
    }

    // Before a read that may have to wait, and before a split: the other party may be waiting for the last message of
    // the handshake. Frames alone wait for the next `write` or `flush`.
    pub(crate) fn before_a_wait(&mut self, below: &mut impl Write) -> io::Result<()> {
        if self.is_due() {
            self.flush(below)?;
        }
        Ok(())
    }

    // An error where the channel is over.
    #[cfg(any(feature = "tokio", feature = "futures-io"))]
    pub(crate) fn check(&self) -> io::Result<()> {
        Ok(self.sender.check()?)
    }

    // Whether something waits until the stream below takes bytes.
    pub(crate) fn wants(&self) -> bool {
        self.sender.check().is_ok() && (self.is_due || self.is_asked || !self.sender.outgoing().is_empty())
    }

    // Where a read has to wait a large buffer is given back, of which all was sent.
    pub(crate) fn release_at<R>(&mut self, read: &io::Result<R>) {
        if matches!(read, Err(error) if is_wait(error)) {
            self.sender.release();
        }
    }

    // Ends the stream; or, where an earlier call has sealed the end, continues to send it. What is flushed isn't
    // flushed again: a stream below may be pending at each call.
    pub(crate) fn end(&mut self, below: &mut impl Write) -> io::Result<()> {
        self.sender.end()?;
        self.send(below)?;
        if self.is_flushed {
            return Ok(());
        }
        self.flush(below)
    }

    #[cfg(test)]
    #[allow(dead_code)]
    pub(super) fn memory(&self) -> &[u8] {
        self.sender.memory()
    }

    // Sends what waits. After an error of time a later call continues.
    fn send(&mut self, below: &mut impl Write) -> io::Result<()> {
        self.sender.check()?;
        while !self.sender.outgoing().is_empty() {
            let sent = send(below, self.sender.outgoing());
            let count = self.lose(sent)?;
            self.sender.sent(count);
            self.is_flushed = false;
        }
        Ok(self.sender.check()?)
    }

    // After an error but one of time the connection is lost.
    fn lose<R>(&mut self, result: io::Result<R>) -> io::Result<R> {
        if matches!(&result, Err(error) if !is_wait(error) && error.kind() != ErrorKind::Interrupted) {
            self.sender.lose();
        }
        result
    }
}

// Writes bytes to a stream below, and returns how many: one at least.
pub(super) fn send(below: &mut impl Write, bytes: &[u8]) -> io::Result<usize> {
    loop {
        match below.write(bytes) {
            Ok(0) => return Err(ErrorKind::WriteZero.into()),
            Err(error) if error.kind() == ErrorKind::Interrupted => {}
            answer => return answer,
        }
    }
}

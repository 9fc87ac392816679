use super::{again, is_wait};
use crate::connection::receiver::Due;
use crate::StreamReceiver;
use std::io::{self, ErrorKind, Read};

// The direction that this party reads, over a stream below.
#[derive(Debug)]
pub(crate) struct Reading {
    receiver: StreamReceiver,
    lost: Option<io::Error>, // the error of the stream below
}

impl Reading {
    pub(crate) fn new(receiver: StreamReceiver) -> Reading {
        Reading { receiver, lost: None }
    }

    pub(crate) fn read(&mut self, below: &mut impl Read, into: &mut [u8]) -> io::Result<usize> {
        if into.is_empty() && self.lost.is_none() {
            return Ok(0);
        }
        let bytes = self.fill(below)?;
        let count = bytes.len().min(into.len());
        into[..count].copy_from_slice(&bytes[..count]);
        self.receiver.read(count);
        Ok(count)
    }

    // The bytes that are decrypted; at the end of the stream none.
    pub(crate) fn fill(&mut self, below: &mut impl Read) -> io::Result<&[u8]> {
        if let Some(error) = &self.lost {
            return Err(again(error));
        }
        while let Due::Receive = self.receiver.due()? {
            self.receive(below)?;
        }
        Ok(self.receiver.decrypted())
    }

    // So many of them were read.
    pub(crate) fn consume(&mut self, count: usize) {
        self.receiver.read(count);
    }

    // Whether a read has to wait for bytes.
    pub(crate) fn wants(&self) -> bool {
        self.lost.is_none() && self.receiver.wants()
    }

    // Whether bytes are decrypted.
    pub(crate) fn has_decrypted(&self) -> bool {
        !self.receiver.decrypted().is_empty()
    }

    // What came after the frames that were decrypted.
    pub(crate) fn rest(&self) -> Vec<u8> {
        self.receiver.rest().to_vec()
    }

    #[cfg(test)]
    #[allow(dead_code)]
    pub(super) fn memory(&self) -> &[u8] {
        self.receiver.memory()
    }

    fn receive(&mut self, below: &mut impl Read) -> io::Result<()> {
        match receive(below, self.receiver.room()) {
            Ok(0) => self.receiver.closed(),
            Ok(count) => self.receiver.came(count),
            Err(error) if is_wait(&error) => {
                self.receiver.release();
                return Err(error);
            }
            Err(error) => {
                self.lose(&error);
                return Err(error);
            }
        }
        Ok(())
    }

    // The connection is lost: each later read returns the same error, unless that is one of time.
    pub(crate) fn lose(&mut self, error: &io::Error) {
        if !is_wait(error) {
            self.receiver.lose();
            self.lost = Some(again(error));
        }
    }
}

// Receives bytes of a stream below, and returns how many; at its end none.
pub(super) fn receive(below: &mut impl Read, room: &mut [u8]) -> io::Result<usize> {
    loop {
        match below.read(room) {
            Err(error) if error.kind() == ErrorKind::Interrupted => {}
            answer => return answer,
        }
    }
}

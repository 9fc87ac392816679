use crate::header::MAX_FRAME;
use crate::raw::wipe;
use alloc::vec;
use alloc::vec::Vec;
use core::ops::Range;

// The bytes of a buffer that is kept while nothing comes and nothing is to be sent.
const KEPT: usize = 4096;

// A buffer with so many bytes grows to four times as many, and a little more: so a frame of 16 KiB takes two steps.
fn grown(len: usize) -> usize {
    (4 * len + 64).clamp(KEPT, MAX_FRAME)
}

// Bytes that came, and aren't used yet. The buffer grows with what comes, whatever length a frame begins with.
#[derive(Default)]
pub(super) struct Incoming {
    buffer: Vec<u8>,
    have: Range<usize>,
}

impl Incoming {
    pub(super) fn len(&self) -> usize {
        self.have.len()
    }

    pub(super) fn bytes(&self) -> &[u8] {
        &self.buffer[self.have.clone()]
    }

    pub(super) fn bytes_mut(&mut self) -> &mut [u8] {
        &mut self.buffer[self.have.clone()]
    }

    // Room for what comes: for one byte at least.
    pub(super) fn room(&mut self) -> &mut [u8] {
        if self.have.is_empty() {
            self.have = 0..0;
        }
        if self.have.end == self.buffer.len() {
            self.make_room();
        }
        &mut self.buffer[self.have.end..]
    }

    // The first bytes of the room came.
    pub(super) fn came(&mut self, count: usize) {
        self.have.end += count;
    }

    // Takes at most `wanted` bytes, and returns how many.
    pub(super) fn take(&mut self, bytes: &[u8], wanted: usize) -> usize {
        let mut rest = &bytes[..bytes.len().min(wanted)];
        let taken = rest.len();
        while !rest.is_empty() {
            let room = self.room();
            let count = room.len().min(rest.len());
            room[..count].copy_from_slice(&rest[..count]);
            self.came(count);
            rest = &rest[count..];
        }
        taken
    }

    fn make_room(&mut self) {
        let have = self.have.clone();
        if have.start > 0 {
            self.buffer.copy_within(have.clone(), 0);
        } else {
            let mut larger = vec![0; grown(have.len())];
            larger[..have.len()].copy_from_slice(&self.buffer);
            wipe(&mut self.buffer);
            self.buffer = larger;
        }
        self.have = 0..have.len();
    }

    pub(super) fn remove(&mut self, used: usize) {
        self.have.start += used;
    }

    // Gives a large buffer back, of which nothing is used any more.
    pub(super) fn release(&mut self) {
        if self.have.is_empty() && self.buffer.len() > KEPT {
            wipe(&mut self.buffer);
            *self = Incoming::default();
        }
    }
}

impl Drop for Incoming {
    fn drop(&mut self) {
        wipe(&mut self.buffer);
    }
}

// Frames, and which bytes of them are still to be sent.
#[derive(Default)]
pub(super) struct Outgoing {
    buffer: Vec<u8>,
    rest: Range<usize>,
}

impl Outgoing {
    pub(super) fn rest(&self) -> &[u8] {
        &self.buffer[self.rest.clone()]
    }

    // Room for a frame of at most so many bytes, after what is still to be sent.
    pub(super) fn room(&mut self, len: usize) -> &mut [u8] {
        if self.rest.is_empty() {
            self.rest = 0..0;
        }
        let start = self.rest.end;
        if self.buffer.len() < start + len {
            self.buffer.resize(start + len, 0);
        }
        &mut self.buffer[start..]
    }

    // The room begins with a frame of so many bytes.
    pub(super) fn put(&mut self, len: usize) {
        self.rest.end += len;
    }

    // So many bytes were sent.
    pub(super) fn sent(&mut self, count: usize) {
        self.rest.start = self.rest.end.min(self.rest.start + count);
    }

    // Gives a large buffer back, of which all was sent.
    pub(super) fn release(&mut self) {
        if self.rest.is_empty() && self.buffer.len() > KEPT {
            *self = Outgoing::default();
        }
    }
}

#[cfg(test)]
mod tests {
    use super::*;
    use crate::header::STREAM_OVERHEAD;

    #[test]
    fn large_buffers_are_given_back() {
        let mut incoming = Incoming::default();
        incoming.room();
        assert_eq!(incoming.buffer.len(), KEPT);
        for kept in [grown(KEPT), MAX_FRAME] {
            let count = incoming.room().len();
            incoming.came(count);
            incoming.room();
            assert_eq!(incoming.buffer.len(), kept);
        }
        incoming.release();
        assert_eq!(incoming.buffer.len(), MAX_FRAME, "bytes of it aren't used yet");
        incoming.remove(incoming.len());
        incoming.room();
        assert_eq!(incoming.buffer.len(), MAX_FRAME, "the next frame may be as large");
        incoming.release();
        incoming.room();
        assert_eq!(incoming.buffer.len(), KEPT);
        let mut outgoing = Outgoing::default();
        outgoing.room(KEPT + 1);
        outgoing.put(KEPT + 1);
        outgoing.sent(KEPT);
        outgoing.release();
        assert_eq!(outgoing.buffer.len(), KEPT + 1);
        outgoing.sent(1);
        outgoing.release();
        assert_eq!(outgoing.buffer.capacity(), 0);
    }

    #[test]
    fn a_frame_of_16_kib_takes_two_steps() {
        let (mut incoming, mut steps, frame) = (Incoming::default(), 0, (16 << 10) + STREAM_OVERHEAD);
        while incoming.len() < frame {
            let count = incoming.room().len().min(frame - incoming.len());
            incoming.came(count);
            steps += 1;
        }
        assert_eq!((steps, incoming.buffer.len()), (2, grown(KEPT)));
    }
}

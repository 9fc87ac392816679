use super::reading::receive;
use super::writing::send;
use crate::connection::connecting::Peer;
use crate::{Connecting, Dh, Ephemeral, Error, Handshake, Step};
use std::io::{self, Read, Write};

// A handshake over a stream below.
pub(crate) struct Passing<S: Dh, E: Ephemeral> {
    pub(crate) connecting: Connecting<S, E>,
    is_flushed: bool,
}

// What a handshake asks its party for.
pub(crate) enum Asked {
    Verify([u8; 32]),
    Psk([u8; 32]),
    Nothing, // all messages have passed
}

impl<S: Dh, E: Ephemeral> Passing<S, E> {
    pub(crate) fn new(handshake: Handshake<S, E>, peer: Peer) -> Result<Passing<S, E>, Error> {
        Ok(Passing { connecting: Connecting::with(handshake, peer)?, is_flushed: true })
    }

    // Whether it waits to send, or for a flush.
    pub(crate) fn wants_write(&self) -> bool {
        !self.connecting.outgoing().is_empty() || !self.is_flushed
    }

    // Sends and receives until the party is asked for something. After an error of time a later call continues. The
    // last message, if it is this party's, is kept: the channel sends it with its first frame, unless the party has
    // said otherwise.
    pub(crate) fn pass(&mut self, below: &mut (impl Read + Write)) -> io::Result<Asked> {
        loop {
            match self.connecting.step()? {
                Step::Send(_) => {
                    if self.connecting.is_last() && !self.connecting.flushes() {
                        return Ok(Asked::Nothing);
                    }
                    let count = send(below, self.connecting.outgoing())?;
                    self.connecting.sent(count);
                    self.is_flushed = false;
                }
                _ if !self.is_flushed => {
                    below.flush()?;
                    self.is_flushed = true;
                }
                Step::Receive(_) => match receive(below, self.connecting.room())? {
                    0 => self.connecting.closed(),
                    count => self.connecting.came(count),
                },
                Step::Verify(key) => return Ok(Asked::Verify(key)),
                Step::WantedPsk(key) => return Ok(Asked::Psk(key)),
                Step::Done => return Ok(Asked::Nothing),
            }
        }
    }
}

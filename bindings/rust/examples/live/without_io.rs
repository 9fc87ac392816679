// A channel over a WebSocket, by the types without IO: each message of the channel is one of the
// WebSocket, without its length.
use super::websocket::WebSocket;
use super::{bytes_of, Report, Run};
use std::io;
use std::net::{TcpListener, TcpStream};
use std::sync::mpsc;
use std::thread;
use yulimosar::{Connecting, Connection, Error, Event, Step, StreamReceiver, StreamSender};

pub fn run(run: Run) -> io::Result<Report> {
    let mut socket = if run.is_initiator {
        WebSocket::client(TcpStream::connect(&run.address)?)?
    } else {
        let listener = TcpListener::bind(&run.address)?;
        println!("{}", listener.local_addr()?);
        WebSocket::server(listener.accept()?.0)?
    };
    let (mut sender, receiver) = connected(&run, &mut socket)?.split();
    let (says, hears) = mpsc::channel();
    let (bytes, first, mut out) = (bytes_of(run.is_initiator, run.size), run.ends_first, socket.try_clone()?);
    let writer = thread::spawn(move || {
        let (wrote, is_whole) = write(&mut sender, &mut out, &bytes);
        let may_end = is_whole && (first || hears.recv() == Ok(true));
        (wrote, may_end && end(&mut sender, &mut out).is_ok())
    });
    let (read, ended) = read(receiver, &mut socket, &bytes_of(!run.is_initiator, run.size));
    let _ = says.send(ended.is_ok());
    let (wrote, has_ended) = writer.join().expect("no panic");
    if ended.is_ok() && has_ended {
        let _ = socket.close();
    }
    Ok(Report { wrote, has_ended, read, end: ended })
}

// Passes the handshake.
fn connected(run: &Run, socket: &mut WebSocket) -> io::Result<Connection> {
    let peer = run.peer();
    let handshake = run.handshake()?;
    let mut connecting = if peer.is_some() { Connecting::new(handshake) } else { Connecting::anonymous(handshake) }?;
    let mut came = Vec::new(); // of the message that came last, with its length
    loop {
        match connecting.step()? {
            Step::Send(frames) => {
                let count = frames.len();
                send(socket, frames)?;
                connecting.sent(count);
            }
            Step::Receive(_) if came.is_empty() => match socket.receive()? {
                Some(message) => came = frame_of(&message),
                None => connecting.closed(),
            },
            Step::Receive(_) => drop(came.drain(..connecting.receive(&came))),
            Step::Verify(key) if Some(key) == peer => connecting.accept(),
            Step::Done => return Ok(connecting.finish()?),
            _ => return Err(Error::Refused.into()),
        }
    }
}

// Sends each of these frames as a message.
fn send(socket: &mut WebSocket, mut frames: &[u8]) -> io::Result<()> {
    while let [high, low, rest @ ..] = frames {
        let (message, others) = rest.split_at(u16::from_be_bytes([*high, *low]).into());
        socket.send(message)?;
        frames = others;
    }
    Ok(())
}

fn frame_of(message: &[u8]) -> Vec<u8> {
    let mut frame = (message.len() as u16).to_be_bytes().to_vec();
    frame.extend_from_slice(message);
    frame
}

// Sends what is to be sent.
fn flush(sender: &mut StreamSender, socket: &mut WebSocket) -> io::Result<()> {
    let count = sender.outgoing().len();
    send(socket, sender.outgoing())?;
    sender.sent(count);
    Ok(())
}

// Writes, and returns how many bytes, with those of a write that has failed after a part of them was
// sent; and whether none has.
fn write(sender: &mut StreamSender, socket: &mut WebSocket, bytes: &[u8]) -> (usize, bool) {
    let mut wrote = 0;
    for part in bytes.chunks(10_000) {
        wrote += part.len();
        if sender.write(part).is_err() || flush(sender, socket).is_err() {
            return (wrote, false);
        }
    }
    (wrote, true)
}

// Ends the stream. Once the channel is over `end` fails, and nothing was sent.
fn end(sender: &mut StreamSender, socket: &mut WebSocket) -> io::Result<()> {
    sender.end()?;
    flush(sender, socket)?;
    Ok(sender.end()?)
}

fn read(mut receiver: StreamReceiver, socket: &mut WebSocket, expected: &[u8]) -> (usize, io::Result<()>) {
    let (mut came, mut count) = (Vec::new(), 0);
    let mut next = || -> io::Result<bool> {
        match receiver.event()? {
            Event::Data(bytes) => {
                assert_eq!(bytes, &expected[count..count + bytes.len()]);
                count += bytes.len();
            }
            Event::Receive(_) if came.is_empty() => match socket.receive()? {
                Some(message) => came = frame_of(&message),
                None => receiver.closed(),
            },
            Event::Receive(_) => drop(came.drain(..receiver.receive(&came))),
            Event::End => return Ok(true),
            other => panic!("{other:?}"),
        }
        Ok(false)
    };
    let ended = loop {
        match next() {
            Ok(false) => {}
            Ok(true) => break Ok(()),
            Err(error) => break Err(error),
        }
    };
    (count, ended)
}

use super::{bytes_of, Report, Run};
use std::io::{self, Read, Write};
use std::net::{TcpListener, TcpStream};
use std::sync::mpsc;
use std::thread;
use yulimosar::{ReadHalf, Stream};

pub fn run(run: Run) -> io::Result<Report> {
    let below = if run.is_initiator {
        TcpStream::connect(&run.address)?
    } else {
        let listener = TcpListener::bind(&run.address)?;
        println!("{}", listener.local_addr()?);
        listener.accept()?.0
    };
    below.set_nodelay(true)?;
    let stream = match run.peer() {
        Some(peer) => Stream::new(below, run.handshake()?, |key| key == &peer)?,
        None => Stream::anonymous(below, run.handshake()?)?,
    };
    let (mut reads, mut writes) = stream.split(TcpStream::try_clone)?;
    let (says, hears) = mpsc::channel();
    let (bytes, first) = (bytes_of(run.is_initiator, run.size), run.ends_first);
    let writer = thread::spawn(move || {
        let (wrote, is_whole) = write(&mut writes, &bytes);
        let may_end = is_whole && (first || hears.recv() == Ok(true));
        (wrote, may_end && writes.close_write().is_ok())
    });
    let (read, end) = read(&mut reads, &bytes_of(!run.is_initiator, run.size));
    let _ = says.send(end.is_ok());
    let (wrote, has_ended) = writer.join().expect("no panic");
    Ok(Report { wrote, has_ended, read, end })
}

// Writes, and returns how many bytes, with those of a write that has failed after a part of them was
// sent; and whether none has.
fn write(writes: &mut impl Write, bytes: &[u8]) -> (usize, bool) {
    let mut wrote = 0;
    for part in bytes.chunks(10_000) {
        wrote += part.len();
        if writes.write_all(part).is_err() {
            return (wrote, false);
        }
    }
    (wrote, true)
}

fn read(reads: &mut ReadHalf<TcpStream>, expected: &[u8]) -> (usize, io::Result<()>) {
    let (mut bytes, mut count) = ([0; 5000], 0);
    loop {
        match reads.read(&mut bytes) {
            Ok(0) => return (count, Ok(())),
            Ok(some) => {
                assert_eq!(&bytes[..some], &expected[count..count + some]);
                count += some;
            }
            Err(error) => return (count, Err(error)),
        }
    }
}

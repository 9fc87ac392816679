// A WebSocket (RFC 6455) for the messages of a channel: binary ones of at most 65535 bytes. It has no
// extensions, and answers no ping.
use openssl::base64::encode_block;
use openssl::rand::rand_bytes;
use openssl::sha::sha1;
use std::io::{self, ErrorKind, Read, Write};
use std::net::{Shutdown, TcpStream};
use std::time::Duration;

const MOST: usize = 65535;

// What a frame is (RFC 6455, 5.2).
const CONTINUED: u8 = 0;
const TEXT: u8 = 1;
const BINARY: u8 = 2;
const CLOSE: u8 = 8;

pub struct WebSocket {
    below: TcpStream,
    is_client: bool,
}

impl WebSocket {
    // The end that asks for it.
    pub fn client(mut below: TcpStream) -> io::Result<WebSocket> {
        below.set_nodelay(true)?;
        let mut bytes = [0; 16];
        rand_bytes(&mut bytes)?;
        let key = encode_block(&bytes);
        let asked = "GET / HTTP/1.1\r\nHost: localhost\r\nUpgrade: websocket\r\nConnection: Upgrade\r\n\
                     Sec-WebSocket-Version: 13";
        below.write_all(format!("{asked}\r\nSec-WebSocket-Key: {key}\r\n\r\n").as_bytes())?;
        let head = head(&mut below)?;
        if !head.starts_with("HTTP/1.1 101 ") || field(&head, "sec-websocket-accept") != Some(&accepted(&key)) {
            return Err(wrong());
        }
        Ok(WebSocket { below, is_client: true })
    }

    // The end that is asked.
    pub fn server(mut below: TcpStream) -> io::Result<WebSocket> {
        below.set_nodelay(true)?;
        let head = head(&mut below)?;
        let key = accepted(field(&head, "sec-websocket-key").ok_or_else(wrong)?);
        let answer = "HTTP/1.1 101 Switching Protocols\r\nUpgrade: websocket\r\nConnection: Upgrade";
        below.write_all(format!("{answer}\r\nSec-WebSocket-Accept: {key}\r\n\r\n").as_bytes())?;
        Ok(WebSocket { below, is_client: false })
    }

    // The same WebSocket, for another thread.
    pub fn try_clone(&self) -> io::Result<WebSocket> {
        Ok(WebSocket { below: self.below.try_clone()?, is_client: self.is_client })
    }

    pub fn send(&mut self, message: &[u8]) -> io::Result<()> {
        self.put(BINARY, message)
    }

    // Says that nothing more comes, and waits until the other party has said it, too, 5 seconds at most.
    pub fn close(mut self) -> io::Result<()> {
        self.put(CLOSE, &1000_u16.to_be_bytes())?;
        self.below.shutdown(Shutdown::Write)?;
        self.below.set_read_timeout(Some(Duration::from_secs(5)))?;
        io::copy(&mut self.below, &mut io::sink()).map(|_| ())
    }

    // A frame, which a client masks.
    fn put(&mut self, opcode: u8, bytes: &[u8]) -> io::Result<()> {
        let masked = u8::from(self.is_client) << 7;
        let mut frame = vec![0x80 | opcode];
        match bytes.len() {
            len if len < 126 => frame.push(masked | len as u8),
            len => {
                frame.push(masked | 126);
                frame.extend_from_slice(&(len as u16).to_be_bytes());
            }
        }
        let mut mask = [0; 4];
        if self.is_client {
            rand_bytes(&mut mask)?;
            frame.extend_from_slice(&mask);
        }
        frame.extend(bytes.iter().zip(mask.iter().cycle()).map(|(byte, mask)| byte ^ mask));
        self.below.write_all(&frame)
    }

    // The next message; `None` if the connection has ended. A text is no message of a channel: an empty one takes its
    // place, and is refused.
    pub fn receive(&mut self) -> io::Result<Option<Vec<u8>>> {
        match self.message() {
            Err(error) if error.kind() == ErrorKind::UnexpectedEof => Ok(None),
            answer => answer,
        }
    }

    fn message(&mut self) -> io::Result<Option<Vec<u8>>> {
        let (mut message, mut is_text) = (Vec::new(), false);
        loop {
            let (is_last, opcode, part) = self.frame()?;
            match opcode {
                CLOSE => return Ok(None),
                CONTINUED | TEXT | BINARY if message.len() + part.len() <= MOST => message.extend(part),
                CONTINUED | TEXT | BINARY => return Err(wrong()),
                _ => continue, // a ping
            }
            is_text |= opcode == TEXT;
            if is_last {
                return Ok(Some(if is_text { Vec::new() } else { message }));
            }
        }
    }

    // Whether a frame is the last of its message, what it is, and its bytes.
    fn frame(&mut self) -> io::Result<(bool, u8, Vec<u8>)> {
        let [first, second] = self.bytes()?;
        let len = match second & 0x7f {
            126 => u16::from_be_bytes(self.bytes()?).into(),
            127 => return Err(wrong()), // longer than any message
            len => len.into(),
        };
        let mask: [u8; 4] = if second & 0x80 != 0 { self.bytes()? } else { [0; 4] };
        let mut bytes = vec![0; len];
        self.below.read_exact(&mut bytes)?;
        bytes.iter_mut().zip(mask.iter().cycle()).for_each(|(byte, mask)| *byte ^= mask);
        Ok((first & 0x80 != 0, first & 0x0f, bytes))
    }

    fn bytes<const N: usize>(&mut self) -> io::Result<[u8; N]> {
        let mut bytes = [0; N];
        self.below.read_exact(&mut bytes)?;
        Ok(bytes)
    }
}

fn wrong() -> io::Error {
    io::Error::new(ErrorKind::ConnectionAborted, "the other party speaks no WebSocket, or another one")
}

// The head of a request or an answer, with the empty line after it.
fn head(below: &mut TcpStream) -> io::Result<String> {
    let mut head = Vec::new();
    while !head.ends_with(b"\r\n\r\n") && head.len() < 4096 {
        let mut byte = [0];
        below.read_exact(&mut byte)?;
        head.extend(byte);
    }
    String::from_utf8(head).map_err(|_| wrong())
}

// The value of a field of a head.
fn field<'h>(head: &'h str, name: &str) -> Option<&'h str> {
    let mut fields = head.lines().filter_map(|line| line.split_once(':'));
    fields.find(|(own, _)| own.eq_ignore_ascii_case(name)).map(|(_, value)| value.trim())
}

// What shows that a key was read (RFC 6455, 4.2.2).
fn accepted(key: &str) -> String {
    encode_block(&sha1(format!("{key}258EAFA5-E914-47DA-95CA-C5AB0DC85B11").as_bytes()))
}

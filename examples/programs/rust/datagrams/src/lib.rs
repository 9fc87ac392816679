//! The rules of docs/UDP.md for first messages and addresses, which need no keys of a handshake.
//! `src/main.rs` runs them on the cases of vectors/datagrams.json.

use openssl::{hash::MessageDigest, memcmp, pkey::PKey, sha::sha256, sign::Signer};
use std::{
    collections::HashMap,
    net::{IpAddr, SocketAddr},
};

pub const INDEX: usize = 8;
/// The length of a cookie, and of the hash in its reply.
pub const COOKIE: usize = 16;
const OVERHEAD: usize = 1 + INDEX + 8 + 16;
const REPLY: usize = 1 + 2 * COOKIE;
const TIMES: usize = 3;
const PERIOD: u64 = 120_000;
const MOST_A_SECOND: u32 = 32;

/// What a datagram is, by its first byte and length.
#[derive(Clone, Copy, Debug, PartialEq, Eq)]
pub enum Kind {
    None,
    Message,
    Transport,
    CookieReply,
    WithCookie,
}

impl Kind {
    /// Of a pattern with so many messages.
    pub fn of(datagram: &[u8], messages: u8) -> Kind {
        match (datagram.first(), datagram.len()) {
            (Some(&first), _) if first < messages => Kind::Message,
            (Some(8), OVERHEAD..) => Kind::Transport,
            (Some(9), REPLY) => Kind::CookieReply,
            (Some(10), len) if len > 1 + COOKIE => Kind::WithCookie,
            _ => Kind::None,
        }
    }
}

/// What a responder does at a first message that begins a handshake.
#[derive(Clone, Copy, Debug, PartialEq, Eq)]
pub enum First {
    Answer,
    Cookie,
    None,
}

impl First {
    /// In a datagram of `came` bytes, to which `answer` bytes would be sent. `shown`: a right cookie came with it.
    pub fn of(half_done: usize, busy: usize, shown: bool, came: usize, answer: usize) -> First {
        if shown || half_done < busy && may_send(came, 0, answer, false) {
            First::Answer
        } else if may_send(came, 0, REPLY, false) {
            First::Cookie
        } else {
            First::None
        }
    }
}

/// Whether `len` bytes may go to an address from which `came` bytes came, and to which `sent` went.
pub fn may_send(came: usize, sent: usize, len: usize, shown: bool) -> bool {
    shown || sent + len <= TIMES * came
}

/// Whether a session's address becomes that of a datagram that opened; no nonce is the newest before the first one.
pub fn moves(nonce: u64, newest: Option<u64>) -> bool {
    newest.map_or(true, |newest| nonce > newest)
}

/// Which handshake is closed where there are too many: its place in a list of hosts and of whether each is done, the
/// oldest first.
pub fn gives_way(begun: &[(Vec<u8>, bool)]) -> Option<usize> {
    let all_done = begun.iter().all(|it| it.1);
    let mut counts = HashMap::new();
    for (host, _) in begun.iter().filter(|it| all_done || !it.1) {
        *counts.entry(host).or_insert(0) += 1;
    }
    let most = counts.values().max().copied();
    begun.iter().position(|it| (all_done || !it.1) && counts.get(&it.0).copied() == most)
}

/// What a cookie has of an address.
pub fn address_bytes(from: &SocketAddr) -> Vec<u8> {
    let mut made = match from.ip() {
        IpAddr::V4(ip) => [&[4][..], &ip.octets()].concat(),
        IpAddr::V6(ip) => match ip.octets() {
            [0, 0, 0, 0, 0, 0, 0, 0, 0, 0, 255, 255, v4 @ ..] => [&[4][..], &v4].concat(),
            all => [&[6][..], &all].concat(),
        },
    };
    made.extend(from.port().to_be_bytes());
    made
}

/// By what half-done handshakes are counted: an IPv4 address, or the first 64 bits of an IPv6 address.
pub fn host(from: &SocketAddr) -> Vec<u8> {
    let bytes = address_bytes(from);
    bytes[1..if bytes[0] == 4 { 5 } else { 9 }].to_vec()
}

/// The cookie of an address and a first message.
pub fn cookie(
    secret: &[u8; 32],
    from: &SocketAddr,
    message: &[u8],
) -> Result<[u8; COOKIE], openssl::error::ErrorStack> {
    let key = PKey::hmac(secret)?;
    let text = [&address_bytes(from)[..], &sha256(message)].concat();
    let mac = Signer::new(MessageDigest::sha256(), &key)?.sign_oneshot_to_vec(&text)?;
    let mut made = [0; COOKIE];
    made.copy_from_slice(&mac[..COOKIE]);
    Ok(made)
}

/// The datagram with a cookie.
pub fn reply(message: &[u8], cookie: &[u8; COOKIE]) -> Vec<u8> {
    [&[9][..], &sha256(message)[..COOKIE], cookie].concat()
}

/// The datagram with which a cookie is answered.
pub fn with_cookie(cookie: &[u8; COOKIE], message: &[u8]) -> Vec<u8> {
    [&[10][..], cookie, message].concat()
}

/// The cookie in a reply, if the reply is for this message.
pub fn cookie_in<'a>(reply: &'a [u8], message: &[u8]) -> Option<&'a [u8]> {
    (reply.len() == REPLY && reply[1..=COOKIE] == sha256(message)[..COOKIE]).then(|| &reply[1 + COOKIE..])
}

/// The index of a session, by the last message of its handshake.
pub fn index(last: &[u8]) -> &[u8] {
    &last[last.len().saturating_sub(INDEX)..]
}

/// A responder's secrets: one makes cookies for 120 seconds, and counts for 120 more. `now` is in milliseconds.
pub struct Cookies<F> {
    draw: F,
    secrets: Vec<([u8; 32], u64)>, // with the time when it was drawn, the newest first
}

impl<F: FnMut() -> [u8; 32]> Cookies<F> {
    pub fn new(draw: F) -> Self {
        Self { draw, secrets: Vec::new() }
    }

    fn renew(&mut self, now: u64) {
        self.secrets.retain(|it| now - it.1 < 2 * PERIOD);
        if self.secrets.first().map_or(true, |it| now - it.1 >= PERIOD) {
            self.secrets.insert(0, ((self.draw)(), now));
        }
    }

    pub fn make(&mut self, from: &SocketAddr, message: &[u8], now: u64) -> Option<[u8; COOKIE]> {
        self.renew(now);
        cookie(&self.secrets.first()?.0, from, message).ok()
    }

    pub fn accept(&mut self, made: &[u8], from: &SocketAddr, message: &[u8], now: u64) -> bool {
        self.renew(now);
        let is_right = |secret| cookie(secret, from, message).map_or(false, |it| memcmp::eq(&it, made));
        made.len() == COOKIE && self.secrets.iter().filter(|it| is_right(&it.0)).count() > 0
    }
}

/// How many handshakes of each host were begun by a cookie in this second.
#[derive(Default)]
pub struct Rate {
    second: u64,
    counts: HashMap<Vec<u8>, u32>,
}

impl Rate {
    /// Whether one more of a host may begin; if so, it is counted. `now` is in milliseconds.
    pub fn allow(&mut self, host: &[u8], now: u64) -> bool {
        if now / 1000 != self.second {
            self.second = now / 1000;
            self.counts.clear();
        }
        let count = self.counts.entry(host.to_vec()).or_insert(0);
        let may = *count < MOST_A_SECOND;
        *count += u32::from(may);
        may
    }
}

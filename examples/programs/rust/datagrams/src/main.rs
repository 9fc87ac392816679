//! Runs the rules on the lines of checks/bindings/datagrams.py: a line with what each gives.

use datagrams::{Cookies, First, Kind, Rate};
use std::{error::Error, io::stdin, net::SocketAddr};

type Result<T> = std::result::Result<T, Box<dyn Error>>;

fn bytes(digits: &str) -> Result<Vec<u8>> {
    let pairs = (0..digits.len()).step_by(2).map(|at| u8::from_str_radix(&digits[at..at + 2], 16));
    Ok(pairs.collect::<std::result::Result<_, _>>()?)
}

fn hex(bytes: &[u8]) -> String {
    bytes.iter().map(|it| format!("{it:02x}")).collect()
}

fn address(ip: &str, port: &str) -> Result<SocketAddr> {
    Ok(SocketAddr::new(ip.parse()?, port.parse()?))
}

fn secret(digits: &str) -> Result<[u8; 32]> {
    Ok(bytes(digits)?.try_into().map_err(|_| "a secret of another length")?)
}

fn kind(words: &[&str]) -> Result<String> {
    let mut datagram = vec![7; words[1].parse()?];
    if let (Some(first), Ok(byte)) = (datagram.first_mut(), words[0].parse()) {
        *first = byte;
    }
    Ok(match Kind::of(&datagram, words[2].parse()?) {
        Kind::None => "none",
        Kind::Message => "message",
        Kind::Transport => "transport",
        Kind::CookieReply => "cookie reply",
        Kind::WithCookie => "with cookie",
    }
    .to_owned())
}

fn cookie(words: &[&str]) -> Result<String> {
    let (from, message) = (address(words[1], words[2])?, bytes(words[3])?);
    let made = datagrams::cookie(&secret(words[0])?, &from, &message)?;
    let all = [
        datagrams::address_bytes(&from),
        made.to_vec(),
        datagrams::reply(&message, &made),
        datagrams::with_cookie(&made, &message),
    ];
    Ok(all.map(|it| hex(&it)).join(" "))
}

/// The secrets, and then for each step a millisecond and a cookie.
fn secrets(words: &[&str]) -> Result<String> {
    let (from, message) = (address(words[0], words[1])?, bytes(words[2])?);
    let mut drawn = words[3].split(',').map(secret).collect::<Result<Vec<_>>>()?.into_iter();
    let mut cookies = Cookies::new(move || drawn.next().unwrap_or([0; 32]));
    let mut said = Vec::new();
    for step in words[4..].chunks(2) {
        said.push(cookies.accept(&bytes(step[1])?, &from, &message, step[0].parse()?).to_string());
    }
    Ok(said.join(" "))
}

fn first(words: &[&str]) -> Result<String> {
    let number = |at: usize| words[at].parse::<usize>();
    Ok(match First::of(number(0)?, number(1)?, words[2] == "true", number(3)?, number(4)?) {
        First::Answer => "answer",
        First::Cookie => "cookie",
        First::None => "none",
    }
    .to_owned())
}

fn gives_way(words: &[&str]) -> Result<String> {
    let begun: Vec<_> = words[0].bytes().map(|it| (vec![it.to_ascii_lowercase()], it.is_ascii_uppercase())).collect();
    Ok(datagrams::gives_way(&begun).ok_or("none gives way")?.to_string())
}

/// For each step a millisecond, a host and a count.
fn rates(words: &[&str]) -> Result<String> {
    let (mut rate, mut said) = (Rate::default(), Vec::new());
    for step in words.chunks(3) {
        let (now, count) = (step[0].parse()?, step[2].parse::<u32>()?);
        said.push((0..count).filter(|_| rate.allow(step[1].as_bytes(), now)).count().to_string());
    }
    Ok(said.join(" "))
}

fn answer(line: &str) -> Result<String> {
    let words: Vec<_> = line.split(' ').collect();
    let number = |at: usize| words[at].parse::<usize>();
    Ok(match words[0] {
        "kind" => kind(&words[1..])?,
        "host" => hex(&datagrams::host(&address(words[1], "1")?)),
        "cookie" => cookie(&words[1..])?,
        "reply" => datagrams::cookie_in(&bytes(words[1])?, &bytes(words[2])?).map_or("none".to_owned(), hex),
        "secrets" => secrets(&words[1..])?,
        "first" => first(&words[1..])?,
        "send" => datagrams::may_send(number(1)?, number(2)?, number(3)?, words[4] == "true").to_string(),
        "rates" => rates(&words[1..])?,
        "givesWay" => gives_way(&words[1..])?,
        "move" => {
            let newest = u64::from_str_radix(words[2], 16).ok();
            datagrams::moves(u64::from_str_radix(words[1], 16)?, newest).to_string()
        }
        "index" => hex(datagrams::index(&bytes(words[1])?)),
        _ => return Err(format!("an unknown rule: {line}").into()),
    })
}

fn main() -> Result<()> {
    for line in stdin().lines() {
        println!("{}", answer(&line?)?);
    }
    Ok(())
}

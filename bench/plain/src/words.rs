//! The words of commands and the values of setups: names, tokens, numbers, prefixes and targets.

use std::net::{IpAddr, Ipv4Addr, Ipv6Addr, SocketAddr};
use std::sync::Arc;

use crate::book::{Limits, MAX_MONEY, MAX_TERM, Order, Terms, Text};
use crate::packet;
use crate::simd;

pub fn name(word: &[u8]) -> Option<Text<32>> {
    let is_byte = |b: &u8| b.is_ascii_lowercase() || b.is_ascii_digit() || *b == b'-';
    (1..=32).contains(&word.len()).then_some(())?;
    word.iter().all(is_byte).then(|| Text::new(word))
}

pub fn asset(word: &[u8]) -> Option<Text<16>> {
    (1..=16).contains(&word.len()).then_some(())?;
    word.iter().all(u8::is_ascii_alphanumeric).then(|| Text::new(word))
}

/// A token; behind the word other bytes can be read.
pub fn token(word: &[u8]) -> Option<Text<64>> {
    unsafe { simd::is_token(word.as_ptr(), word.len()) }.then(|| Text::new(word))
}

pub fn is_child(word: &[u8]) -> Option<bool> {
    match word {
        b"child" => Some(true),
        b"peer" => Some(false),
        _ => None,
    }
}

/// A prefix without its last dot: `*` is the empty one.
pub fn prefix(word: &[u8]) -> Option<&[u8]> {
    match word {
        b"*" => Some(b""),
        b"" | b"." => None,
        [front @ .., b'.'] => packet::is_prefix(front).then_some(front),
        _ => packet::is_prefix(word).then_some(word),
    }
}

pub fn number(word: &[u8], low: u64, high: u64) -> Option<u64> {
    if word.is_empty() || word.len() > 20 || (word.len() > 1 && word[0] == b'0') {
        return None;
    }
    let mut n = 0u64;
    for digit in word {
        if !digit.is_ascii_digit() {
            return None;
        }
        n = n.checked_mul(10)?.checked_add(u64::from(digit - b'0'))?;
    }
    (low..=high).contains(&n).then_some(n)
}

/// Where a peer listens, and the head of what is posted to it, up to the length.
pub struct Target {
    pub address: SocketAddr,
    pub head: Box<[u8]>,
}

/// The target of the URL of a peer and the token for it.
pub fn target(url: &[u8], out_token: &[u8]) -> Option<Arc<Target>> {
    let rest = url.strip_prefix(b"http://").filter(|_| url.len() <= 255)?;
    let (authority, path) = rest.split_at(rest.iter().position(|b| *b == b'/')?);
    let end = match authority.first() {
        Some(b'[') => authority.iter().position(|b| *b == b']').map_or(authority.len(), |at| at + 1),
        _ => authority.iter().position(|b| *b == b':').unwrap_or(authority.len()),
    };
    let (host, port) = authority.split_at(end);
    let host = std::str::from_utf8(host).ok()?;
    let ip: IpAddr = match host.strip_prefix('[').and_then(|text| text.strip_suffix(']')) {
        Some(literal) => literal.parse::<Ipv6Addr>().ok()?.into(),
        None if host == "localhost" => Ipv4Addr::LOCALHOST.into(),
        None => host.parse::<Ipv4Addr>().ok()?.into(),
    };
    let port = match port {
        [] => 80,
        [b':', digits @ ..] => number(digits, 1, 65_535)? as u16,
        _ => return None,
    };
    (path.iter().all(u8::is_ascii_graphic) && token(out_token).is_some()).then_some(())?;
    let parts: [&[u8]; 8] = [
        b"POST ",
        path,
        b" HTTP/1.1\r\nHost: ",
        authority,
        b"\r\nAuthorization: Bearer ",
        out_token,
        b"\r\nAccept: application/octet-stream\r\nContent-Type: application/octet-stream",
        b"\r\nConnection: close\r\nContent-Length: ",
    ];
    Some(Arc::new(Target { address: SocketAddr::new(ip, port), head: parts.concat().into() }))
}

pub enum Command<'a> {
    Balances,
    Roll,
    Order(Order<'a>),
}

fn money(word: &[u8]) -> Option<u64> {
    number(word, 0, MAX_MONEY)
}

fn limits(words: &[&[u8]]) -> Option<Limits> {
    Some(Limits { cap: money(words[0])?, ceiling: money(words[1])?, credit: money(words[2])? })
}

fn bucket(words: &[&[u8]]) -> Option<(u64, u64)> {
    Some((number(words[0], 1, 1_000_000)?, number(words[1], 0, 1_000_000)?))
}

fn terms(words: &[&[u8]]) -> Option<Terms> {
    let (burst, per_second) = bucket(&words[10..])?;
    Some(Terms {
        name: name(words[0])?,
        child: is_child(words[1])?,
        token: token(words[2])?,
        target: target(words[3], words[4])?,
        asset: asset(words[5])?,
        scale: number(words[6], 0, 255)? as u8,
        limits: limits(&words[7..])?,
        burst,
        per_second,
        balance: 0,
    })
}

/// The command that a text spells.
pub fn command(text: &[u8]) -> Option<Command<'_>> {
    let mut room: [&[u8]; 15] = [b""; 15];
    let mut count = 0;
    for word in text.split(|b| *b == b' ') {
        *room.get_mut(count)? = word;
        count += 1;
    }
    let words = &room[..count];
    let named = |word| name(word).map(|_| word);
    Some(Command::Order(match words {
        [b"balances"] => return Some(Command::Balances),
        [b"roll"] => return Some(Command::Roll),
        [b"peer", b"add", values @ ..] if values.len() == 12 => Order::AddPeer(Box::new(terms(values)?)),
        [b"peer", b"remove", n] => Order::RemovePeer(named(n)?),
        [b"peer", b"limits", n, values @ ..] if values.len() == 3 => Order::SetLimits(named(n)?, limits(values)?),
        [b"peer", b"bucket", n, values @ ..] if values.len() == 2 => {
            let (burst, per_second) = bucket(values)?;
            Order::SetBucket(named(n)?, burst, per_second)
        }
        [b"route", b"add", p, n] => Order::AddRoute(prefix(p)?, named(n)?, 0),
        [b"route", b"add", p, n, fee] => Order::AddRoute(prefix(p)?, named(n)?, money(fee)?),
        [b"route", b"remove", p] => Order::RemoveRoute(prefix(p)?),
        [b"rate", b"set", from, to, num, den] if from != to => {
            Order::SetRate(named(from)?, named(to)?, number(num, 1, MAX_TERM)?, number(den, 1, MAX_TERM)?)
        }
        [b"settle", b"in", n, amount] => Order::SettleIn(named(n)?, number(amount, 1, MAX_MONEY)?),
        [b"settle", b"out", n, amount] => Order::SettleOut(named(n)?, number(amount, 1, MAX_MONEY)?),
        _ => return None,
    }))
}

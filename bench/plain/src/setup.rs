//! A setup: the tables, strings and integers of TOML that setups have. Escapes, other spellings of integers, arrays and inline
//! tables are left out: they are faults here.

use crate::book::{Book, Limits, MAX_MONEY, MAX_TERM, Refusal, Terms, Text};
use crate::packet::{self, LAST_MOMENT};
use crate::simd;
use crate::words;

#[derive(Clone, Copy)]
pub enum Fault {
    Toml,
    Version,
    Start,
    Tenant(usize),
}

impl std::fmt::Display for Fault {
    fn fmt(&self, f: &mut std::fmt::Formatter) -> std::fmt::Result {
        match self {
            Fault::Toml => f.write_str("toml"),
            Fault::Version => f.write_str("version"),
            Fault::Start => f.write_str("start"),
            Fault::Tenant(number) => write!(f, "tenant {number}"),
        }
    }
}

#[derive(Clone, Copy)]
enum Value<'a> {
    Text(&'a [u8]),
    Number(i64),
    Other,
}

type Values<'a, const N: usize> = [Option<Value<'a>>; N];

/// The tables of a tenant, which are looked at once all of it was read.
#[derive(Default)]
struct Tables<'a> {
    own: Values<'a, 6>,
    peers: Vec<Values<'a, 13>>,
    routes: Vec<Values<'a, 3>>,
    rates: Vec<Values<'a, 4>>,
}

#[derive(Clone, Copy)]
enum Kind {
    Top,
    Tenant,
    Peer,
    Route,
    Rate,
    Ignored,
}

fn place(kind: Kind, key: &[u8], version: Option<i64>) -> Option<usize> {
    Some(match (kind, key) {
        (Kind::Rate, b"from") => 0,
        (Kind::Rate, b"to") => 1,
        (Kind::Rate, b"num") => 2,
        (Kind::Rate, b"den") => 3,
        (Kind::Route, b"prefix") => 0,
        (Kind::Route, b"peer") => 1,
        (Kind::Route, b"fee") if version == Some(2) => 2,
        (Kind::Peer, b"name") => 0,
        (Kind::Peer, b"role") => 1,
        (Kind::Peer, b"token") => 2,
        (Kind::Peer, b"url") => 3,
        (Kind::Peer, b"out_token") => 4,
        (Kind::Peer, b"asset") => 5,
        (Kind::Peer, b"scale") => 6,
        (Kind::Peer, b"cap") => 7,
        (Kind::Peer, b"ceiling") => 8,
        (Kind::Peer, b"credit") => 9,
        (Kind::Peer, b"burst") => 10,
        (Kind::Peer, b"per_second") => 11,
        (Kind::Peer, b"balance") => 12,
        (Kind::Tenant, b"name") => 0,
        (Kind::Tenant, b"address") => 1,
        (Kind::Tenant, b"admin") => 2,
        (Kind::Tenant, b"journal") => 3,
        (Kind::Tenant, b"margin") => 4,
        (Kind::Tenant, b"hold") => 5,
        (Kind::Top, b"version") => 0,
        (Kind::Top, b"start") => 1,
        _ => return None,
    })
}

fn text<'a>(value: Option<Value<'a>>) -> Option<&'a [u8]> {
    if let Some(Value::Text(text)) = value { Some(text) } else { None }
}

fn number(value: Option<Value>, low: u64, high: u64) -> Option<u64> {
    let Some(Value::Number(n)) = value else {
        return None;
    };
    u64::try_from(n).ok().filter(|n| (low..=high).contains(n))
}

fn number_or(default: u64, value: Option<Value>, low: u64, high: u64) -> Option<u64> {
    if value.is_none() { Some(default) } else { number(value, low, high) }
}

fn terms(t: &Values<13>) -> Option<Terms> {
    let money = |value| number(value, 0, MAX_MONEY);
    let balance = match t[12] {
        None => 0,
        Some(Value::Number(n)) if n.unsigned_abs() <= MAX_MONEY => n,
        _ => return None,
    };
    Some(Terms {
        name: words::name(text(t[0])?)?,
        child: words::is_child(text(t[1])?)?,
        token: words::token(text(t[2])?)?,
        target: words::target(text(t[3])?, text(t[4])?)?,
        asset: words::asset(text(t[5])?)?,
        scale: number(t[6], 0, 255)? as u8,
        limits: Limits { cap: money(t[7])?, ceiling: money(t[8])?, credit: money(t[9])? },
        burst: number(t[10], 1, 1_000_000)?,
        per_second: number(t[11], 0, 1_000_000)?,
        balance,
    })
}

fn book(t: &Tables, start: u64) -> Option<Book> {
    let address = text(t.own[1])?;
    if address.len() > 900 || !packet::is_address(address) || packet::is_for_neighbors(address) {
        return None;
    }
    let name: Text<32> = words::name(text(t.own[0])?)?;
    let admin = words::token(text(t.own[2])?)?;
    let places = number_or(1024, t.own[3], 2, 16_384)? as usize;
    let margin = number_or(1000, t.own[4], 0, 60_000)?;
    let longest = number_or(30_000, t.own[5], 1, 600_000)?;
    let mut book = Book::new(name, address, admin, places, margin, longest, start);
    let fill = |book: &mut Book| -> Option<Result<(), Refusal>> {
        for peer in &t.peers {
            book.add_peer(terms(peer)?, start).ok()?;
        }
        for route in &t.routes {
            let prefix = words::prefix(text(route[0])?)?;
            let fee = number_or(0, route[2], 0, MAX_MONEY)?;
            book.add_route(prefix, text(route[1])?, fee).ok()?;
        }
        for rate in &t.rates {
            let (from, to) = (text(rate[0])?, text(rate[1])?);
            let (num, den) = (number(rate[2], 1, MAX_TERM)?, number(rate[3], 1, MAX_TERM)?);
            if from == to {
                return None;
            }
            book.set_rate(from, to, num, den).ok()?;
        }
        Some(Ok(()))
    };
    fill(&mut book)?.ok()?;
    Some(book)
}

struct Reader<'a> {
    at: *const u8,
    end: *const u8,
    top: Values<'a, 2>,
    tables: Tables<'a>,
    unknown: Vec<&'a [u8]>,
    books: Vec<Book>,
    fault: Option<Fault>,
    is_in_tenant: bool,
}

/// The tenants of a setup. Behind its bytes are a line feed and others that can be read.
pub fn read(bytes: &'static [u8]) -> Result<Vec<Book>, Fault> {
    std::str::from_utf8(bytes).map_err(|_| Fault::Toml)?;
    let range = bytes.strip_prefix(b"\xef\xbb\xbf").unwrap_or(bytes).as_ptr_range();
    let mut reader = Reader {
        at: range.start,
        end: range.end,
        top: [None; 2],
        tables: Tables::default(),
        unknown: Vec::new(),
        books: Vec::new(),
        fault: None,
        is_in_tenant: false,
    };
    reader.lines().ok_or(Fault::Toml)?;
    reader.tenant_ended();
    if reader.version().is_none() {
        return Err(Fault::Version);
    }
    if reader.start().is_none() {
        return Err(Fault::Start);
    }
    match reader.fault {
        Some(fault) => Err(fault),
        None if reader.books.is_empty() => Err(Fault::Tenant(0)),
        None => Ok(reader.books),
    }
}

impl<'a> Reader<'a> {
    fn version(&self) -> Option<i64> {
        number(self.top[0], 1, 2).map(|n| n as i64)
    }

    fn start(&self) -> Option<u64> {
        number(self.top[1], 0, LAST_MOMENT)
    }

    fn byte(&self) -> u8 {
        unsafe { *self.at }
    }

    fn pass(&mut self, len: usize) {
        self.at = self.at.wrapping_add(len);
    }

    fn spaces(&mut self) {
        while matches!(self.byte(), b' ' | b'\t') {
            self.pass(1);
        }
    }

    fn since(&self, from: *const u8) -> &'a [u8] {
        unsafe { std::slice::from_raw_parts(from, self.at.offset_from(from) as usize) }
    }

    /// The end of a line, with a comment before it or without one. The last line ends behind the text.
    fn line_end(&mut self) -> Option<()> {
        self.spaces();
        if self.byte() == b'#' {
            // A quote or a backslash in a comment is as good as any byte.
            self.pass(1);
            let from = self.at;
            self.at = unsafe { simd::line_end(self.at) };
            let comment = self.since(from).strip_suffix(b"\r").unwrap_or(self.since(from));
            if comment.iter().any(|b| (*b < 32 && *b != b'\t') || *b == 127) {
                return None;
            }
        } else if self.byte() == b'\r' {
            self.pass(1);
        }
        (self.byte() == b'\n').then(|| self.pass(1))
    }

    /// All lines, or nothing if they are no TOML, or one that is left out here.
    fn lines(&mut self) -> Option<()> {
        let mut kind = Kind::Top;
        while self.at < self.end {
            self.spaces();
            match self.byte() {
                b'[' => kind = self.header()?,
                b'\n' | b'\r' | b'#' => {}
                _ => self.pair(kind)?,
            }
            self.line_end()?;
        }
        Some(())
    }

    fn header(&mut self) -> Option<Kind> {
        self.pass(1);
        let is_array = self.byte() == b'[';
        self.pass(is_array.into());
        self.spaces();
        let from = self.at;
        loop {
            let len = unsafe { simd::bare_len(self.at) };
            self.pass(len);
            match self.byte() {
                b'.' => self.pass(1),
                _ if len == 0 => return None,
                _ if len < 32 => break,
                _ => {}
            }
        }
        let name = self.since(from);
        self.spaces();
        for _ in 0..1 + u8::from(is_array) {
            (self.byte() == b']').then(|| self.pass(1))?;
        }
        self.unknown.clear();
        let kind = match name {
            b"tenant" => Kind::Tenant,
            b"tenant.peer" => Kind::Peer,
            b"tenant.route" => Kind::Route,
            b"tenant.rate" => Kind::Rate,
            _ => return Some(Kind::Ignored),
        };
        // A tenant in another form is left out.
        is_array.then_some(())?;
        if let Kind::Tenant = kind {
            self.tenant_ended();
            self.is_in_tenant = true;
            return Some(kind);
        }
        self.is_in_tenant.then_some(())?;
        match kind {
            Kind::Peer => self.tables.peers.push([None; 13]),
            Kind::Route => self.tables.routes.push([None; 3]),
            _ => self.tables.rates.push([None; 4]),
        }
        Some(kind)
    }

    fn pair(&mut self, kind: Kind) -> Option<()> {
        let from = self.at;
        loop {
            let len = unsafe { simd::bare_len(self.at) };
            self.pass(len);
            if len < 32 {
                break;
            }
        }
        let key = self.since(from);
        self.spaces();
        if key.is_empty() || self.byte() != b'=' {
            return None;
        }
        self.pass(1);
        self.spaces();
        let value = self.value()?;
        let Some(place) = place(kind, key, self.version()) else {
            // Arrays of tables have the names of these keys.
            if self.unknown.contains(&key) || matches!((kind, key), (Kind::Tenant, b"peer" | b"route" | b"rate")) {
                return None;
            }
            self.unknown.push(key);
            return Some(());
        };
        let room = match kind {
            Kind::Top => &mut self.top[place],
            Kind::Tenant => &mut self.tables.own[place],
            Kind::Peer => &mut self.tables.peers.last_mut()?[place],
            Kind::Route => &mut self.tables.routes.last_mut()?[place],
            Kind::Rate => &mut self.tables.rates.last_mut()?[place],
            Kind::Ignored => return Some(()),
        };
        if room.is_some() {
            return None;
        }
        *room = Some(value);
        Some(())
    }

    fn value(&mut self) -> Option<Value<'a>> {
        let first = self.byte();
        if first == b'"' || first == b'\'' {
            self.pass(1);
            let from = self.at;
            self.at = unsafe { simd::quote(self.at, first) };
            let text = self.since(from);
            (self.byte() == first).then(|| self.pass(1))?;
            return (self.byte() != first).then_some(Value::Text(text));
        }
        let from = self.at;
        while matches!(self.byte(), b'0'..=b'9' | b'a'..=b'z' | b'A'..=b'Z' | b'+' | b'-' | b'_' | b'.' | b':') {
            self.pass(1);
        }
        let word = self.since(from);
        let (is_negative, digits) = match word {
            [b'-', digits @ ..] => (true, digits),
            [b'+', digits @ ..] => (false, digits),
            digits => (false, digits),
        };
        if digits.is_empty() {
            return None;
        }
        if !digits.iter().all(|b| b.is_ascii_digit() || *b == b'_') {
            return Some(Value::Other);
        }
        if digits.len() > 1 && digits[0] == b'0' {
            return None;
        }
        let (mut n, mut is_digit) = (0i64, false);
        for b in digits {
            if *b == b'_' {
                is_digit.then_some(())?;
                is_digit = false;
            } else {
                let digit = i64::from(b - b'0');
                n = n.checked_mul(10)?.checked_add(if is_negative { -digit } else { digit })?;
                is_digit = true;
            }
        }
        is_digit.then_some(Value::Number(n))
    }

    /// Makes the tenant that was read, if one was.
    fn tenant_ended(&mut self) {
        if self.is_in_tenant && self.fault.is_none() {
            let number = self.books.len();
            let made = if number < 64 { book(&self.tables, self.start().unwrap_or(0)) } else { None };
            let is_new = |book: &Book| self.books.iter().all(|other| other.name.text() != book.name.text());
            match made.filter(is_new) {
                Some(book) => self.books.push(book),
                None => self.fault = Some(Fault::Tenant(number)),
            }
        }
        self.tables.own = [None; 6];
        self.tables.peers.clear();
        self.tables.routes.clear();
        self.tables.rates.clear();
    }
}

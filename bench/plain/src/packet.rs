//! Frames of packets (RFC 0027 and 0030), addresses (RFC 0015), and the texts of expiries.

use crate::simd;

pub const MAX_FRAME: usize = 34_000;
const MAX_DATA: usize = 32_768;
/// More bytes than a line of a script spells, with what vectors read and write behind them.
pub const ROOM: usize = 35_000 + simd::SLACK;
pub const LAST_MOMENT: u64 = 253_400_000_000_000;
const LATEST_EXPIRY: i64 = 253_402_128_000_000;
const DAY: i64 = 86_400_000;

/// The bytes of a packet, with readable ones behind them.
pub struct Frame {
    pub bytes: Box<[u8; ROOM]>,
    pub len: usize,
}

impl Frame {
    pub fn new() -> Frame {
        Frame { bytes: vec![0; ROOM].into_boxed_slice().try_into().unwrap(), len: 0 }
    }

    #[inline(always)]
    fn part(&self, at: usize, len: usize) -> &[u8] {
        &self.bytes[at..at + len]
    }
}

#[derive(Clone, Copy)]
pub enum Bad {
    Size,
    Kind,
    Oer,
    After,
    Field,
}

impl Bad {
    pub fn word(self) -> &'static [u8] {
        match self {
            Bad::Size => b" bad size\n",
            Bad::Kind => b" bad kind\n",
            Bad::Oer => b" bad oer\n",
            Bad::After => b" bad after\n",
            Bad::Field => b" bad field\n",
        }
    }
}

/// Where the fields of a Prepare are, and what they say.
#[derive(Clone, Copy, Default)]
pub struct Prepare {
    pub amount: u64,
    pub expiry: u64,
    pub amount_at: usize,
    pub destination_at: usize,
    pub destination_len: usize,
}

impl Prepare {
    #[inline(always)]
    pub fn destination<'a>(&self, frame: &'a Frame) -> &'a [u8] {
        frame.part(self.destination_at, self.destination_len)
    }

    #[inline(always)]
    pub fn condition<'a>(&self, frame: &'a Frame) -> &'a [u8; 32] {
        frame.bytes[self.amount_at + 25..][..32].try_into().unwrap()
    }

    /// Writes another amount and another expiry over those of the frame.
    #[inline(always)]
    pub fn rewrite(&self, frame: &mut Frame, amount: u64, expiry: u64, days: &mut Days) {
        let fields = &mut frame.bytes[self.amount_at..][..25];
        fields[..8].copy_from_slice(&amount.to_be_bytes());
        days.write(expiry, (&mut fields[8..]).try_into().unwrap());
    }
}

/// A length in any spelling, and where it ends.
#[inline(always)]
fn length(bytes: &[u8; ROOM], at: usize, end: usize) -> Option<(usize, usize)> {
    if at >= end {
        return None;
    }
    let first = bytes[at];
    if first < 128 {
        return Some((usize::from(first), at + 1));
    }
    let count = usize::from(first) - 128;
    if count == 0 || count > 8 || end - at - 1 < count {
        return None;
    }
    let value = bytes[at + 1..][..count].iter().fold(0u64, |n, b| n << 8 | u64::from(*b));
    if value > MAX_FRAME as u64 { None } else { Some((value as usize, at + 1 + count)) }
}

/// An octet string: where it begins, and how long it is.
#[inline(always)]
fn string(bytes: &[u8; ROOM], at: usize, end: usize) -> Option<(usize, usize)> {
    let (len, begin) = length(bytes, at, end)?;
    if end - begin < len { None } else { Some((begin, len)) }
}

/// Where the contents of a frame of that kind begin. They go to its end.
#[inline(always)]
fn envelope(frame: &Frame, kind: u8) -> Result<usize, Bad> {
    if frame.len > MAX_FRAME {
        return Err(Bad::Size);
    }
    if frame.len == 0 || frame.bytes[0] != kind {
        return Err(Bad::Kind);
    }
    let (begin, len) = string(&frame.bytes, 1, frame.len).ok_or(Bad::Oer)?;
    if begin + len == frame.len { Ok(begin) } else { Err(Bad::After) }
}

#[inline(always)]
fn data(bytes: &[u8; ROOM], at: usize, end: usize) -> Result<(usize, usize), Bad> {
    let found = string(bytes, at, end).ok_or(Bad::Oer)?;
    if found.1 > MAX_DATA { Err(Bad::Size) } else { Ok(found) }
}

/// Reads a Prepare, or tells its first fault.
#[inline(always)]
pub fn read_prepare(frame: &Frame, days: &mut Days) -> Result<Prepare, Bad> {
    let amount_at = envelope(frame, 12)?;
    let (bytes, end) = (&frame.bytes, frame.len);
    let left = end - amount_at;
    if left < 25 {
        return Err(Bad::Oer);
    }
    let amount = u64::from_be_bytes(bytes[amount_at..][..8].try_into().unwrap());
    let expiry = days.read(bytes[amount_at + 8..][..17].try_into().unwrap()).ok_or(Bad::Field)?;
    if left < 57 {
        return Err(Bad::Oer);
    }
    let (destination_at, destination_len) = string(bytes, amount_at + 57, end).ok_or(Bad::Oer)?;
    if !is_address(frame.part(destination_at, destination_len)) {
        return Err(Bad::Field);
    }
    data(bytes, destination_at + destination_len, end)?;
    Ok(Prepare { amount, expiry, amount_at, destination_at, destination_len })
}

pub enum Answer<'a> {
    Fulfill(&'a [u8; 32]),
    Reject,
    Fault,
}

/// What a peer's answer is.
#[inline(always)]
pub fn read_answer(frame: &Frame) -> Answer<'_> {
    let (bytes, end) = (&frame.bytes, frame.len);
    if let Ok(at) = envelope(frame, 13) {
        if end - at >= 32 && data(bytes, at + 32, end).is_ok() {
            return Answer::Fulfill(bytes[at..][..32].try_into().unwrap());
        }
    } else if let Ok(at) = envelope(frame, 14) {
        let read = || {
            if end - at < 3 {
                return None;
            }
            let by = string(bytes, at + 3, end)?;
            let message = string(bytes, by.0 + by.1, end)?;
            data(bytes, message.0 + message.1, end).ok()
        };
        if read().is_some() {
            return Answer::Reject;
        }
    }
    Answer::Fault
}

// ---- addresses: what is tested has readable bytes behind it

/// The length of the scheme at the front, which is all or has a dot behind it.
#[inline(always)]
fn scheme_len(text: &[u8]) -> Option<usize> {
    if text.len() >= 2 && text[0] == b'g' && text[1] == b'.' {
        return Some(1);
    }
    const SCHEMES: [&[u8]; 10] =
        [b"g", b"private", b"example", b"peer", b"self", b"test", b"test1", b"test2", b"test3", b"local"];
    let len = text.iter().position(|b| *b == b'.').unwrap_or(text.len());
    SCHEMES.contains(&&text[..len]).then_some(len)
}

#[inline(always)]
fn are_segments(text: &[u8]) -> bool {
    unsafe { simd::are_segments(text.as_ptr(), text.len()) }
}

#[inline(always)]
pub fn is_address(text: &[u8]) -> bool {
    text.len() <= 1023 && scheme_len(text).is_some_and(|len| len < text.len() && are_segments(&text[len + 1..]))
}

pub fn is_prefix(text: &[u8]) -> bool {
    let whole = |len| len == text.len() || are_segments(&text[len + 1..]);
    text.is_empty() || text.len() <= 1023 && scheme_len(text).is_some_and(whole)
}

#[inline(always)]
pub fn is_for_neighbors(text: &[u8]) -> bool {
    text.starts_with(b"peer.")
}

// ---- expiries

static PAIRS: [[u8; 2]; 100] = {
    let mut pairs = [[0; 2]; 100];
    let mut i = 0;
    while i < 100 {
        pairs[i] = [b'0' + (i / 10) as u8, b'0' + (i % 10) as u8];
        i += 1;
    }
    pairs
};

/// The day that was read last and the one that was written last: most expiries are on the day of the one before.
pub struct Days {
    text: [u8; 8],
    begin: i64,
    written: [u8; 8],
    written_day: u64,
}

impl Days {
    pub fn new() -> Days {
        Days { text: [0; 8], begin: 0, written: *b"19700101", written_day: 0 }
    }

    /// The moment of 17 digits, from 1970-01-01 to 9999-12-30; nothing if they are no date and time.
    #[inline(always)]
    pub fn read(&mut self, text: &[u8; 17]) -> Option<u64> {
        let pairs = unsafe { simd::digit_pairs(text.as_ptr()) }?;
        let last = text[16].wrapping_sub(b'0');
        let [century, year, month, day, hour, minute, second, centis] = pairs.map(i64::from);
        if last > 9 || hour > 23 || minute > 59 || second > 59 {
            return None;
        }
        if text[..8] != self.text {
            let year = century * 100 + year;
            if month < 1 || month > 12 || day < 1 || day > days_in_month(year, month) {
                return None;
            }
            self.begin = day_number(year, month, day) * DAY;
            self.text.copy_from_slice(&text[..8]);
        }
        let moment = self.begin + ((hour * 60 + minute) * 60 + second) * 1000 + centis * 10 + i64::from(last);
        Some(moment.clamp(0, LATEST_EXPIRY) as u64)
    }

    /// Writes the 17 digits of a moment.
    #[inline(always)]
    pub fn write(&mut self, moment: u64, text: &mut [u8; 17]) {
        let day = moment / DAY as u64;
        if day != self.written_day {
            self.written = day_text(day as i64);
            self.written_day = day;
        }
        let millis = (moment % DAY as u64) as u32;
        let (seconds, millis) = (millis / 1000, millis % 1000);
        let (minutes, second) = (seconds / 60, seconds % 60);
        text[..8].copy_from_slice(&self.written);
        text[8..10].copy_from_slice(&PAIRS[(minutes / 60) as usize]);
        text[10..12].copy_from_slice(&PAIRS[(minutes % 60) as usize]);
        text[12..14].copy_from_slice(&PAIRS[second as usize]);
        text[14] = b'0' + (millis / 100) as u8;
        text[15..].copy_from_slice(&PAIRS[(millis % 100) as usize]);
    }
}

fn days_in_month(year: i64, month: i64) -> i64 {
    match month {
        2 if year % 4 == 0 && (year % 100 != 0 || year % 400 == 0) => 29,
        2 => 28,
        4 | 6 | 9 | 11 => 30,
        _ => 31,
    }
}

/// The days from 1970-01-01 to a date. Years are counted from March, so that a leap day is the last of its year.
fn day_number(year: i64, month: i64, day: i64) -> i64 {
    let year = if month <= 2 { year - 1 } else { year };
    let era = year.div_euclid(400);
    let of_era = year.rem_euclid(400);
    let of_year = (153 * ((month + 9) % 12) + 2) / 5 + day - 1;
    era * 146_097 + of_era * 365 + of_era / 4 - of_era / 100 + of_year - 719_468
}

fn day_text(day: i64) -> [u8; 8] {
    let day = day + 719_468;
    let (era, of_era) = (day / 146_097, day % 146_097);
    let year_of_era = (of_era - of_era / 1460 + of_era / 36_524 - of_era / 146_096) / 365;
    let of_year = of_era - (365 * year_of_era + year_of_era / 4 - year_of_era / 100);
    let month = (5 * of_year + 2) / 153;
    let day = of_year - (153 * month + 2) / 5 + 1;
    let month = if month < 10 { month + 3 } else { month - 9 };
    let year = era * 400 + year_of_era + i64::from(month <= 2);
    let mut text = [0; 8];
    for (i, pair) in [year / 100, year % 100, month, day].into_iter().enumerate() {
        text[2 * i..][..2].copy_from_slice(&PAIRS[pair as usize]);
    }
    text
}

// ---- what is written

/// A frame that is put together.
pub struct Writing {
    bytes: [u8; 2048],
    at: usize,
}

impl Writing {
    pub fn new() -> Writing {
        Writing { bytes: [0; 2048], at: 0 }
    }

    #[inline(always)]
    fn put(&mut self, bytes: &[u8]) {
        self.bytes[self.at..][..bytes.len()].copy_from_slice(bytes);
        self.at += bytes.len();
    }

    #[inline(always)]
    fn put_len(&mut self, len: usize) {
        if len < 128 {
            self.put(&[len as u8]);
        } else if len < 256 {
            self.put(&[0x81, len as u8]);
        } else {
            self.put(&[0x82, (len >> 8) as u8, len as u8]);
        }
    }

    #[inline(always)]
    fn put_string(&mut self, text: &[u8]) {
        self.put_len(text.len());
        self.put(text);
    }

    #[inline(always)]
    pub fn text(&self) -> (*const u8, usize) {
        (self.bytes.as_ptr(), self.at)
    }

    /// Makes it a Reject.
    pub fn reject(&mut self, code: &[u8; 3], by: &[u8], message: &[u8], data: &[u8]) {
        self.at = 0;
        self.put(&[14]);
        self.put_len(3 + spelled(by.len()) + spelled(message.len()) + spelled(data.len()));
        self.put(code);
        self.put_string(by);
        self.put_string(message);
        self.put_string(data);
    }

    /// Makes it the Fulfill that tells a child its configuration (RFC 0031).
    pub fn configure(&mut self, address: &[u8], name: &[u8], scale: u8, asset: &[u8]) {
        let len = address.len() + 1 + name.len();
        let size = spelled(len) + 1 + spelled(asset.len());
        self.at = 0;
        self.put(&[13]);
        self.put_len(32 + spelled(size));
        self.put(&[0; 32]);
        self.put_len(size);
        self.put_len(len);
        self.put(address);
        self.put(b".");
        self.put(name);
        self.put(&[scale]);
        self.put_string(asset);
    }
}

fn spelled(len: usize) -> usize {
    len + if len < 128 { 1 } else if len < 256 { 2 } else { 3 }
}

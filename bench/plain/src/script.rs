//! A script, run line by line: each is read once, where it is. Behind its last line there is a line feed.

use crate::book::{Book, Code, Refusal, Text, Verdict, hash_text};
use crate::out::Out;
use crate::packet::{Days, Frame, LAST_MOMENT, Prepare, ROOM, Writing, read_answer, read_prepare};
use crate::sha256::{Way, best_way, sha256_of_32};
use crate::simd;
use crate::table::Table;
use crate::words::{Command, command};

const MAX_LINE: usize = 70_000;
/// As many digits as are looked for: more than a line may have, and no more than a frame has room for.
const MOST_DIGITS: usize = MAX_LINE + 32;
const _: () = assert!(MOST_DIGITS / 2 + 32 <= ROOM);

pub enum Fault {
    Line(usize),
    Device,
}

#[derive(Clone, Copy)]
enum Stage {
    Free,
    Ready,
    Sent { slot: u16 },
}

struct Worker {
    stage: Stage,
    tenant: usize,
    token: Text<64>,
    token_hash: u64,
    prepare: Prepare,
    frame: Frame,
}

/// A word of a line: where it begins, and how long it is.
#[derive(Clone, Copy)]
struct Word {
    at: *const u8,
    len: usize,
}

impl Word {
    #[inline(always)]
    fn bytes(&self) -> &[u8] {
        unsafe { std::slice::from_raw_parts(self.at, self.len) }
    }
}

pub struct Floor {
    books: Vec<Book>,
    names: Table,
    workers: Vec<Worker>,
    spare: Frame,
    days: Days,
    way: Way,
    writing: Writing,
}

#[inline(always)]
fn byte(at: *const u8) -> u8 {
    unsafe { *at }
}

/// A word with one space behind it, and what is behind that.
#[inline(always)]
fn word(at: *const u8) -> Option<(Word, *const u8)> {
    let len = unsafe { simd::word_len(at) };
    let end = at.wrapping_add(len);
    if len == 0 || byte(end) != b' ' { None } else { Some((Word { at, len }, end.wrapping_add(1))) }
}

/// A moment, and what is behind its digits.
#[inline(always)]
fn moment(at: *const u8) -> Option<(u64, *const u8)> {
    let (now, len) = unsafe { simd::numeral(at) }?;
    if now > LAST_MOMENT { None } else { Some((now, at.wrapping_add(len))) }
}

/// The bytes at the end of a line, into a frame, and the end of the line.
#[inline(always)]
fn frame_bytes(at: *const u8, frame: &mut Frame) -> Option<*const u8> {
    let (digits, end) = if byte(at) == b'-' {
        (0, at.wrapping_add(1))
    } else {
        let digits = unsafe { simd::decode(at, frame.bytes.as_mut_ptr(), MOST_DIGITS) };
        if digits == 0 || digits % 2 != 0 {
            return None;
        }
        (digits, at.wrapping_add(digits))
    };
    frame.len = digits / 2;
    ended(end)
}

#[inline(always)]
fn ended(at: *const u8) -> Option<*const u8> {
    if byte(at) == b'\n' { Some(at) } else { None }
}

#[inline(always)]
fn starts(at: *const u8, text: &[u8]) -> bool {
    unsafe { std::slice::from_raw_parts(at, text.len()) == text }
}

impl Floor {
    pub fn new(books: Vec<Book>, workers: usize) -> Floor {
        let mut names = Table::new();
        for (i, book) in books.iter().enumerate() {
            names.insert(hash_text(book.name.text()), i, |b| hash_text(books[b].name.text()));
        }
        let worker = || Worker {
            stage: Stage::Free,
            tenant: 0,
            token: Text::new(b""),
            token_hash: 0,
            prepare: Prepare::default(),
            frame: Frame::new(),
        };
        Floor {
            books,
            names,
            workers: (0..workers).map(|_| worker()).collect(),
            spare: Frame::new(),
            days: Days::new(),
            way: best_way(),
            writing: Writing::new(),
        }
    }

    /// Runs the lines up to `end`. What they print is kept until all are known to be good.
    pub fn run(&mut self, mut at: *const u8, end: *const u8, out: &mut Out) -> Result<(), Fault> {
        let (mut number, mut is_good) = (1, false);
        while at < end {
            if out.is_full() {
                if !is_good {
                    self.check(at, end, number, out)?;
                    is_good = true;
                }
                out.flush().map_err(|_| Fault::Device)?;
            }
            at = self.line::<true>(at, out).ok_or(Fault::Line(number))?;
            number += 1;
        }
        out.flush().map_err(|_| Fault::Device)
    }

    fn check(&mut self, mut at: *const u8, end: *const u8, mut number: usize, out: &mut Out) -> Result<(), Fault> {
        while at < end {
            at = self.line::<false>(at, out).ok_or(Fault::Line(number))?;
            number += 1;
        }
        Ok(())
    }

    /// Runs a line, or only reads it, and tells where the next one begins; nothing if the line is bad.
    #[inline(always)]
    fn line<const ACT: bool>(&mut self, at: *const u8, out: &mut Out) -> Option<*const u8> {
        let end = match byte(at) {
            b'l' if starts(at, b"load ") => self.load::<ACT>(at.wrapping_add(5), out),
            b'd' if starts(at, b"decide ") => self.decide::<ACT>(at.wrapping_add(7), out),
            b'a' if starts(at, b"answer ") => self.answer::<ACT>(at.wrapping_add(7), out),
            b't' if starts(at, b"tick ") => self.tick::<ACT>(at.wrapping_add(5), out),
            b'd' if starts(at, b"do ") => self.govern::<ACT>(at.wrapping_add(3), out),
            b'\n' => Some(at),
            b'#' => {
                let end = unsafe { simd::line_end(at) };
                let text = Word { at, len: unsafe { end.offset_from(at) } as usize };
                text.bytes().is_ascii().then_some(end)
            }
            _ => None,
        }?;
        if unsafe { end.offset_from(at) } as usize > MAX_LINE { None } else { Some(end.wrapping_add(1)) }
    }

    /// A worker, and what is behind the space behind it.
    #[inline(always)]
    fn worker(&self, at: *const u8) -> Option<(usize, *const u8)> {
        let digit = |i| usize::from(byte(at.wrapping_add(i)).wrapping_sub(b'0'));
        let (worker, len) = match digit(0) {
            first @ 0..=9 if byte(at.wrapping_add(1)) == b' ' => (first, 2),
            first @ 1..=9 if digit(1) <= 9 && byte(at.wrapping_add(2)) == b' ' => (first * 10 + digit(1), 3),
            _ => return None,
        };
        if worker < self.workers.len() { Some((worker, at.wrapping_add(len))) } else { None }
    }

    /// A tenant, and what is behind the space behind it.
    #[inline(always)]
    fn tenant(&self, at: *const u8) -> Option<(usize, *const u8)> {
        let (word, next) = word(at)?;
        if word.len > 32 {
            return None;
        }
        let is_it = |b: usize| {
            let name = &self.books[b].name;
            usize::from(name.len) == word.len && unsafe { simd::equal(name.bytes.as_ptr(), word.at, word.len) }
        };
        self.names.find(hash_text(word.bytes()), is_it).map(|tenant| (tenant, next))
    }

    #[inline(always)]
    fn load<const ACT: bool>(&mut self, at: *const u8, out: &mut Out) -> Option<*const u8> {
        let (w, at) = self.worker(at)?;
        let (tenant, at) = self.tenant(at)?;
        let (token, at) = word(at)?;
        if !unsafe { simd::is_token(token.at, token.len) } {
            return None;
        }
        let worker = &mut self.workers[w];
        if !ACT || !matches!(worker.stage, Stage::Free) {
            let end = frame_bytes(at, &mut self.spare)?;
            if ACT {
                out.put(b"- busy\n");
            }
            return Some(end);
        }
        let end = frame_bytes(at, &mut worker.frame)?;
        let book = &mut self.books[tenant];
        out.name(&book.name);
        match read_prepare(&worker.frame, &mut self.days) {
            Ok(prepare) => {
                worker.prepare = prepare;
                worker.stage = Stage::Ready;
                worker.tenant = tenant;
                // The bytes behind a token are other words: `text` leaves them out.
                worker.token = Text { bytes: unsafe { token.at.cast::<[u8; 64]>().read_unaligned() }, len: token.len as u8 };
                worker.token_hash = hash_text(token.bytes());
                out.put(b" loaded ");
                out.number(book.calls);
                out.put(b"\n");
                book.calls += 1;
            }
            Err(fault) => out.put(fault.word()),
        }
        Some(end)
    }

    #[inline(always)]
    fn decide<const ACT: bool>(&mut self, at: *const u8, out: &mut Out) -> Option<*const u8> {
        let (w, at) = self.worker(at)?;
        let (now, at) = moment(at)?;
        let end = ended(at)?;
        if !ACT {
            return Some(end);
        }
        let worker = &mut self.workers[w];
        if !matches!(worker.stage, Stage::Ready) {
            out.put(b"- idle\n");
            return Some(end);
        }
        let book = &mut self.books[worker.tenant];
        let (prepare, frame) = (worker.prepare, &mut worker.frame);
        let (condition, destination) = (prepare.condition(frame), prepare.destination(frame));
        let verdict = book.decide(worker.token_hash, worker.token.text(), &prepare, condition, destination, now);
        out.name(&book.name);
        worker.stage = Stage::Free;
        match verdict {
            Verdict::Forward { to, slot, hold, price, expiry } => {
                prepare.rewrite(frame, price, expiry, &mut self.days);
                out.put(b" send ");
                out.name(&book.peer(to).terms.name);
                out.put(b" ");
                out.number(hold);
                out.put(b" ");
                out.hex((frame.bytes.as_ptr(), frame.len));
                out.put(b"\n");
                worker.stage = Stage::Sent { slot };
            }
            Verdict::Stranger => out.put(b" stranger\n"),
            _ => Floor::refuse(&mut self.writing, book, verdict, out),
        }
        Some(end)
    }

    /// The end of a line with a reply, behind the tenant's name.
    #[inline(always)]
    fn reply(frame: (*const u8, usize), out: &mut Out) {
        out.put(b" reply ");
        out.hex(frame);
        out.put(b"\n");
    }

    fn refuse(writing: &mut Writing, book: &Book, verdict: Verdict, out: &mut Out) {
        write_refusal(writing, book, verdict);
        Floor::reply(writing.text(), out);
    }

    #[inline(always)]
    fn answer<const ACT: bool>(&mut self, at: *const u8, out: &mut Out) -> Option<*const u8> {
        let (w, at) = self.worker(at)?;
        let (now, at) = moment(at)?;
        if byte(at) != b' ' {
            return None;
        }
        let at = at.wrapping_add(1);
        let worker = &mut self.workers[w];
        let waits = if let Stage::Sent { slot } = worker.stage { Some(slot) } else { None };
        // The frame that was sent on is printed, and its room is free.
        let frame = if ACT && waits.is_some() { &mut worker.frame } else { &mut self.spare };
        let end = if starts(at, b"fault\n") {
            frame.len = 0;
            at.wrapping_add(5)
        } else {
            frame_bytes(at, frame)?
        };
        if !ACT {
            return Some(end);
        }
        let Some(slot) = waits else {
            out.put(b"- idle\n");
            return Some(end);
        };
        worker.stage = Stage::Free;
        let book = &mut self.books[worker.tenant];
        let way = self.way;
        let verdict = book.answer(slot, now, &read_answer(frame), |fulfillment| sha256_of_32(way, fulfillment));
        out.name(&book.name);
        match verdict {
            Verdict::Refuse(_) => Floor::refuse(&mut self.writing, book, verdict, out),
            _ => Floor::reply((frame.bytes.as_ptr(), frame.len), out),
        }
        Some(end)
    }

    #[inline(always)]
    fn tick<const ACT: bool>(&mut self, at: *const u8, out: &mut Out) -> Option<*const u8> {
        let (tenant, at) = self.tenant(at)?;
        let (now, at) = moment(at)?;
        let end = ended(at)?;
        if ACT {
            let book = &mut self.books[tenant];
            out.name(&book.name);
            match book.tick(now) {
                Ok(count) => {
                    out.put(b" ticked ");
                    out.number(count.into());
                    out.put(b"\n");
                }
                Err(_) => out.put(b" refused full\n"),
            }
        }
        Some(end)
    }

    #[inline(never)]
    fn govern<const ACT: bool>(&mut self, at: *const u8, out: &mut Out) -> Option<*const u8> {
        let (tenant, at) = self.tenant(at)?;
        let (now, at) = moment(at)?;
        if byte(at) != b' ' {
            return None;
        }
        let at = at.wrapping_add(1);
        let end = unsafe { simd::line_end(at) };
        let text = unsafe { std::slice::from_raw_parts(at, end.offset_from(at) as usize) };
        let command = command(text)?;
        if !ACT {
            return Some(end);
        }
        let book = &mut self.books[tenant];
        do_command(book, command, now, out);
        Some(end)
    }
}

/// Writes what the tenant itself answers to a packet: a Reject, or a child's configuration.
pub fn write_refusal(writing: &mut Writing, book: &Book, verdict: Verdict) {
    let mut data = [0; 16];
    let (code, data) = match verdict {
        Verdict::Configure(peer) => {
            let terms = &book.peer(peer).terms;
            writing.configure(&book.address, terms.name.text(), terms.scale, terms.asset.text());
            return;
        }
        Verdict::RefuseOver(amount, greatest) => {
            data[..8].copy_from_slice(&amount.to_be_bytes());
            data[8..].copy_from_slice(&greatest.to_be_bytes());
            (Code::AmountTooLarge, &data[..])
        }
        Verdict::Refuse(code) => (code, &data[..0]),
        _ => (Code::Busy, &data[..0]),
    };
    let (letters, message) = code.words();
    writing.reject(letters, &book.address, message, data);
}

/// Does a command, and prints its answer.
pub fn do_command(book: &mut Book, command: Command, now: u64, out: &mut Out) {
    match command {
        Command::Balances => {
            put_balances(book, out);
            put_done(book, Ok(()), out);
        }
        Command::Order(order) => {
            let done = book.order(order, now);
            put_done(book, done, out);
        }
        Command::Roll => match book.roll(now) {
            Ok((period, entries)) => {
                put_balances(book, out);
                out.name(&book.name);
                out.put(b" rolled ");
                out.number(period);
                out.put(b" ");
                out.number(entries as u64);
                out.put(b"\n");
            }
            Err(refusal) => put_done(book, Err(refusal), out),
        },
    }
}

fn put_done(book: &Book, result: Result<(), Refusal>, out: &mut Out) {
    out.name(&book.name);
    match result {
        Ok(()) => out.put(b" ok\n"),
        Err(refusal) => {
            out.put(b" refused ");
            out.put(refusal.word());
            out.put(b"\n");
        }
    }
}

fn put_balances(book: &Book, out: &mut Out) {
    for peer in book.peers() {
        out.name(&book.name);
        out.put(b" balance ");
        out.name(&peer.terms.name);
        for n in [peer.balance, peer.held_in, peer.held_out] {
            out.put(b" ");
            out.signed(n);
        }
        out.put(b"\n");
    }
}

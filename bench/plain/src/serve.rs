//! A plain service, for bench/serve: a thread for each connection, and a new connection to the peer for each packet.
//!
//! Left out: bodies in chunks, the doors of the host and of operators, statements, audits, each tenant's share of the places,
//! and shorter times under a flood.

use std::io::{Read, Result, Write};
use std::net::{SocketAddr, TcpListener, TcpStream};
use std::sync::{Arc, Condvar, Mutex};
use std::time::{Duration, Instant, SystemTime};

use crate::book::{Book, Text, Verdict, hash_text};
use crate::out::{Out, SMALL};
use crate::packet::{Days, Frame, MAX_FRAME, Writing, read_answer, read_prepare};
use crate::script::{do_command, write_refusal};
use crate::sha256::{Way, best_way, sha256_of_32};
use crate::simd::SLACK;
use crate::words::{self, Target};

const MAX_HEAD: usize = 8192;
const MAX_COMMAND: usize = 2048;
const PATIENCE: Duration = Duration::from_secs(30);

struct Service {
    tenants: Vec<(Text<32>, Mutex<Book>)>,
    places: Mutex<usize>,
    freed: Condvar,
    way: Way,
}

/// What a thread keeps from one connection to the next.
struct Thread<'a> {
    service: &'a Service,
    /// Bytes that came, of which a request may be followed by others; and those that go.
    came: Vec<u8>,
    goes: Vec<u8>,
    frame: Frame,
    days: Days,
    writing: Writing,
    out: Out,
}

/// The parts of a request's head, and how long it is.
struct Head {
    is_admin: bool,
    tenant: usize,
    token: (usize, usize),
    body: usize,
    len: usize,
    closes: bool,
    awaits: bool,
}

pub fn serve(books: Vec<Book>, workers: usize, connections: usize, listen: SocketAddr) -> Result<()> {
    let listener = TcpListener::bind(listen)?;
    println!("listening {}", listener.local_addr()?);
    let tenants = books.into_iter().map(|book| (book.name, Mutex::new(book))).collect();
    let service = Service { tenants, places: Mutex::new(workers), freed: Condvar::new(), way: best_way() };
    std::thread::scope(|scope| {
        for _ in 0..connections {
            scope.spawn(|| {
                let mut thread = Thread {
                    service: &service,
                    came: Vec::with_capacity(64 * 1024),
                    goes: Vec::with_capacity(64 * 1024),
                    frame: Frame::new(),
                    days: Days::new(),
                    writing: Writing::new(),
                    out: Out::new(SMALL),
                };
                loop {
                    if let Ok((stream, _)) = listener.accept() {
                        // A connection that fails is closed.
                        let _ = thread.connection(stream);
                    }
                }
            });
        }
    });
    Ok(())
}

fn now() -> u64 {
    SystemTime::now().duration_since(SystemTime::UNIX_EPOCH).map_or(0, |since| since.as_millis() as u64)
}

/// Reads more bytes behind those that are there, and tells whether some came.
fn more(stream: &mut TcpStream, bytes: &mut Vec<u8>) -> Result<bool> {
    const MOST: usize = 48 * 1024;
    let have = bytes.len();
    bytes.reserve(MOST);
    // Bytes that were not written yet are only written, by the system.
    let room = unsafe { std::slice::from_raw_parts_mut(bytes.as_mut_ptr().add(have), MOST) };
    let read = stream.read(room)?;
    unsafe { bytes.set_len(have + read) };
    Ok(read > 0)
}

/// How long the head at the front of bytes is, if it is whole.
fn head_len(bytes: &[u8]) -> Option<usize> {
    bytes.windows(4).position(|end| end == b"\r\n\r\n").map(|at| at + 4)
}

/// The lines of a head behind its first one, each with its name and its value.
fn fields(head: &[u8]) -> impl Iterator<Item = Option<(&[u8], &[u8])>> {
    let lines = head[..head.len() - 4].split(|b| *b == b'\n').skip(1).map(|line| line.strip_suffix(b"\r").unwrap_or(line));
    lines.map(|line| {
        let colon = line.iter().position(|b| *b == b':').filter(|at| *at > 0)?;
        Some((&line[..colon], line[colon + 1..].trim_ascii()))
    })
}

impl Thread<'_> {
    fn connection(&mut self, mut stream: TcpStream) -> Result<()> {
        stream.set_nodelay(true)?;
        stream.set_read_timeout(Some(PATIENCE))?;
        stream.set_write_timeout(Some(PATIENCE))?;
        self.came.clear();
        loop {
            let len = loop {
                match head_len(&self.came) {
                    Some(len) => break len,
                    None if self.came.len() > MAX_HEAD => return self.tell(&mut stream, 400, false, true),
                    None => {}
                }
                if !more(&mut stream, &mut self.came)? {
                    return Ok(());
                }
            };
            self.goes.clear();
            let head = match self.head(len) {
                Ok(head) => head,
                Err(status) => return self.tell(&mut stream, status, false, true),
            };
            if head.awaits && self.came.len() < head.len + head.body {
                stream.write_all(b"HTTP/1.1 100 Continue\r\n\r\n")?;
            }
            while self.came.len() < head.len + head.body {
                if !more(&mut stream, &mut self.came)? {
                    return Ok(());
                }
            }
            let status = if head.is_admin { self.command(&head) } else { self.packet(&head) };
            self.tell(&mut stream, status, head.is_admin, head.closes)?;
            if head.closes {
                return Ok(());
            }
            self.came.drain(..head.len + head.body);
        }
    }

    /// Sends an answer, whose body is what goes.
    fn tell(&mut self, stream: &mut TcpStream, status: u16, is_admin: bool, closes: bool) -> Result<()> {
        let (reason, own) = match status {
            200 if is_admin => ("OK", "Content-Type: text/plain\r\n"),
            200 => ("OK", "Content-Type: application/octet-stream\r\n"),
            400 => ("Bad Request", ""),
            401 => ("Unauthorized", "WWW-Authenticate: Bearer\r\n"),
            404 => ("Not Found", ""),
            405 => ("Method Not Allowed", "Allow: POST\r\n"),
            411 => ("Length Required", ""),
            _ => ("Content Too Large", ""),
        };
        let close = if closes { "Connection: close\r\n" } else { "" };
        let mut text = [0; 256];
        let mut rest = &mut text[..];
        write!(rest, "HTTP/1.1 {status} {reason}\r\n{own}Content-Length: {}\r\n{close}\r\n", self.goes.len())?;
        let left = rest.len();
        self.goes.splice(..0, text[..256 - left].iter().copied());
        stream.write_all(&self.goes)
    }

    /// Reads the head of a request, or tells the status that answers it.
    fn head(&self, len: usize) -> std::result::Result<Head, u16> {
        let head = &self.came[..len];
        let line = head.split(|b| *b == b'\r').next().unwrap_or(b"");
        let mut words = line.split(|b| *b == b' ');
        let (Some(method), Some(target), Some(version), None) = (words.next(), words.next(), words.next(), words.next()) else {
            return Err(400);
        };
        if len > MAX_HEAD || !matches!(version, b"HTTP/1.1" | b"HTTP/1.0") {
            return Err(400);
        }
        let (mut size, mut token, mut tokens) = (None, (0, 0), 0);
        let (mut closes, mut awaits) = (version == b"HTTP/1.0", false);
        for field in fields(head) {
            let (name, value) = field.ok_or(400u16)?;
            if name.eq_ignore_ascii_case(b"content-length") {
                let is_long = value.is_empty() || value.len() > 10 || !value.iter().all(u8::is_ascii_digit);
                if is_long || size.is_some() {
                    return Err(400);
                }
                size = Some(value.iter().fold(0, |n, b| n * 10 + usize::from(b - b'0')));
            } else if name.eq_ignore_ascii_case(b"authorization") {
                tokens += 1;
                if value.len() > 7 && value[..7].eq_ignore_ascii_case(b"bearer ") {
                    let text = value[7..].trim_ascii_start();
                    token = (text.as_ptr() as usize - head.as_ptr() as usize, text.len());
                }
            } else if name.eq_ignore_ascii_case(b"connection") {
                closes |= value.split(|b| *b == b',').any(|word| word.trim_ascii().eq_ignore_ascii_case(b"close"));
            } else if name.eq_ignore_ascii_case(b"expect") {
                awaits |= value.eq_ignore_ascii_case(b"100-continue");
            }
        }
        if method != b"POST" {
            return Err(405);
        }
        let (is_admin, name) = match (target.strip_prefix(b"/ilp/"), target.strip_prefix(b"/admin/")) {
            (Some(name), _) => (false, name),
            (_, Some(name)) => (true, name),
            _ => return Err(404),
        };
        let tenant = self.service.tenants.iter().position(|(its, _)| its.text() == name).ok_or(404u16)?;
        let body = size.ok_or(411u16)?;
        if body > if is_admin { MAX_COMMAND } else { MAX_FRAME } {
            return Err(413);
        }
        if tokens != 1 || words::token(&self.came[token.0..][..token.1]).is_none() {
            return Err(401);
        }
        Ok(Head { is_admin, tenant, token, body, len, closes, awaits })
    }

    fn command(&mut self, head: &Head) -> u16 {
        let mut book = self.service.tenants[head.tenant].1.lock().unwrap();
        if &self.came[head.token.0..][..head.token.1] != book.admin.text() {
            return 401;
        }
        // Vectors read behind the text.
        let mut text = self.came[head.len..][..head.body].to_vec();
        text.pop_if(|last| *last == b'\n');
        let len = text.len();
        text.resize(len + SLACK, 0);
        let Some(command) = words::command(&text[..len]) else {
            return 400;
        };
        do_command(&mut book, command, now(), &mut self.out);
        self.goes.extend_from_slice(self.out.take());
        200
    }

    fn packet(&mut self, head: &Head) -> u16 {
        let service = self.service;
        let frame = &mut self.frame;
        frame.bytes[..head.body].copy_from_slice(&self.came[head.len..][..head.body]);
        frame.len = head.body;
        let Ok(prepare) = read_prepare(frame, &mut self.days) else {
            return 400;
        };
        let token = &self.came[head.token.0..][..head.token.1];
        let (condition, destination) = (prepare.condition(frame), prepare.destination(frame));
        let mutex = &service.tenants[head.tenant].1;
        let mut book = mutex.lock().unwrap();
        let decided = now();
        let verdict = book.decide(hash_text(token), token, &prepare, condition, destination, decided);
        match verdict {
            Verdict::Stranger => return 401,
            Verdict::Forward { to, slot, price, expiry, .. } => {
                let target = Arc::clone(&book.peer(to).terms.target);
                drop(book);
                prepare.rewrite(frame, price, expiry, &mut self.days);
                let until = Instant::now() + Duration::from_millis(expiry.saturating_sub(decided));
                let came = exchange(service, &target, frame, until, &mut self.goes).unwrap_or(0);
                // The answer is the end of what came.
                let begin = self.goes.len() - came;
                frame.len = came.min(MAX_FRAME + 1);
                frame.bytes[..frame.len].copy_from_slice(&self.goes[begin..][..frame.len]);
                self.goes.clear();
                let mut book = mutex.lock().unwrap();
                let verdict = book.answer(slot, now(), &read_answer(frame), |it| sha256_of_32(service.way, it));
                if let Verdict::Relay = verdict {
                    self.goes.extend_from_slice(&frame.bytes[..frame.len]);
                    return 200;
                }
                write_refusal(&mut self.writing, &book, verdict);
            }
            _ => write_refusal(&mut self.writing, &book, verdict),
        }
        let (text, len) = self.writing.text();
        self.goes.extend_from_slice(unsafe { std::slice::from_raw_parts(text, len) });
        200
    }
}

/// Posts a frame to a peer, and tells how many bytes of an answer are at the end of `room`.
fn exchange(service: &Service, target: &Target, frame: &Frame, until: Instant, room: &mut Vec<u8>) -> Option<usize> {
    let left = || until.checked_duration_since(Instant::now()).filter(|left| !left.is_zero());
    let mut places = service.places.lock().unwrap();
    while *places == 0 {
        places = service.freed.wait_timeout(places, left()?).unwrap().0;
    }
    *places -= 1;
    drop(places);
    let came = (|| {
        let mut stream = TcpStream::connect_timeout(&target.address, left()?).ok()?;
        stream.set_read_timeout(left()).ok()?;
        room.clear();
        room.extend_from_slice(&target.head);
        write!(room, "{}\r\n\r\n", frame.len).ok()?;
        room.extend_from_slice(&frame.bytes[..frame.len]);
        stream.write_all(room).ok()?;
        room.clear();
        let (mut len, mut whole) = (None, usize::MAX);
        loop {
            if len.is_none() {
                len = head_len(room);
                if let Some(len) = len {
                    if !matches!(room.get(..12), Some(b"HTTP/1.1 200" | b"HTTP/1.0 200")) {
                        return None;
                    }
                    for field in fields(&room[..len]) {
                        let (name, value) = field?;
                        if name.eq_ignore_ascii_case(b"content-length") {
                            whole = len + words::number(value, 0, MAX_FRAME as u64)? as usize;
                        } else if name.eq_ignore_ascii_case(b"transfer-encoding") {
                            return None;
                        }
                    }
                }
            }
            if room.len() >= whole {
                room.truncate(whole);
                return len.map(|len| whole - len);
            }
            left()?;
            if room.len() > MAX_HEAD + MAX_FRAME {
                return None;
            }
            if !more(&mut stream, room).ok()? {
                return if whole == usize::MAX { len.map(|len| room.len() - len) } else { None };
            }
        }
    })();
    *service.places.lock().unwrap() += 1;
    service.freed.notify_one();
    came
}

//! A plain connector: the replays of `ilpd replay` without a proof, as fast as they go. bench/against compares the two.
//!
//! It prints the same lines for a good setup and a good script, and refuses the same scripts. What it prints is kept until the
//! script is known to be good, so it takes more memory. Left out: statements, and what setup.rs and serve.rs say.

mod book;
mod out;
mod packet;
mod script;
mod serve;
mod setup;
mod sha256;
mod simd;
mod table;
mod text;
mod words;

use std::fs::File;
use std::mem::ManuallyDrop;
use std::os::fd::FromRawFd;
use std::process::exit;

const MAX_SCRIPT: usize = 16_777_216;
const MAX_SETUP: usize = 1 << 30;

fn stop(status: i32, why: &str) -> ! {
    eprintln!("plain: {why}");
    exit(status)
}

fn text_of(file: std::io::Result<File>, most: usize) -> &'static [u8] {
    match file.and_then(|mut file| text::Text::of(&mut file, most)) {
        Ok(text) => text.bytes(),
        Err(_) => stop(5, "device"),
    }
}

const USAGE: &str = "usage: plain replay SETUP [--workers W] < SCRIPT
       plain serve SETUP --workers W [--connections C] [--listen ADDR]";

fn main() {
    let words: Vec<String> = std::env::args().skip(1).collect();
    let [verb, path, options @ ..] = &words[..] else {
        stop(2, USAGE);
    };
    let (mut workers, mut connections, mut listen) = (1, 256, "127.0.0.1:7768".parse().ok());
    for option in options.chunks(2) {
        let (name, value) = (option[0].as_str(), option.get(1).map_or("", String::as_str));
        let number = |most| words::number(value.as_bytes(), 1, most).unwrap_or_else(|| stop(2, USAGE)) as usize;
        match (verb.as_str(), name) {
            (_, "--workers") => workers = number(64),
            ("serve", "--connections") => connections = number(4096),
            ("serve", "--listen") => listen = value.parse().ok(),
            _ => stop(2, USAGE),
        }
    }
    if !is_x86_feature_detected!("avx2") || !is_x86_feature_detected!("bmi2") {
        stop(6, "this processor has no AVX2");
    }
    let books = match setup::read(text_of(File::open(path), MAX_SETUP)) {
        Ok(books) => books,
        Err(fault) => stop(3, &format!("setup: {fault}")),
    };
    match (verb.as_str(), listen) {
        ("replay", _) => replay(books, workers),
        ("serve", Some(listen)) => match serve::serve(books, workers, connections, listen) {
            Ok(()) => exit(0),
            Err(_) => stop(5, "device"),
        },
        _ => stop(2, USAGE),
    }
}

fn replay(books: Vec<book::Book>, workers: usize) -> ! {
    let mut input = ManuallyDrop::new(unsafe { File::from_raw_fd(0) });
    let script = match text::Text::of(&mut input, MAX_SCRIPT) {
        Ok(text) => text.bytes(),
        Err(_) => stop(5, "device"),
    };
    if script.len() > MAX_SCRIPT {
        stop(4, "script: size");
    }
    let lines = script.as_ptr_range();
    let mut out = out::Out::new(out::SIZE);
    let mut floor = script::Floor::new(books, workers);
    match floor.run(lines.start, lines.end, &mut out) {
        Ok(()) => exit(0),
        Err(script::Fault::Line(number)) => stop(4, &format!("script: line {number}")),
        Err(script::Fault::Device) => stop(5, "device"),
    }
}

//! Runs programs in turns, and prints the least processor time of each, user and system, in microseconds.
//!
//! Usage: turns TIMES SETUP SCRIPT WORKERS PROGRAM..
//!
//! Each program is run as `PROGRAM replay SETUP --workers WORKERS < SCRIPT`, with its output dropped. Exit status: 0; 1 (a
//! program failed); 2 (the command line).

use std::fs::File;
use std::process::{Command, Stdio, exit};

/// What the children of this process that have ended took, in microseconds.
fn spent() -> i64 {
    unsafe extern "C" {
        fn getrusage(who: i32, usage: *mut [i64; 18]) -> i32;
    }
    let mut usage = [0; 18];
    unsafe { getrusage(-1, &mut usage) };
    let [seconds, micros, system_seconds, system_micros, ..] = usage;
    (seconds + system_seconds) * 1_000_000 + micros + system_micros
}

fn run(program: &str, setup: &str, script: &str, workers: &str) -> i64 {
    let before = spent();
    let input = File::open(script).unwrap_or_else(|error| fail(script, &error.to_string()));
    let mut command = Command::new(program);
    command.args(["replay", setup, "--workers", workers]).stdin(input).stdout(Stdio::null());
    match command.status() {
        Ok(status) if status.success() => spent() - before,
        Ok(status) => fail(program, &status.to_string()),
        Err(error) => fail(program, &error.to_string()),
    }
}

fn fail(what: &str, why: &str) -> ! {
    eprintln!("turns: {what}: {why}");
    exit(1)
}

fn main() {
    let words: Vec<String> = std::env::args().skip(1).collect();
    let [times, setup, script, workers, programs @ ..] = &words[..] else {
        eprintln!("usage: turns TIMES SETUP SCRIPT WORKERS PROGRAM..");
        exit(2)
    };
    let Ok(times) = times.parse::<u32>() else {
        eprintln!("turns: TIMES is a number");
        exit(2)
    };
    let mut least = vec![i64::MAX; programs.len()];
    for _ in 0..times {
        for (program, least) in programs.iter().zip(&mut least) {
            *least = run(program, setup, script, workers).min(*least);
        }
    }
    let texts: Vec<String> = least.iter().map(i64::to_string).collect();
    println!("{}", texts.join(" "));
}

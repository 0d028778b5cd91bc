//! The bytes of a file: mapped if it is one, and else read. A line feed and `SLACK` bytes that can be read are behind them.

use std::fs::File;
use std::io::{Read, Seek};
use std::os::fd::AsRawFd;

use crate::simd::SLACK;

unsafe extern "C" {
    fn mmap(at: *mut u8, len: usize, protection: i32, flags: i32, file: i32, offset: i64) -> *mut u8;
}
const READ_AND_WRITE: i32 = 3;
const PRIVATE: i32 = 2;
const FIXED: i32 = 0x10;
const ANONYMOUS: i32 = 0x20;

pub struct Text {
    start: *const u8,
    len: usize,
}

impl Text {
    /// What the file has left, of which at most `most` bytes and one more are read. The memory is never given back.
    pub fn of(file: &mut File, most: usize) -> std::io::Result<Text> {
        let about = file.metadata()?;
        let start = if about.is_file() && file.stream_position()? == 0 && about.len() <= most as u64 {
            Text::mapped(file, about.len() as usize)
        } else {
            None
        };
        if let Some(text) = start {
            return Ok(text);
        }
        let mut bytes = Vec::new();
        file.take(most as u64 + 1).read_to_end(&mut bytes)?;
        let len = bytes.len();
        bytes.resize(len + 1 + SLACK, b'\n');
        Ok(Text { start: bytes.leak().as_ptr(), len })
    }

    /// Pages of the file over empty ones, of which one at least is left behind them.
    fn mapped(file: &File, len: usize) -> Option<Text> {
        let failed = usize::MAX as *mut u8;
        unsafe {
            let start = mmap(std::ptr::null_mut(), len + 8192, READ_AND_WRITE, PRIVATE | ANONYMOUS, -1, 0);
            if start == failed || len == 0 {
                return None;
            }
            if mmap(start, len, READ_AND_WRITE, PRIVATE | FIXED, file.as_raw_fd(), 0) == failed {
                return None;
            }
            start.add(len).write(b'\n');
            Some(Text { start, len })
        }
    }

    pub fn bytes(&self) -> &'static [u8] {
        unsafe { std::slice::from_raw_parts(self.start, self.len) }
    }
}

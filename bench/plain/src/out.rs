//! What is printed: one long buffer, of which only the pages that are written take memory.

use std::io::Write;

use crate::simd::{self, SLACK};

/// The most that one step prints, and what vectors write behind it.
const STEP: usize = 160 * 1024 + SLACK;
pub const SIZE: usize = 64 << 20;
/// Room for what one step prints.
pub const SMALL: usize = 2 * STEP;

unsafe extern "C" {
    fn madvise(at: *mut u8, len: usize, advice: i32) -> i32;
}
const MADV_HUGEPAGE: i32 = 14;

pub struct Out {
    buffer: Vec<u8>,
    at: *mut u8,
    last: *mut u8,
}

impl Out {
    pub fn new(size: usize) -> Out {
        let mut buffer = Vec::with_capacity(size);
        let at: *mut u8 = buffer.as_mut_ptr();
        // Large pages are filled in fewer faults. Without them it goes on with small ones.
        let pages = at.wrapping_add(at.align_offset(1 << 21));
        if size == SIZE {
            unsafe { madvise(pages, SIZE - (4 << 20), MADV_HUGEPAGE) };
        }
        Out { at, last: at.wrapping_add(size - STEP), buffer }
    }

    #[inline(always)]
    pub fn is_full(&self) -> bool {
        self.at > self.last
    }

    /// What was printed, which is taken out.
    pub fn take(&mut self) -> &[u8] {
        let start = self.buffer.as_mut_ptr();
        let text = unsafe { std::slice::from_raw_parts(start, self.at.offset_from(start) as usize) };
        self.at = start;
        text
    }

    /// Writes what was printed to standard output.
    pub fn flush(&mut self) -> std::io::Result<()> {
        std::io::stdout().lock().write_all(self.take())
    }

    #[inline(always)]
    fn advance(&mut self, len: usize) {
        self.at = self.at.wrapping_add(len);
    }

    /// A text of at most 32 bytes, all of which can be read.
    #[inline(always)]
    pub fn name(&mut self, text: &crate::book::Text<32>) {
        unsafe { self.at.cast::<[u8; 32]>().write_unaligned(text.bytes) };
        self.advance(text.len.into());
    }

    #[inline(always)]
    pub fn put(&mut self, text: &[u8]) {
        unsafe { self.at.copy_from_nonoverlapping(text.as_ptr(), text.len()) };
        self.advance(text.len());
    }

    /// Bytes in hexadecimal digits; behind them others can be read.
    #[inline(always)]
    pub fn hex(&mut self, (bytes, len): (*const u8, usize)) {
        unsafe { simd::encode(bytes, len, self.at) };
        self.advance(2 * len);
    }

    /// A number in decimal digits: eight at a time, each a byte of a word.
    #[inline(always)]
    pub fn number(&mut self, n: u64) {
        if n >= 100_000_000 {
            return self.long_number(n);
        }
        let digits = eight_digits(n);
        let zeros = ((digits | 1 << 63).trailing_zeros() / 8).min(7);
        let text = (digits | 0x3030_3030_3030_3030) >> (8 * zeros);
        unsafe { self.at.cast::<u64>().write_unaligned(text) };
        self.advance(8 - zeros as usize);
    }

    #[inline(never)]
    fn long_number(&mut self, n: u64) {
        self.number(n / 100_000_000);
        let last = eight_digits(n % 100_000_000) | 0x3030_3030_3030_3030;
        unsafe { self.at.cast::<u64>().write_unaligned(last) };
        self.advance(8);
    }

    pub fn signed(&mut self, n: i128) {
        if n < 0 {
            self.put(b"-");
        }
        self.number(n.unsigned_abs() as u64);
    }
}

/// The eight digits of a number below 100,000,000, the first in the lowest byte.
#[inline(always)]
fn eight_digits(n: u64) -> u64 {
    let fours = n / 10_000 | n % 10_000 << 32;
    let hundreds = (fours * 10_486 >> 20) & 0x7f_0000_007f;
    let twos = hundreds | (fours - 100 * hundreds) << 16;
    let tens = (twos * 103 >> 10) & 0x0f_000f_000f_000f;
    tens | (twos - 10 * tens) << 8
}

#[cfg(test)]
mod tests {
    use super::*;

    #[test]
    fn numbers_are_spelled() {
        let mut out = Out::new(SIZE);
        let numbers = [0, 1, 9, 10, 99, 100, 9_999, 10_000, 12_345_678, 99_999_999, 100_000_000, 1 << 62, 1 << 63];
        let mut wanted = String::new();
        for n in numbers.into_iter().chain((0..64).map(|k| (1u64 << k) - 1)).chain(1..200_000) {
            out.number(n);
            wanted += &n.to_string();
        }
        assert!(out.take() == wanted.as_bytes());
    }
}

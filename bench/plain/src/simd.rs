//! Scans of text by AVX2. Each reads whole vectors from `at` on: the text has `SLACK` readable bytes behind its end.

use std::arch::x86_64::*;

/// So many bytes behind the end of a text or a frame can be read, and behind the end of an output written.
pub const SLACK: usize = 128;

#[inline(always)]
fn splat(byte: u8) -> __m256i {
    unsafe { _mm256_set1_epi8(byte as i8) }
}

#[inline(always)]
fn load(at: *const u8) -> __m256i {
    unsafe { _mm256_loadu_si256(at.cast()) }
}

/// A bit for each byte that is at most the bound.
#[inline(always)]
fn up_to(x: __m256i, bound: u8) -> __m256i {
    unsafe { _mm256_cmpeq_epi8(_mm256_min_epu8(x, splat(bound)), x) }
}

#[inline(always)]
fn mask(x: __m256i) -> u32 {
    unsafe { _mm256_movemask_epi8(x) as u32 }
}

/// How many bytes from `at` on come before the first space or control, at most 64.
#[inline(always)]
pub unsafe fn word_len(at: *const u8) -> usize {
    let low = mask(up_to(load(at), b' '));
    if low != 0 {
        return low.trailing_zeros() as usize;
    }
    let high = mask(up_to(load(unsafe { at.add(32) }), b' '));
    32 + high.trailing_zeros() as usize
}

/// The place of the first line feed from `at` on; there is one.
#[inline(always)]
pub unsafe fn line_end(mut at: *const u8) -> *const u8 {
    loop {
        let found = mask(unsafe { _mm256_cmpeq_epi8(load(at), splat(b'\n')) });
        if found != 0 {
            return unsafe { at.add(found.trailing_zeros() as usize) };
        }
        at = unsafe { at.add(32) };
    }
}

/// Sets of bytes as two tables of nibbles: a byte is in the set if its halves have a bit in common.
struct Set {
    low: [u8; 16],
    high: [u8; 16],
}

const fn set(extra: &[u8]) -> Set {
    let mut low = [0; 16];
    // Each upper half has a bit of its own.
    let high = [0, 0, 1, 2, 4, 8, 16, 32, 0, 0, 0, 0, 0, 0, 0, 0];
    let mut b = 0;
    while b < 128 {
        let mut is_in = (b as u8).is_ascii_alphanumeric();
        let mut i = 0;
        while i < extra.len() {
            is_in |= extra[i] == b as u8;
            i += 1;
        }
        if is_in {
            low[b & 15] |= high[b >> 4];
        }
        b += 1;
    }
    Set { low, high }
}

static TOKEN: Set = set(b"-._~+/=");
static ADDRESS: Set = set(b"._~-");

/// A bit for each byte of the set.
#[inline(always)]
fn members(x: __m256i, set: &Set) -> u32 {
    unsafe {
        let low = _mm256_broadcastsi128_si256(_mm_loadu_si128(set.low.as_ptr().cast()));
        let high = _mm256_broadcastsi128_si256(_mm_loadu_si128(set.high.as_ptr().cast()));
        let upper = _mm256_and_si256(_mm256_srli_epi16(x, 4), splat(15));
        // A byte of 128 or more finds nothing in the first table.
        let both = _mm256_and_si256(_mm256_shuffle_epi8(low, x), _mm256_shuffle_epi8(high, upper));
        !mask(_mm256_cmpeq_epi8(both, _mm256_setzero_si256()))
    }
}

/// The first `n` bits.
#[inline(always)]
fn first(n: usize) -> u32 {
    if n >= 32 { u32::MAX } else { (1 << n) - 1 }
}

/// The bytes are a token: 1 to 64 letters, digits and some signs.
#[inline(always)]
pub unsafe fn is_token(at: *const u8, len: usize) -> bool {
    if len == 0 || len > 64 {
        return false;
    }
    if !members(load(at), &TOKEN) & first(len) != 0 {
        return false;
    }
    len <= 32 || !members(load(unsafe { at.add(32) }), &TOKEN) & first(len - 32) == 0
}

/// The bytes are segments with dots between them, none of them empty.
#[inline(always)]
pub unsafe fn are_segments(at: *const u8, len: usize) -> bool {
    let mut before = 1; // whether a dot, or nothing, comes before
    let mut done = 0;
    while done < len {
        let x = load(unsafe { at.add(done) });
        let here = first(len - done);
        if !members(x, &ADDRESS) & here != 0 {
            return false;
        }
        let dots = mask(unsafe { _mm256_cmpeq_epi8(x, splat(b'.')) }) & here;
        if dots & (dots << 1 | before) != 0 {
            return false;
        }
        before = if len - done > 32 { dots >> 31 } else { dots >> (len - done - 1) & 1 };
        done += 32;
    }
    before == 0
}

/// The place of the first dot from `from` on, or `len`.
#[inline(always)]
pub unsafe fn dot(at: *const u8, mut from: usize, len: usize) -> usize {
    loop {
        let dots = mask(unsafe { _mm256_cmpeq_epi8(load(at.add(from)), splat(b'.')) });
        if dots != 0 {
            return len.min(from + dots.trailing_zeros() as usize);
        }
        from += 32;
        if from >= len {
            return len;
        }
    }
}

/// The bytes are equal.
#[inline(always)]
pub unsafe fn equal(a: *const u8, b: *const u8, len: usize) -> bool {
    let mut done = 0;
    while done < len {
        let same = mask(unsafe { _mm256_cmpeq_epi8(load(a.add(done)), load(b.add(done))) });
        if !same & first(len - done) != 0 {
            return false;
        }
        done += 32;
    }
    true
}

/// Decodes the hexadecimal digits from `at` on, and tells how many there are. Writes up to 16 bytes more than they spell.
#[inline(always)]
pub unsafe fn decode(at: *const u8, to: *mut u8, most: usize) -> usize {
    let mut done = 0;
    while done < most {
        unsafe {
            let x = load(at.add(done));
            let digit = _mm256_sub_epi8(x, splat(b'0'));
            let is_digit = up_to(digit, 9);
            let letter = _mm256_sub_epi8(_mm256_or_si256(x, splat(32)), splat(b'a'));
            let valid = mask(_mm256_or_si256(is_digit, up_to(letter, 5)));
            let value = _mm256_blendv_epi8(_mm256_add_epi8(letter, splat(10)), digit, is_digit);
            let pairs = _mm256_maddubs_epi16(value, _mm256_set1_epi16(0x0110));
            let packed = _mm256_permute4x64_epi64(_mm256_packus_epi16(pairs, pairs), 0b1000);
            _mm_storeu_si128(to.add(done / 2).cast(), _mm256_castsi256_si128(packed));
            if valid != u32::MAX {
                return done + valid.trailing_ones() as usize;
            }
        }
        done += 32;
    }
    done
}

/// Encodes bytes as hexadecimal digits in lower case. Reads up to 15 bytes and writes up to 31 more.
#[inline(always)]
pub unsafe fn encode(from: *const u8, len: usize, to: *mut u8) {
    let mut done = 0;
    while done < len {
        unsafe {
            let digits = _mm256_broadcastsi128_si256(_mm_loadu_si128(b"0123456789abcdef".as_ptr().cast()));
            let wide = _mm256_cvtepu8_epi16(_mm_loadu_si128(from.add(done).cast()));
            let halves = _mm256_or_si256(_mm256_srli_epi16(wide, 4), _mm256_slli_epi16(wide, 8));
            let text = _mm256_shuffle_epi8(digits, _mm256_and_si256(halves, splat(15)));
            _mm256_storeu_si256(to.add(done * 2).cast(), text);
        }
        done += 16;
    }
}

/// The number of up to 15 decimal digits from `at` on, without a leading zero, and how many there are.
#[inline(always)]
pub unsafe fn numeral(at: *const u8) -> Option<(u64, usize)> {
    static SHIFTS: [u8; 32] = {
        let mut shifts = [0x80; 32];
        let mut i = 0;
        while i < 16 {
            shifts[16 + i] = i as u8;
            i += 1;
        }
        shifts
    };
    unsafe {
        let x = _mm_sub_epi8(_mm_loadu_si128(at.cast()), _mm_set1_epi8(b'0' as i8));
        let are = _mm_cmpeq_epi8(_mm_min_epu8(x, _mm_set1_epi8(9)), x);
        let n = (_mm_movemask_epi8(are) as u32).trailing_ones() as usize;
        if n == 0 || n > 15 || (n > 1 && *at == b'0') {
            return None;
        }
        let placed = _mm_shuffle_epi8(x, _mm_loadu_si128(SHIFTS.as_ptr().add(n).cast()));
        Some((sixteen(placed), n))
    }
}

/// The number of sixteen digits, each a byte.
#[inline(always)]
unsafe fn sixteen(digits: __m128i) -> u64 {
    unsafe {
        let twos = _mm_maddubs_epi16(digits, _mm_set1_epi16(0x010a));
        let fours = _mm_madd_epi16(twos, _mm_set1_epi32(0x0001_0064));
        let packed = _mm_packus_epi32(fours, fours);
        let eights = _mm_cvtsi128_si64(_mm_madd_epi16(packed, _mm_set1_epi32(0x0001_2710))) as u64;
        (eights & 0xffff_ffff) * 100_000_000 + (eights >> 32)
    }
}

/// The pairs of the first 16 digits from `at` on, each as a number below 100; nothing if one is no digit.
#[inline(always)]
pub unsafe fn digit_pairs(at: *const u8) -> Option<[u16; 8]> {
    unsafe {
        let x = _mm_sub_epi8(_mm_loadu_si128(at.cast()), _mm_set1_epi8(b'0' as i8));
        let are = _mm_cmpeq_epi8(_mm_min_epu8(x, _mm_set1_epi8(9)), x);
        if _mm_movemask_epi8(are) != 0xffff {
            return None;
        }
        let mut pairs = [0; 8];
        _mm_storeu_si128(pairs.as_mut_ptr().cast(), _mm_maddubs_epi16(x, _mm_set1_epi16(0x010a)));
        Some(pairs)
    }
}

static BARE: Set = set(b"_-");

/// How many bytes of a bare key of TOML there are from `at` on, at most 32.
#[inline(always)]
pub unsafe fn bare_len(at: *const u8) -> usize {
    members(load(at), &BARE).trailing_ones() as usize
}

/// The place of the first byte from `at` on that is a quote, a backslash or a control other than a tab; there is one.
#[inline(always)]
pub unsafe fn quote(mut at: *const u8, quote: u8) -> *const u8 {
    loop {
        let found = unsafe {
            let x = load(at);
            let ends = _mm256_or_si256(_mm256_cmpeq_epi8(x, splat(quote)), _mm256_cmpeq_epi8(x, splat(b'\\')));
            let controls = _mm256_or_si256(up_to(x, 31), _mm256_cmpeq_epi8(x, splat(127)));
            let tabs = _mm256_cmpeq_epi8(x, splat(b'\t'));
            mask(_mm256_or_si256(ends, _mm256_andnot_si256(tabs, controls)))
        };
        if found != 0 {
            return unsafe { at.add(found.trailing_zeros() as usize) };
        }
        at = unsafe { at.add(32) };
    }
}

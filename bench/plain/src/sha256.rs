//! The SHA-256 of 32 bytes, which are one block (FIPS 180-4): by the processor's own instructions, or by plain ones.

use std::arch::x86_64::*;

static K: [u32; 64] = [
    0x428a2f98, 0x71374491, 0xb5c0fbcf, 0xe9b5dba5, 0x3956c25b, 0x59f111f1, 0x923f82a4, 0xab1c5ed5, 0xd807aa98, 0x12835b01,
    0x243185be, 0x550c7dc3, 0x72be5d74, 0x80deb1fe, 0x9bdc06a7, 0xc19bf174, 0xe49b69c1, 0xefbe4786, 0x0fc19dc6, 0x240ca1cc,
    0x2de92c6f, 0x4a7484aa, 0x5cb0a9dc, 0x76f988da, 0x983e5152, 0xa831c66d, 0xb00327c8, 0xbf597fc7, 0xc6e00bf3, 0xd5a79147,
    0x06ca6351, 0x14292967, 0x27b70a85, 0x2e1b2138, 0x4d2c6dfc, 0x53380d13, 0x650a7354, 0x766a0abb, 0x81c2c92e, 0x92722c85,
    0xa2bfe8a1, 0xa81a664b, 0xc24b8b70, 0xc76c51a3, 0xd192e819, 0xd6990624, 0xf40e3585, 0x106aa070, 0x19a4c116, 0x1e376c08,
    0x2748774c, 0x34b0bcb5, 0x391c0cb3, 0x4ed8aa4a, 0x5b9cca4f, 0x682e6ff3, 0x748f82ee, 0x78a5636f, 0x84c87814, 0x8cc70208,
    0x90befffa, 0xa4506ceb, 0xbef9a3f7, 0xc67178f2,
];
const START: [u32; 8] =
    [0x6a09e667, 0xbb67ae85, 0x3c6ef372, 0xa54ff53a, 0x510e527f, 0x9b05688c, 0x1f83d9ab, 0x5be0cd19];

#[derive(Clone, Copy)]
pub enum Way {
    Instructions,
    Vectors,
    Words,
}

/// The fastest way that this processor has.
pub fn best_way() -> Way {
    if is_x86_feature_detected!("sha") {
        Way::Instructions
    } else if is_x86_feature_detected!("avx512vl") && is_x86_feature_detected!("avx512f") {
        Way::Vectors
    } else {
        Way::Words
    }
}

#[inline(always)]
pub fn sha256_of_32(way: Way, message: &[u8; 32]) -> [u8; 32] {
    match way {
        Way::Instructions => unsafe { by_instructions(message) },
        Way::Vectors => unsafe { by_vectors(message) },
        Way::Words => by_words(message),
    }
}

/// A round. `$bc` is the difference of b and c, and then that of a and b: the next round's.
macro_rules! round {
    ($a:ident $b:ident $c:ident $d:ident $e:ident $f:ident $g:ident $h:ident, $bc:ident, $kw:expr) => {
        let t = $h
            .wrapping_add($kw)
            .wrapping_add(($e & $f).wrapping_add(!$e & $g))
            .wrapping_add($e.rotate_right(6) ^ $e.rotate_right(11) ^ $e.rotate_right(25));
        $d = $d.wrapping_add(t);
        let ab = $a ^ $b;
        $h = t
            .wrapping_add(($bc & ab) ^ $b)
            .wrapping_add($a.rotate_right(2) ^ $a.rotate_right(13) ^ $a.rotate_right(22));
        $bc = ab;
    };
}

/// Eight rounds: after them each variable has the part that it had before.
macro_rules! eight {
    ($s:ident, $kw:expr) => {{
        let [mut a, mut b, mut c, mut d, mut e, mut f, mut g, mut h] = $s;
        let mut x = b ^ c;
        round!(a b c d e f g h, x, $kw(0));
        round!(h a b c d e f g, x, $kw(1));
        round!(g h a b c d e f, x, $kw(2));
        round!(f g h a b c d e, x, $kw(3));
        round!(e f g h a b c d, x, $kw(4));
        round!(d e f g h a b c, x, $kw(5));
        round!(c d e f g h a b, x, $kw(6));
        round!(b c d e f g h a, x, $kw(7));
        let _ = x;
        $s = [a, b, c, d, e, f, g, h];
    }};
}

#[inline(always)]
fn ended(s: [u32; 8]) -> [u8; 32] {
    let mut digest = [0; 32];
    for i in 0..8 {
        digest[4 * i..4 * i + 4].copy_from_slice(&s[i].wrapping_add(START[i]).to_be_bytes());
    }
    digest
}

#[inline(always)]
fn block(message: &[u8; 32]) -> [u32; 16] {
    let mut w = [0; 16];
    for i in 0..8 {
        w[i] = u32::from_be_bytes(message[4 * i..4 * i + 4].try_into().unwrap());
    }
    w[8] = 0x8000_0000;
    w[15] = 256;
    w
}

#[inline(never)]
fn by_words(message: &[u8; 32]) -> [u8; 32] {
    let mut w = block(message);
    let mut s = START;
    eight!(s, |i: usize| w[i].wrapping_add(K[i]));
    eight!(s, |i: usize| w[8 + i].wrapping_add(K[8 + i]));
    macro_rules! more {
        ($i:literal $k:literal) => {{
            let (x, y) = (w[($i + 1) & 15], w[($i + 14) & 15]);
            w[$i] = w[$i]
                .wrapping_add(x.rotate_right(7) ^ x.rotate_right(18) ^ x >> 3)
                .wrapping_add(w[($i + 9) & 15])
                .wrapping_add(y.rotate_right(17) ^ y.rotate_right(19) ^ y >> 10);
            w[$i].wrapping_add(K[$i + $k])
        }};
    }
    macro_rules! sixteen {
        ($k:literal) => {{
            let [mut a, mut b, mut c, mut d, mut e, mut f, mut g, mut h] = s;
            let mut x = b ^ c;
            round!(a b c d e f g h, x, more!(0 $k));
            round!(h a b c d e f g, x, more!(1 $k));
            round!(g h a b c d e f, x, more!(2 $k));
            round!(f g h a b c d e, x, more!(3 $k));
            round!(e f g h a b c d, x, more!(4 $k));
            round!(d e f g h a b c, x, more!(5 $k));
            round!(c d e f g h a b, x, more!(6 $k));
            round!(b c d e f g h a, x, more!(7 $k));
            round!(a b c d e f g h, x, more!(8 $k));
            round!(h a b c d e f g, x, more!(9 $k));
            round!(g h a b c d e f, x, more!(10 $k));
            round!(f g h a b c d e, x, more!(11 $k));
            round!(e f g h a b c d, x, more!(12 $k));
            round!(d e f g h a b c, x, more!(13 $k));
            round!(c d e f g h a b, x, more!(14 $k));
            round!(b c d e f g h a, x, more!(15 $k));
            let _ = x;
            s = [a, b, c, d, e, f, g, h];
        }};
    }
    sixteen!(16);
    sixteen!(32);
    sixteen!(48);
    ended(s)
}

/// The schedule is made four words at a time, beside the rounds.
#[target_feature(enable = "avx512f,avx512vl")]
#[inline(never)]
unsafe fn by_vectors(message: &[u8; 32]) -> [u8; 32] {
    let w = block(message);
    let k = |i: usize| unsafe { _mm_loadu_si128(K.as_ptr().add(i).cast()) };
    let mut kw = [0u32; 64];
    let mut x = [_mm_setzero_si128(); 4];
    let put = |kw: &mut [u32; 64], i: usize, v: __m128i| unsafe { _mm_storeu_si128(kw.as_mut_ptr().add(i).cast(), v) };
    for i in 0..4 {
        x[i] = unsafe { _mm_loadu_si128(w.as_ptr().add(4 * i).cast()) };
        put(&mut kw, 4 * i, _mm_add_epi32(x[i], k(4 * i)));
    }
    macro_rules! four {
        ($a:literal $b:literal $c:literal $d:literal $i:literal) => {{
            let early = _mm_alignr_epi8::<4>(x[$b], x[$a]);
            let small = _mm_ternarylogic_epi32::<0x96>(
                _mm_ror_epi32::<7>(early), _mm_ror_epi32::<18>(early), _mm_srli_epi32::<3>(early));
            let sum = _mm_add_epi32(_mm_add_epi32(x[$a], small), _mm_alignr_epi8::<4>(x[$d], x[$c]));
            let two = _mm_shuffle_epi32::<0b11_10_11_10>(x[$d]);
            let first = _mm_ternarylogic_epi32::<0x96>(
                _mm_ror_epi32::<17>(two), _mm_ror_epi32::<19>(two), _mm_srli_epi32::<10>(two));
            let half = _mm_add_epi32(sum, _mm_move_epi64(first));
            let next = _mm_shuffle_epi32::<0b01_00_01_00>(half);
            let second = _mm_ternarylogic_epi32::<0x96>(
                _mm_ror_epi32::<17>(next), _mm_ror_epi32::<19>(next), _mm_srli_epi32::<10>(next));
            x[$a] = _mm_add_epi32(half, _mm_unpackhi_epi64(_mm_setzero_si128(), second));
            put(&mut kw, $i, _mm_add_epi32(x[$a], k($i)));
        }};
    }
    let mut s = START;
    eight!(s, |i: usize| kw[i]);
    four!(0 1 2 3 16);
    four!(1 2 3 0 20);
    eight!(s, |i: usize| kw[8 + i]);
    four!(2 3 0 1 24);
    four!(3 0 1 2 28);
    eight!(s, |i: usize| kw[16 + i]);
    four!(0 1 2 3 32);
    four!(1 2 3 0 36);
    eight!(s, |i: usize| kw[24 + i]);
    four!(2 3 0 1 40);
    four!(3 0 1 2 44);
    eight!(s, |i: usize| kw[32 + i]);
    four!(0 1 2 3 48);
    four!(1 2 3 0 52);
    eight!(s, |i: usize| kw[40 + i]);
    four!(2 3 0 1 56);
    four!(3 0 1 2 60);
    eight!(s, |i: usize| kw[48 + i]);
    eight!(s, |i: usize| kw[56 + i]);
    ended(s)
}

#[target_feature(enable = "sha,sse4.1,ssse3")]
#[inline(never)]
unsafe fn by_instructions(message: &[u8; 32]) -> [u8; 32] {
    let w = block(message);
    let k = |i: usize| unsafe { _mm_loadu_si128(K.as_ptr().add(4 * i).cast()) };
    let mut x = [_mm_setzero_si128(); 4];
    for i in 0..4 {
        x[i] = unsafe { _mm_loadu_si128(w.as_ptr().add(4 * i).cast()) };
    }
    let [a, b, c, d, e, f, g, h] = START.map(|word| word as i32);
    let start = [_mm_set_epi32(a, b, e, f), _mm_set_epi32(c, d, g, h)];
    let [mut abef, mut cdgh] = start;
    for i in 0..16 {
        if i >= 4 {
            let seventh = _mm_alignr_epi8::<4>(x[(i + 3) % 4], x[(i + 2) % 4]);
            let sum = _mm_add_epi32(_mm_sha256msg1_epu32(x[i % 4], x[(i + 1) % 4]), seventh);
            x[i % 4] = _mm_sha256msg2_epu32(sum, x[(i + 3) % 4]);
        }
        let kw = _mm_add_epi32(x[i % 4], k(i));
        cdgh = _mm_sha256rnds2_epu32(cdgh, abef, kw);
        abef = _mm_sha256rnds2_epu32(abef, cdgh, _mm_shuffle_epi32::<0b1110>(kw));
    }
    abef = _mm_add_epi32(abef, start[0]);
    cdgh = _mm_add_epi32(cdgh, start[1]);
    let abcd = _mm_unpackhi_epi64(cdgh, abef);
    let efgh = _mm_unpacklo_epi64(cdgh, abef);
    let flip = _mm_set_epi8(0, 1, 2, 3, 4, 5, 6, 7, 8, 9, 10, 11, 12, 13, 14, 15);
    let mut digest = [0; 32];
    unsafe {
        _mm_storeu_si128(digest.as_mut_ptr().cast(), _mm_shuffle_epi8(abcd, flip));
        _mm_storeu_si128(digest.as_mut_ptr().add(16).cast(), _mm_shuffle_epi8(efgh, flip));
    }
    digest
}

#[cfg(test)]
mod tests {
    use super::*;

    #[test]
    fn each_way_gives_the_same() {
        let zeros = "66687aadf862bd776c8fc18b8e9f8e20089714856ee233b3902a591d0d5f2925";
        let hex = |digest: [u8; 32]| digest.iter().map(|b| format!("{b:02x}")).collect::<String>();
        assert_eq!(hex(by_words(&[0; 32])), zeros);
        let message: [u8; 32] = std::array::from_fn(|i| i as u8 * 7);
        if is_x86_feature_detected!("avx512vl") {
            assert_eq!(hex(unsafe { by_vectors(&[0; 32]) }), zeros);
            assert_eq!(unsafe { by_vectors(&message) }, by_words(&message));
        }
        if is_x86_feature_detected!("sha") {
            assert_eq!(hex(unsafe { by_instructions(&[0; 32]) }), zeros);
            assert_eq!(unsafe { by_instructions(&message) }, by_words(&message));
        }
    }
}

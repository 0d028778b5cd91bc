//! Hash tables of numbers below 65,535, by keys that the caller has. A slot is 16 bits of the hash and 16 of the number.

const EMPTY: u32 = u32::MAX;
const FACTOR: u64 = 0x9e37_79b9_7f4a_7c15;
pub const SEED: u64 = 0x243f_6a88_85a3_08d3;

/// The hash of what was hashed before and one word more.
#[inline(always)]
pub fn hash_word(hash: u64, word: u64) -> u64 {
    let wide = u128::from(hash ^ word) * u128::from(FACTOR);
    (wide as u64) ^ ((wide >> 64) as u64)
}

/// The hash of what was hashed before and these bytes.
#[inline(always)]
pub fn hash_bytes(mut hash: u64, bytes: &[u8]) -> u64 {
    let n = bytes.len();
    let word = |at: usize| u64::from_le_bytes(bytes[at..at + 8].try_into().unwrap());
    let half = |at: usize| u64::from(u32::from_le_bytes(bytes[at..at + 4].try_into().unwrap()));
    let last = if n >= 8 {
        let mut at = 0;
        while at + 8 < n {
            hash = hash_word(hash, word(at));
            at += 8;
        }
        word(n - 8)
    } else if n >= 4 {
        half(0) | half(n - 4) << 32
    } else if n > 0 {
        u64::from(bytes[0]) | u64::from(bytes[n / 2]) << 8 | u64::from(bytes[n - 1]) << 16
    } else {
        0
    };
    hash_word(hash.wrapping_add(n as u64), last)
}

pub struct Table {
    slots: Vec<u32>,
    shift: u32,
    used: usize,
}

impl Table {
    pub fn new() -> Table {
        Table { slots: vec![EMPTY; 16], shift: 60, used: 0 }
    }

    fn slot(hash: u64, item: u16) -> u32 {
        (hash as u32) << 16 | u32::from(item)
    }

    /// The item of that hash that is the one.
    #[inline(always)]
    pub fn find(&self, hash: u64, is_it: impl Fn(usize) -> bool) -> Option<usize> {
        let mask = self.slots.len() - 1;
        let mut at = (hash >> self.shift) as usize;
        loop {
            let slot = self.slots[at & mask];
            if slot == EMPTY {
                return None;
            }
            if slot >> 16 == (hash as u32) & 0xffff && is_it((slot & 0xffff) as usize) {
                return Some((slot & 0xffff) as usize);
            }
            at += 1;
        }
    }

    /// One item more, that is not there. `hash_of` tells the hash of each.
    pub fn insert(&mut self, hash: u64, item: usize, hash_of: impl Fn(usize) -> u64) {
        if (self.used + 1) * 2 > self.slots.len() {
            let old = std::mem::take(&mut self.slots);
            self.slots = vec![EMPTY; old.len() * 2];
            self.shift -= 1;
            for slot in old.into_iter().filter(|slot| *slot != EMPTY) {
                self.put(hash_of((slot & 0xffff) as usize), (slot & 0xffff) as u16);
            }
        }
        self.put(hash, item as u16);
        self.used += 1;
    }

    fn put(&mut self, hash: u64, item: u16) {
        let mask = self.slots.len() - 1;
        let mut at = (hash >> self.shift) as usize;
        while self.slots[at & mask] != EMPTY {
            at += 1;
        }
        self.slots[at & mask] = Table::slot(hash, item);
    }

    /// Without an item that is there. Those behind it move up to where they are looked for.
    pub fn remove(&mut self, hash: u64, item: usize, hash_of: impl Fn(usize) -> u64) {
        let mask = self.slots.len() - 1;
        let wanted = Table::slot(hash, item as u16);
        let mut hole = (hash >> self.shift) as usize & mask;
        while self.slots[hole] != wanted {
            hole = (hole + 1) & mask;
        }
        let mut at = hole;
        loop {
            at = (at + 1) & mask;
            let slot = self.slots[at];
            if slot == EMPTY {
                break;
            }
            let home = (hash_of((slot & 0xffff) as usize) >> self.shift) as usize & mask;
            if at.wrapping_sub(home) & mask >= at.wrapping_sub(hole) & mask {
                self.slots[hole] = slot;
                hole = at;
            }
        }
        self.slots[hole] = EMPTY;
        self.used -= 1;
    }

    pub fn clear(&mut self) {
        self.slots.fill(EMPTY);
        self.used = 0;
    }
}

//! A quick hash for the judges' own maps. The inputs are test listings, so it
//! need not withstand an enemy; it must only spread well.

use std::collections::{HashMap, HashSet};
use std::hash::{BuildHasherDefault, Hasher};

pub type QuickMap<K, V> = HashMap<K, V, BuildHasherDefault<QuickHasher>>;
pub type QuickSet<K> = HashSet<K, BuildHasherDefault<QuickHasher>>;

const ODD: u64 = 0x9e37_79b9_7f4a_7c15;

/// Takes one word into a running hash.
#[inline]
pub fn stir(state: u64, word: u64) -> u64 {
    (state.rotate_left(23) ^ word).wrapping_mul(ODD)
}

/// Spreads a running hash over all its bits.
#[inline]
pub fn settle(state: u64) -> u64 {
    let folded = (state ^ (state >> 32)).wrapping_mul(0xd6e8_feb8_6659_fd93);
    folded ^ (folded >> 32)
}

#[derive(Default)]
pub struct QuickHasher {
    state: u64,
}

impl Hasher for QuickHasher {
    fn finish(&self) -> u64 {
        settle(self.state)
    }

    fn write(&mut self, octets: &[u8]) {
        let mut words = octets.chunks_exact(8);
        for word in &mut words {
            let mut whole = [0; 8];
            whole.copy_from_slice(word);
            self.write_u64(u64::from_le_bytes(whole));
        }
        let mut last = 0;
        for &octet in words.remainder() {
            last = last << 8 | u64::from(octet);
        }
        self.write_u64(last);
    }

    fn write_u32(&mut self, word: u32) {
        self.write_u64(u64::from(word));
    }

    fn write_u64(&mut self, word: u64) {
        self.state = stir(self.state, word);
    }

    fn write_i64(&mut self, word: i64) {
        self.write_u64(word as u64);
    }

    fn write_usize(&mut self, word: usize) {
        self.write_u64(word as u64);
    }
}

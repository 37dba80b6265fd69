//! A hash for keys of one number, as quick as a good one can be.

use std::collections::HashMap;
use std::hash::{BuildHasherDefault, Hasher};

/// The odd number nearest to 2^64 over the golden ratio: its multiples lie far from each other.
const SPREAD: u64 = 0x9e37_79b9_7f4a_7c15;

#[derive(Default)]
pub struct Mix(u64);

impl Hasher for Mix {
    fn write(&mut self, bytes: &[u8]) {
        bytes.iter().for_each(|&byte| self.write_u64(byte as u64));
    }

    #[inline]
    fn write_u64(&mut self, number: u64) {
        self.0 = (self.0.rotate_left(5) ^ number).wrapping_mul(SPREAD);
    }

    /// The high bits of a product depend on most bits of the number: they go where a table looks.
    #[inline]
    fn finish(&self) -> u64 {
        self.0.rotate_left(26)
    }
}

pub type Map<V> = HashMap<u64, V, BuildHasherDefault<Mix>>;

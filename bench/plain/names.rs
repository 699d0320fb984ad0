//! Maps of names.

use std::collections::HashMap;
use std::hash::{BuildHasherDefault, Hasher};

/// Hashes names by folded multiplications with a fixed seed, as the maps of topichub do.
#[derive(Default)]
pub struct NameHasher {
    state: u64,
}

impl NameHasher {
    fn fold(&mut self, word: u64) {
        let product = u128::from(self.state ^ word) * 0x9e37_79b9_7f4a_7c15;
        self.state = product as u64 ^ (product >> 64) as u64;
    }
}

impl Hasher for NameHasher {
    fn write(&mut self, bytes: &[u8]) {
        let (words, rest) = bytes.as_chunks();
        for word in words {
            self.fold(u64::from_le_bytes(*word));
        }
        match bytes.last_chunk() {
            Some(_) if rest.is_empty() => {}
            Some(word) => self.fold(u64::from_le_bytes(*word)),
            None => self.fold(rest.iter().fold(1, |word, &b| word << 8 | u64::from(b))),
        }
    }

    fn write_usize(&mut self, length: usize) {
        self.fold(length as u64);
    }

    fn finish(&self) -> u64 {
        self.state
    }
}

pub type Names<T> = HashMap<Box<[u8]>, T, BuildHasherDefault<NameHasher>>;

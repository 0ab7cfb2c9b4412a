//! The pairs of a set of operations and a value that the search met.
use std::collections::HashSet;
use std::hash::{BuildHasherDefault, Hasher};

/// What a key takes beside its words: its place in the table, which is seldom full, and what the
/// allocator keeps of it.
const BYTES_BESIDE: usize = 48;

/// An odd number with bits in no order.
const FACTOR: u128 = 0x9e37_79b9_7f4a_7c15;

/// Hashes the words of a key: each is multiplied with what came before, and the halves of the product are
/// put together.
#[derive(Default)]
struct WordHasher(u64);

impl WordHasher {
    fn add(&mut self, word: u64) {
        let product = u128::from(self.0.rotate_left(32) ^ word) * FACTOR;
        self.0 = (product >> 64) as u64 ^ product as u64;
    }
}

impl Hasher for WordHasher {
    fn write(&mut self, bytes: &[u8]) {
        for part in bytes.chunks(8) {
            let mut word = [0; 8];
            word[..part.len()].copy_from_slice(part);
            self.add(u64::from_le_bytes(word));
        }
    }

    fn write_usize(&mut self, length: usize) {
        self.add(length as u64);
    }

    fn finish(&self) -> u64 {
        self.0
    }
}

#[derive(Default)]
pub struct Cache {
    keys: HashSet<Box<[u64]>, BuildHasherDefault<WordHasher>>,
    bytes: usize,
}

impl Cache {
    /// Whether the key is new. It is kept then.
    pub fn keeps(&mut self, key: &[u64]) -> bool {
        if self.keys.contains(key) {
            return false;
        }
        self.bytes += std::mem::size_of_val(key) + BYTES_BESIDE;
        self.keys.insert(key.into())
    }

    pub fn len(&self) -> usize {
        self.keys.len()
    }

    /// About how much memory the keys take.
    pub fn bytes(&self) -> usize {
        self.bytes
    }
}

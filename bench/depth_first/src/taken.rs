//! The set of the operations that are in the order so far: a bit for each, by the order of calls.
use crate::history::Value;

const BITS: usize = u64::BITS as usize;

/// How much of a set an entry of the cache has.
#[derive(Clone, Copy, PartialEq)]
pub enum Sets {
    /// All words, as Porcupine keeps them.
    Whole,
    /// The words from the first operation that isn't in the set to the last one that is, and a number
    /// that says where they begin. It is the same set in fewer words, unless a pending call of long ago
    /// isn't in it.
    Windows,
}

pub struct Taken {
    words: Vec<u64>,
    /// The first operation that isn't in the set.
    first_out: usize,
    /// One more than the last operation that is.
    end: usize,
}

impl Taken {
    pub fn new(operations: usize) -> Self {
        Self {
            // there is always a bit that isn't set
            words: vec![0; operations / BITS + 1],
            first_out: 0,
            end: 0,
        }
    }

    fn has(&self, operation: usize) -> bool {
        self.words[operation / BITS] >> (operation % BITS) & 1 == 1
    }

    pub fn add(&mut self, operation: usize) {
        self.words[operation / BITS] |= 1 << (operation % BITS);
        self.end = self.end.max(operation + 1);
        if operation == self.first_out {
            self.first_out = self.next_out(operation);
        }
    }

    pub fn remove(&mut self, operation: usize) {
        self.words[operation / BITS] &= !(1 << (operation % BITS));
        self.first_out = self.first_out.min(operation);
        while self.end > 0 && !self.has(self.end - 1) {
            self.end -= 1;
        }
    }

    /// The first operation from this one on that isn't in the set.
    fn next_out(&self, from: usize) -> usize {
        let mut at = from / BITS;
        let mut out = !self.words[at] & (!0 << (from % BITS));
        while out == 0 {
            at += 1;
            out = !self.words[at];
        }
        at * BITS + out.trailing_zeros() as usize
    }

    /// Writes the set and the value into a key of the cache: equal keys are of equal sets and values.
    pub fn write_key(&self, value: Value, sets: Sets, key: &mut Vec<u64>) {
        let (first_out, words) = match sets {
            Sets::Whole => (0, &self.words[..]),
            Sets::Windows => {
                let first = self.first_out / BITS;
                let end = (self.end + BITS - 1) / BITS;
                (self.first_out, &self.words[first..end.max(first)])
            }
        };
        key.clear();
        key.push((first_out as u64) << u32::BITS | u64::from(value));
        key.extend_from_slice(words);
    }
}

#[cfg(test)]
mod tests {
    use super::{Sets, Taken};

    fn key(taken: &Taken, sets: Sets) -> Vec<u64> {
        let mut key = Vec::new();
        taken.write_key(7, sets, &mut key);
        key
    }

    #[test]
    fn a_window_begins_at_the_first_operation_that_is_out() {
        let mut taken = Taken::new(200);
        assert_eq!(key(&taken, Sets::Windows), [7]);
        (0..130).for_each(|operation| taken.add(operation));
        assert_eq!(key(&taken, Sets::Windows), [130 << 32 | 7, 3]);
        taken.add(131);
        assert_eq!(key(&taken, Sets::Windows), [130 << 32 | 7, 11]);
        taken.remove(64);
        assert_eq!(key(&taken, Sets::Windows), [64 << 32 | 7, !1, 11]);
        assert_eq!(key(&taken, Sets::Whole), [7, !0, !1, 11, 0]);
        taken.remove(131);
        assert_eq!(key(&taken, Sets::Windows), [64 << 32 | 7, !1, 3]);
    }

    #[test]
    fn what_is_removed_leaves_no_trace() {
        for operations in [1, 63, 64, 65, 128] {
            let mut taken = Taken::new(operations);
            let empty = key(&taken, Sets::Windows);
            (0..operations).for_each(|operation| taken.add(operation));
            (0..operations)
                .rev()
                .for_each(|operation| taken.remove(operation));
            assert_eq!(key(&taken, Sets::Windows), empty, "{operations}");
        }
    }
}

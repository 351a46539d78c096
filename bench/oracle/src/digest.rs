//! The hash by which outputs are told apart.

use crate::word::Word;

/// The 64-bit FNV-1a hash of the bytes so far.
pub struct Digest {
    hash: u64,
}

impl Digest {
    /// The hash of no bytes.
    pub fn new() -> Self {
        Digest {
            hash: 0xcbf2_9ce4_8422_2325,
        }
    }

    /// The hash of the words, each as its `T / 8` bytes.
    pub fn of<E: Word>(words: &[E]) -> Self {
        let mut digest = Digest::new();
        digest.add_words(words);
        digest
    }

    /// Adds words, each as its `T / 8` bytes.
    pub fn add_words<E: Word>(&mut self, words: &[E]) {
        for &word in words {
            self.add(word.into(), E::T / 8);
        }
    }

    /// Adds the lowest bytes of a number, the lowest first.
    pub fn add(&mut self, number: u64, bytes: usize) {
        for byte in &number.to_le_bytes()[..bytes] {
            self.hash = (self.hash ^ u64::from(*byte)).wrapping_mul(0x0000_0100_0000_01b3);
        }
    }

    pub fn hash(&self) -> u64 {
        self.hash
    }
}

//! Memory that is lent to a call for writing.

use crate::check;
use crate::library::LIMIT;
use std::sync::OnceLock;

/// Lent memory, filled with a pattern that has no zero byte, between two guards of the same pattern.
#[derive(Clone)]
pub struct Lent {
    memory: Vec<u8>,
    len: usize,
}

const GUARD: usize = 32;

impl Lent {
    pub fn new(len: usize) -> Lent {
        Lent { memory: Lent::pattern(len + 2 * GUARD).to_vec(), len }
    }

    /// The pattern's first bytes, made once.
    fn pattern(len: usize) -> &'static [u8] {
        static PATTERN: OnceLock<Vec<u8>> = OnceLock::new();
        &PATTERN.get_or_init(|| (0..LIMIT + 4096).map(|i| (i as u8).wrapping_mul(31) | 1).collect())[..len]
    }

    pub fn len(&self) -> usize {
        self.len
    }

    pub fn slice(&mut self) -> &mut [u8] {
        &mut self.memory[GUARD..GUARD + self.len]
    }

    /// It holds `front`, and the pattern in all later bytes and in the guards.
    pub fn check(&self, what: impl Fn(&str) -> String, front: &[u8]) {
        let pattern = Lent::pattern(self.memory.len());
        let later = GUARD + front.len();
        check::bytes(|| what("front"), front, &self.memory[GUARD..later]);
        check::bytes(|| what("memory before it"), &pattern[..GUARD], &self.memory[..GUARD]);
        check::bytes(|| what("later bytes"), &pattern[later..], &self.memory[later..]);
    }

    /// It is `expected`, guards and all.
    pub fn check_same(&self, what: impl Fn(&str) -> String, expected: &Lent) {
        let end = GUARD + self.len;
        for (part, at) in [("bytes", GUARD..end), ("memory before it", 0..GUARD), ("memory after it", end..end + GUARD)] {
            check::bytes(|| what(part), &expected.memory[at.clone()], &self.memory[at.clone()]);
        }
    }
}

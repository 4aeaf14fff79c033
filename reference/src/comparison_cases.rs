//! Pairs of sets for programs that compare them, and what each comes to, so that
//! another implementation can be compared.

mod chosen;
mod sample;

pub use sample::random_pair;

use crate::places::{Comparison, Places};
use std::fmt;

/// Two sets, of which the first may lie within the second.
#[derive(Clone, Copy, Debug, PartialEq, Eq)]
pub struct Pair {
    pub first: Places,
    pub second: Places,
}

impl Pair {
    pub fn compare(&self) -> Comparison {
        self.first.compare(&self.second)
    }

    /// The words of the first set and then those of the second, little-endian:
    /// 128 bytes.
    pub fn encode(&self) -> Vec<u8> {
        let words = self.first.0.iter().chain(&self.second.0);
        words.flat_map(|word| word.to_le_bytes()).collect()
    }
}

/// The line that a pair has to give.
impl fmt::Display for Comparison {
    fn fmt(&self, f: &mut fmt::Formatter) -> fmt::Result {
        let side = if self.inside { "inside" } else { "outside" };
        write!(f, "{side} {}", self.looked_at)
    }
}

/// All pairs, the same at every call.
pub fn all() -> Vec<Pair> {
    [chosen::pairs(), sample::pairs()].concat()
}

/// The stream of these pairs.
pub fn stream(pairs: &[Pair]) -> Vec<u8> {
    pairs.iter().flat_map(Pair::encode).collect()
}

/// What each pair comes to, one line a pair.
pub fn answers(pairs: &[Pair]) -> String {
    pairs
        .iter()
        .map(|pair| format!("{}\n", pair.compare()))
        .collect()
}

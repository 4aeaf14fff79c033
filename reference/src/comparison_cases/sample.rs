//! Random pairs.

use super::Pair;
use crate::places::Places;
use crate::random::Random;
use std::cmp::Ordering;

/// The number of words, which stands for no word where a word is asked for.
const WORDS: usize = 8;

/// As many pairs for each word with the first missing place, and as many without
/// a missing place.
pub(super) fn pairs() -> Vec<Pair> {
    let mut random = Random::new(0);
    (0..900)
        .map(|number| lacking_from(&mut random, number % (WORDS + 1)))
        .collect()
}

/// A pair in which every word is as likely to have the first missing place as
/// none is.
pub fn random_pair(random: &mut Random) -> Pair {
    let word = random.below(WORDS + 1);
    lacking_from(random, word)
}

/// A pair in which this word is the first with a missing place.
fn lacking_from(random: &mut Random, lacking: usize) -> Pair {
    let mut first = Places::EMPTY;
    let mut second = Places::EMPTY;
    for word in 0..WORDS {
        (first.0[word], second.0[word]) = match word.cmp(&lacking) {
            Ordering::Less => contained(random),
            Ordering::Equal => uncontained(random),
            Ordering::Greater => (some_bits(random), some_bits(random)),
        };
    }
    Pair { first, second }
}

/// A word of each set, where the second has all of the first.
fn contained(random: &mut Random) -> (u64, u64) {
    let theirs = some_bits(random);
    (theirs & some_bits(random), theirs)
}

/// A word of each set, where the second lacks one place, or any number of them.
fn uncontained(random: &mut Random) -> (u64, u64) {
    let one = 1 << random.below(64);
    let many = one | some_bits(random);
    let missing = random.pick(&[one, many]);
    let theirs = some_bits(random) & !missing;
    (missing | theirs & some_bits(random), theirs)
}

/// No bit, every bit, few, many or about half.
fn some_bits(random: &mut Random) -> u64 {
    let [a, b, c] = [random.word(), random.word(), random.word()];
    random.pick(&[0, u64::MAX, a & b & c, a | b | c, a, a])
}

#[cfg(test)]
mod tests {
    use super::*;
    use crate::places::Comparison;

    #[test]
    fn places_are_missing_from_the_word_on() {
        let mut random = Random::new(1);
        for _ in 0..2_000 {
            for word in 0..WORDS {
                let outside = Comparison {
                    inside: false,
                    looked_at: word + 1,
                };
                assert_eq!(lacking_from(&mut random, word).compare(), outside);
            }
            let inside = Comparison {
                inside: true,
                looked_at: 8,
            };
            assert_eq!(lacking_from(&mut random, WORDS).compare(), inside);
        }
    }

    #[test]
    fn every_end_is_as_likely() {
        let mut counts = [0; WORDS + 1];
        for seed in 0..90_000 {
            let Comparison { inside, looked_at } = random_pair(&mut Random::new(seed)).compare();
            counts[if inside { 0 } else { looked_at }] += 1;
        }
        assert!(counts.iter().all(|count| (9_500..10_500).contains(count)));
    }
}

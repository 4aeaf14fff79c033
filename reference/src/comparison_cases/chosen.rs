//! Pairs chosen one by one: which places the first set has alone, and which the
//! second.

use super::Pair;
use crate::places::Places;
use std::array::from_fn;

const EMPTY: Places = Places::EMPTY;
const FULL: Places = Places([u64::MAX; 8]);

/// Bits at both ends of a word and of its halves.
const ENDS: [usize; 8] = [0, 1, 30, 31, 32, 33, 62, 63];

/// Two groups of bits that share none.
const SOME_BITS: u64 = 0x0040_0408_0000_0200;
const OTHER_BITS: u64 = 0x8000_0000_8100_0001;

pub(super) fn pairs() -> Vec<Pair> {
    [
        first_pairs(),
        each_place(),
        more_in_one_word(),
        more_in_many_words(),
        choices_of_words(),
        two_words(),
        many_places(),
        plain_sets(),
        ends(),
    ]
    .concat()
}

/// The places that both sets have, but for those that one of them has alone.
fn pair(mut shared: Places, missing: Places, more: Places) -> Pair {
    shared.remove(&missing);
    shared.remove(&more);
    Pair {
        first: shared.union(&missing),
        second: shared.union(&more),
    }
}

fn swapped(Pair { first, second }: Pair) -> Pair {
    Pair {
        first: second,
        second: first,
    }
}

/// The pair, and the same with its sets in the other order.
fn both_orders(pair: Pair) -> [Pair; 2] {
    [pair, swapped(pair)]
}

/// A set with half of the places of every word; no two words are alike.
fn mixed() -> Places {
    Places(from_fn(|word| {
        0x0F1E_2D3C_4B5A_6978_u64.rotate_left(5 * word as u32)
    }))
}

fn complement(set: Places) -> Places {
    Places(set.0.map(|word| !word))
}

/// The set with these bits of one word.
fn bits(word: usize, bits: u64) -> Places {
    let mut set = EMPTY;
    set.0[word] = bits;
    set
}

/// The members of a set that are in the chosen words.
fn in_words(set: Places, chosen: impl Fn(usize) -> bool) -> Places {
    Places(from_fn(|word| if chosen(word) { set.0[word] } else { 0 }))
}

/// One place is missing in word 0, 3 and 7, and none.
fn first_pairs() -> Vec<Pair> {
    [
        Places::single(5),
        Places::single(200),
        Places::single(498),
        EMPTY,
    ]
    .map(|missing| pair(mixed(), missing, EMPTY))
    .to_vec()
}

/// Each place alone is missing: in sets that are alike otherwise, and from a set
/// with every other place.
fn each_place() -> Vec<Pair> {
    (0..512)
        .map(Places::single)
        .flat_map(|one| [pair(mixed(), one, EMPTY), pair(EMPTY, one, complement(one))])
        .collect()
}

/// The second set has more places in one word, and lacks places in one, which
/// may be the same, or in none.
fn more_in_one_word() -> Vec<Pair> {
    let mut pairs = Vec::new();
    for richer in 0..8 {
        let more = bits(richer, OTHER_BITS);
        pairs.push(pair(mixed(), EMPTY, more));
        for lacking in 0..8 {
            let missing = bits(lacking, SOME_BITS);
            pairs.extend(both_orders(pair(mixed(), missing, more)));
        }
    }
    pairs
}

/// The second set has every place of all words before the one in which it lacks
/// places, after it, or of both.
fn more_in_many_words() -> Vec<Pair> {
    let mut pairs = Vec::new();
    for lacking in 0..8 {
        let missing = bits(lacking, SOME_BITS);
        let rest = complement(mixed());
        for more in [
            in_words(rest, |word| word < lacking),
            in_words(rest, |word| word > lacking),
            in_words(rest, |word| word != lacking),
        ] {
            pairs.extend(both_orders(pair(mixed(), missing, more)));
        }
    }
    pairs
}

/// Every choice of words with missing places. Of each word one place, with one
/// place more in the others; and each word whole.
fn choices_of_words() -> Vec<Pair> {
    let mut pairs = Vec::new();
    for choice in 0..256 {
        let chosen = |word: usize| choice >> word & 1 == 1;
        let spots = Places(from_fn(|word| 1 << ((choice + 11 * word) % 64)));
        let missing = in_words(spots, chosen);
        let more = in_words(spots, |word| !chosen(word));
        pairs.push(pair(mixed(), missing, more));
        pairs.push(pair(mixed(), in_words(FULL, chosen), EMPTY));
    }
    pairs
}

/// Places are missing in each two words: one place and then a whole word, and
/// all but one place and then one.
fn two_words() -> Vec<Pair> {
    let mut pairs = Vec::new();
    for first in 0..8 {
        for later in first + 1..8 {
            let few = bits(first, 1 << 40).union(&bits(later, u64::MAX));
            let many = bits(first, !(1 << 40)).union(&bits(later, 1 << 17));
            pairs.push(pair(mixed(), few, EMPTY));
            pairs.push(pair(mixed(), many, EMPTY));
        }
    }
    pairs
}

/// The lowest and the highest places of one word are missing.
fn many_places() -> Vec<Pair> {
    let mut pairs = Vec::new();
    for word in 0..8 {
        for count in [2, 3, 8, 9, 31, 32, 33, 63] {
            let lowest = bits(word, u64::MAX >> (64 - count));
            let highest = bits(word, u64::MAX << (64 - count));
            pairs.extend([lowest, highest].map(|missing| pair(mixed(), missing, EMPTY)));
        }
    }
    pairs
}

/// Sets with nothing, everything, half of it or a single place, each with each
/// and with itself.
fn plain_sets() -> Vec<Pair> {
    let sets = [
        EMPTY,
        FULL,
        mixed(),
        complement(mixed()),
        Places::single(0),
        Places::single(63),
        Places::single(64),
        Places::single(511),
    ];
    sets.iter()
        .flat_map(|&first| sets.map(|second| Pair { first, second }))
        .collect()
}

/// For a place at an end of a word or of its half: nothing else, or everything
/// else, in both sets; the place in both; in the second alone; and the next
/// place in its stead.
fn ends() -> Vec<Pair> {
    let mut pairs = Vec::new();
    for place in (0..8).flat_map(|word| ENDS.map(|bit| 64 * word + bit)) {
        let one = Places::single(place);
        let next = Places::single((place + 1) % 512);
        pairs.extend([
            pair(EMPTY, one, EMPTY),
            pair(FULL, one, EMPTY),
            pair(one, EMPTY, EMPTY),
            pair(EMPTY, EMPTY, one),
            pair(mixed(), EMPTY, one),
            pair(EMPTY, one, next),
        ]);
    }
    pairs
}

//! Comparing sets of places, and the pairs for programs that do: their stream,
//! their lines, that they meet enough, and that they notice wrong ways.

#[path = "comparisons/wrong_ways.rs"]
mod wrong_ways;

use reference::comparison_cases::{all, answers, random_pair, stream, Pair};
use reference::places::{Comparison, Places};
use reference::random::Random;
use std::collections::{BTreeMap, BTreeSet};
use wrong_ways::WRONG_WAYS;

/// A wrong way has to differ at this many lines.
const NOTICED: usize = 61;

const FULL: Places = Places([u64::MAX; 8]);

fn places(members: &[usize]) -> Places {
    members.iter().fold(Places::EMPTY, |set, &place| {
        set.union(&Places::single(place))
    })
}

fn pair(first: &[usize], second: &[usize]) -> Pair {
    Pair {
        first: places(first),
        second: places(second),
    }
}

/// Word 0 has places 0 to 63, word 3 places 192 to 255, word 7 places 448 to 511.
#[test]
fn lines_worked_out_by_hand() {
    let lines = answers(&[
        pair(&[], &[]),
        pair(&[], &[0, 511]),
        pair(&[0, 511], &[]),
        pair(&[63, 64], &[63]),
        pair(&[63, 64], &[64]),
        pair(&[7, 200, 300], &[7, 8, 9, 70, 300]),
        pair(&[191, 192, 255, 256], &[191, 192, 256]),
        pair(&[447, 448], &[446, 447, 449]),
        pair(&[1, 500], &[1, 2, 65, 130, 500]),
        pair(&[320, 321, 400], &[320, 321, 400]),
    ]);
    let expected = "\
inside 8
inside 8
outside 1
outside 2
outside 1
outside 4
outside 4
outside 8
inside 8
inside 8
";
    assert_eq!(lines, expected);
}

#[test]
fn a_pair_is_sixteen_words() {
    let first = Places([0x0807_0605_0403_0201, 0, 0, 0, 0, 0, 0, 9]);
    let second = Places([10, 0, 0, 0, 0, 0, 0, 0xFF << 56]);
    let bytes = stream(&[Pair { first, second }, pair(&[], &[])]);
    assert_eq!(bytes[..9], [1, 2, 3, 4, 5, 6, 7, 8, 0]);
    assert_eq!(bytes[56..66], [9, 0, 0, 0, 0, 0, 0, 0, 10, 0]);
    assert_eq!(bytes[120..129], [0, 0, 0, 0, 0, 0, 0, 255, 0]);
    assert_eq!(bytes.len(), 256);
}

#[test]
fn the_first_pairs_differ_in_word_0_3_and_7_and_in_none() {
    let pairs = &all()[..4];
    let lines = "outside 1\noutside 4\noutside 8\ninside 8\n";
    assert_eq!(answers(pairs), lines);
    let differing = |pair: &Pair| -> Vec<usize> {
        let words = 0..8;
        words
            .filter(|&word| pair.first.0[word] != pair.second.0[word])
            .collect()
    };
    let words: Vec<Vec<usize>> = pairs.iter().map(differing).collect();
    assert_eq!(words, [vec![0], vec![3], vec![7], vec![]]);
}

/// The places that are in the first set alone.
fn missing(pair: &Pair) -> Vec<usize> {
    (0..512)
        .filter(|&place| pair.first.holds(place) && !pair.second.holds(place))
        .collect()
}

/// Place by place: a word is looked at if no place before it is missing.
fn slowly(pair: &Pair) -> Comparison {
    let missing = missing(pair);
    let reached = |word: &usize| missing.iter().all(|place| place / 64 >= *word);
    Comparison {
        inside: missing.is_empty(),
        looked_at: (0..8).filter(reached).count(),
    }
}

#[test]
fn comparing_is_as_place_by_place() {
    for seed in 0..50_000 {
        let mut random = Random::new(seed);
        let pair = random_pair(&mut random);
        assert_eq!(pair.compare(), slowly(&pair), "seed {seed}: {pair:?}");
        // A few places, of which some are missing and some are shared.
        let mut draw = |most| -> Vec<usize> {
            let count = random.below(most);
            (0..count).map(|_| random.below(512)).collect()
        };
        let [missing, shared, more] = [3, 6, 6].map(&mut draw);
        let first = [missing, shared.clone()].concat();
        let pair = self::pair(&first, &[shared, more].concat());
        assert_eq!(pair.compare(), slowly(&pair), "seed {seed}: {pair:?}");
    }
    for pair in all() {
        assert_eq!(pair.compare(), slowly(&pair), "{pair:?}");
    }
}

/// That a comparison ends early changes nothing of whether a set lies within.
#[test]
fn within_is_one_of_the_two_answers() {
    for pair in all() {
        let within = pair.first.within(&pair.second);
        assert_eq!(within, missing(&pair).is_empty(), "{pair:?}");
    }
}

#[test]
fn pairs_are_the_same_at_every_call() {
    assert_eq!(stream(&all()), stream(&all()));
}

#[test]
fn pairs_are_many_and_their_stream_short() {
    let pairs = all();
    assert!(pairs.len() >= 3_000, "{} pairs", pairs.len());
    assert!(stream(&pairs).len() <= 450_000);
}

/// What the pairs met.
#[derive(Debug, Default)]
struct Met {
    lines: BTreeMap<String, usize>,
    /// The missing place, where it is the only one, and both sets have others.
    alone: BTreeSet<usize>,
    /// The first word with missing places, and how many it has.
    counts: BTreeSet<(usize, u32)>,
    /// The first word with missing places, and a later one.
    later: BTreeSet<(usize, usize)>,
    /// The first word with missing places, and a word of which all are missing.
    whole: BTreeSet<(usize, usize)>,
    /// The first word with missing places, and another of which none is missing,
    /// and the second set has more.
    more: BTreeSet<(usize, usize)>,
}

impl Met {
    fn count(&mut self, pair: &Pair) {
        let line = pair.compare().to_string();
        *self.lines.entry(line).or_default() += 1;
        let missing = missing(pair);
        let Some(lowest) = missing.first() else {
            return;
        };
        let shared = pair.first.members().count() - missing.len();
        if missing.len() == 1 && shared > 0 {
            self.alone.insert(*lowest);
        }
        let first = lowest / 64;
        for word in 0..8 {
            let (own, theirs) = (pair.first.0[word], pair.second.0[word]);
            let lacking = own & !theirs;
            if word == first {
                self.counts.insert((word, lacking.count_ones()));
            } else if lacking == 0 && own != theirs {
                self.more.insert((first, word));
            } else if lacking != 0 {
                self.later.insert((first, word));
            }
            if lacking == u64::MAX {
                self.whole.insert((first, word));
            }
        }
    }
}

#[test]
fn the_pairs_meet_enough() {
    let mut met = Met::default();
    all().iter().for_each(|pair| met.count(pair));
    let lines: Vec<&str> = met.lines.keys().map(String::as_str).collect();
    let mut expected = vec!["inside 8"];
    let outside: Vec<String> = (1..=8).map(|number| format!("outside {number}")).collect();
    expected.extend(outside.iter().map(String::as_str));
    assert_eq!(lines, expected);
    assert!(met.lines.values().all(|&count| count >= 200), "{met:?}");
    assert!(met.alone.iter().copied().eq(0..512), "{:?}", met.alone);
    for word in 0..8 {
        for count in [1, 2, 3, 8, 9, 31, 32, 33, 63, 64] {
            assert!(met.counts.contains(&(word, count)), "{word} {count}");
        }
        for other in (0..8).filter(|&other| other != word) {
            assert!(met.more.contains(&(word, other)), "{word} {other}");
        }
        for other in word + 1..8 {
            assert!(met.later.contains(&(word, other)), "{word} {other}");
        }
        for other in word..8 {
            assert!(met.whole.contains(&(word, other)), "{word} {other}");
        }
    }
}

#[test]
fn plain_sets_are_among_the_pairs() {
    let pairs = all();
    for first in [Places::EMPTY, FULL] {
        for second in [Places::EMPTY, FULL, Places::single(0), Places::single(511)] {
            assert!(pairs.contains(&Pair { first, second }));
            let (first, second) = (second, first);
            assert!(pairs.contains(&Pair { first, second }));
        }
    }
}

#[test]
fn wrong_ways_are_noticed() {
    let pairs = all();
    for (name, way) in WRONG_WAYS {
        let differs = |pair: &&Pair| way(pair) != pair.compare();
        let lines = pairs.iter().filter(differs).count();
        println!("{lines} lines notice: {name}");
        assert!(lines >= NOTICED, "{name}: {lines} lines");
    }
}

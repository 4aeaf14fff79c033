//! Wrong ways to compare two sets.

use reference::comparison_cases::Pair;
use reference::places::{Comparison, Places};
use std::array::from_fn;

type Words = [u64; 8];
type Way = fn(&Pair) -> Comparison;

/// The first ones are mostly wrong in the number alone.
pub const WRONG_WAYS: [(&str, Way); 52] = [
    ("the failed word not counted", |pair| {
        outside(pair, |_, word| word)
    }),
    ("one word more", |pair| outside(pair, |_, word| word + 2)),
    ("eight always", |pair| outside(pair, |_, _| 8)),
    ("one always", |pair| outside(pair, |_, _| 1)),
    ("seven at most", |pair| {
        outside(pair, |_, word| 7.min(word + 1))
    }),
    ("up to the last failed word", |pair| {
        outside(pair, |missing, _| 8 - whole_at_the_end(missing))
    }),
    ("up to the second failed word", |pair| {
        outside(pair, |missing, word| {
            let second = (word + 1..8).find(|&word| missing[word] != 0);
            second.map_or(8, |word| word + 1)
        })
    }),
    ("from word 7 down", |pair| {
        outside(pair, |missing, _| whole_at_the_end(missing) + 1)
    }),
    ("the words from the failed one on", |pair| {
        outside(pair, |_, word| 8 - word)
    }),
    ("how many places are missing", |pair| {
        outside(pair, |missing, _| ones(missing))
    }),
    ("how many places the failed word lacks", |pair| {
        outside(pair, |missing, word| missing[word].count_ones() as usize)
    }),
    ("how many words fail", |pair| {
        outside(pair, |missing, _| words(missing))
    }),
    ("how many words do not fail", |pair| {
        outside(pair, |missing, _| 8 - words(missing))
    }),
    ("the missing place", |pair| outside(pair, place)),
    ("the places up to the missing one", |pair| {
        outside(pair, |missing, word| place(missing, word) + 1)
    }),
    ("the bit in its word", |pair| {
        outside(pair, |missing, word| place(missing, word) % 64)
    }),
    ("the owner in its word", |pair| {
        outside(pair, |missing, word| place(missing, word) / 8 % 8)
    }),
    ("bytes", |pair| {
        outside(pair, |missing, word| place(missing, word) / 8 + 1)
    }),
    ("halves of words", |pair| {
        outside(pair, |missing, word| place(missing, word) / 32 + 1)
    }),
    ("two words at a time", |pair| {
        outside(pair, |_, word| (word | 1) + 1)
    }),
    ("four words at a time", |pair| {
        outside(pair, |_, word| (word | 3) + 1)
    }),
    ("seven for none missing", |pair| inside(pair, 7)),
    ("nine for none missing", |pair| inside(pair, 9)),
    ("zero for none missing", |pair| inside(pair, 0)),
    ("words of the first set that are not empty", |pair| {
        looked_at_where(pair, |own, _| own != 0)
    }),
    ("words of the second set that are not empty", |pair| {
        looked_at_where(pair, |_, theirs| theirs != 0)
    }),
    ("words that differ", |pair| {
        looked_at_where(pair, |own, theirs| own != theirs)
    }),
    ("words that are equal at the start", |pair| {
        let equal = first_differing(pair).unwrap_or(8);
        Comparison {
            looked_at: equal,
            ..pair.compare()
        }
    }),
    ("up to the first word that differs", |pair| Comparison {
        looked_at: ended(first_differing(pair)).looked_at,
        ..pair.compare()
    }),
    ("the first word that differs decides", |pair| {
        let Some(word) = first_differing(pair) else {
            return ended(None);
        };
        Comparison {
            inside: missing(pair)[word] == 0,
            looked_at: word + 1,
        }
    }),
    ("the last word decides", |pair| Comparison {
        inside: missing(pair)[7] == 0,
        looked_at: 8,
    }),
    ("inside if eight were looked at", |pair| {
        let looked_at = pair.compare().looked_at;
        Comparison {
            inside: looked_at == 8,
            looked_at,
        }
    }),
    ("ends at the first word that does not fail", |pair| {
        ended(missing(pair).iter().position(|&word| word == 0))
    }),
    ("an empty word of the first set ends it", |pair| {
        let end = pair.first.0.iter().position(|&word| word == 0);
        let failed = missing(pair).iter().position(|&word| word != 0);
        ended(failed.filter(|&word| word < end.unwrap_or(8)))
    }),
    ("symmetric difference", |pair| {
        by_word(pair, |own, theirs| own != theirs)
    }),
    ("the sets reversed", |pair| pair.second.compare(&pair.first)),
    ("numbers compared, unsigned", |pair| {
        by_word(pair, |own, theirs| own > theirs)
    }),
    ("numbers compared, signed", |pair| {
        by_word(pair, |own, theirs| own as i64 > theirs as i64)
    }),
    ("counts of places compared", |pair| {
        by_word(pair, |own, theirs| own.count_ones() > theirs.count_ones())
    }),
    ("shared places taken for missing ones", |pair| {
        by_word(pair, |own, theirs| own & theirs != 0)
    }),
    ("fails only where nothing is shared", |pair| {
        by_word(pair, |own, theirs| own != 0 && own & theirs == 0)
    }),
    ("fails only where the second set has none", |pair| {
        by_word(pair, |own, theirs| own != 0 && theirs == 0)
    }),
    ("one missing place overlooked", |pair| {
        by_word(pair, |own, theirs| (own & !theirs).count_ones() > 1)
    }),
    ("low halves alone", |pair| {
        by_word(pair, |own, theirs| (own & !theirs) as u32 != 0)
    }),
    ("high halves alone", |pair| {
        by_word(pair, |own, theirs| (own & !theirs) >> 32 != 0)
    }),
    ("bit 63 overlooked", |pair| {
        by_word(pair, |own, theirs| (own & !theirs) << 1 != 0)
    }),
    ("bit 0 overlooked", |pair| {
        by_word(pair, |own, theirs| (own & !theirs) >> 1 != 0)
    }),
    ("word 7 overlooked", |pair| {
        ended((0..7).find(|&word| missing(pair)[word] != 0))
    }),
    ("word 0 overlooked", |pair| {
        ended((1..8).find(|&word| missing(pair)[word] != 0))
    }),
    ("the second set's next word", |pair| {
        let mut second = pair.second;
        second.0.rotate_left(1);
        pair.first.compare(&second)
    }),
    ("any word of the second set", |pair| {
        let any = pair.second.0.iter().fold(0, |any, word| any | word);
        pair.first.compare(&Places([any; 8]))
    }),
    ("words of both sets in turn", |pair| {
        let words = [pair.first.0, pair.second.0].concat();
        let [first, second] = [0, 1].map(|from| Places(from_fn(|word| words[2 * word + from])));
        first.compare(&second)
    }),
];

/// The places that the second set lacks.
fn missing(pair: &Pair) -> Words {
    from_fn(|word| pair.first.0[word] & !pair.second.0[word])
}

/// How many words at the end miss nothing.
fn whole_at_the_end(missing: &Words) -> usize {
    missing.iter().rev().take_while(|&&word| word == 0).count()
}

fn ones(words: &Words) -> usize {
    words.iter().map(|word| word.count_ones() as usize).sum()
}

/// How many words are not empty.
fn words(words: &Words) -> usize {
    words.iter().filter(|&&word| word != 0).count()
}

/// The lowest place of a word.
fn place(words: &Words, word: usize) -> usize {
    64 * word + words[word].trailing_zeros() as usize
}

fn first_differing(pair: &Pair) -> Option<usize> {
    (0..8).find(|&word| pair.first.0[word] != pair.second.0[word])
}

/// What a comparison answers that ends at this word, or at none.
fn ended(failed: Option<usize>) -> Comparison {
    Comparison {
        inside: failed.is_none(),
        looked_at: failed.map_or(8, |word| word + 1),
    }
}

/// Another number where places are missing, from them and the failed word.
fn outside(pair: &Pair, number: fn(&Words, usize) -> usize) -> Comparison {
    let missing = missing(pair);
    let failed = missing.iter().position(|&word| word != 0);
    Comparison {
        inside: failed.is_none(),
        looked_at: failed.map_or(8, |word| number(&missing, word)),
    }
}

/// Another number where none is missing.
fn inside(pair: &Pair, number: usize) -> Comparison {
    let right = pair.compare();
    Comparison {
        looked_at: if right.inside {
            number
        } else {
            right.looked_at
        },
        ..right
    }
}

/// Only some of the words looked at are counted.
fn looked_at_where(pair: &Pair, counts: fn(u64, u64) -> bool) -> Comparison {
    let right = pair.compare();
    let counted = |&word: &usize| counts(pair.first.0[word], pair.second.0[word]);
    Comparison {
        looked_at: (0..right.looked_at).filter(counted).count(),
        ..right
    }
}

/// Another test of a word.
fn by_word(pair: &Pair, fails: fn(u64, u64) -> bool) -> Comparison {
    ended((0..8).find(|&word| fails(pair.first.0[word], pair.second.0[word])))
}

//! A label as words of the notation, and back.

use crate::book::Region;
use crate::places::Places;

/// The word for the empty label.
const NOTHING: &str = "nothing";

/// The words of a label. Owners that follow one another with the same lines
/// share a word, and so do lines that follow one another.
pub(super) fn words(label: &Places) -> String {
    let mut words = Vec::new();
    for (table, word) in label.0.iter().enumerate() {
        let lines = |owner: u8| word >> (8 * owner) & 0xFF;
        for (first, last) in runs(|one, other| lines(one) == lines(other)) {
            let held = |line: u8| lines(first) >> line & 1 == 1;
            for (from, to) in runs(|one, other| held(one) == held(other)) {
                if held(from) {
                    let (owners, lines) = (range(first, last), range(from, to));
                    words.push(format!("{table}.{owners}.{lines}"));
                }
            }
        }
    }
    match words.is_empty() {
        true => NOTHING.to_string(),
        false => words.join(" "),
    }
}

/// The longest ranges of 0–7 in which each key is the same as the next.
fn runs(same: impl Fn(u8, u8) -> bool) -> Vec<(u8, u8)> {
    let mut runs: Vec<(u8, u8)> = Vec::new();
    for key in 0..8 {
        match runs.last_mut() {
            Some((_, last)) if same(*last, key) => *last = key,
            _ => runs.push((key, key)),
        }
    }
    runs
}

fn range(first: u8, last: u8) -> String {
    match first == last {
        true => first.to_string(),
        false => format!("{first}-{last}"),
    }
}

/// The label of these words.
pub(super) fn label(words: &[&str]) -> Result<Places, String> {
    if *words == [NOTHING] {
        return Ok(Places::EMPTY);
    }
    let mut label = Places::EMPTY;
    for word in words {
        let region = region(word).ok_or_else(|| {
            format!("`{word}` should be TABLE.OWNER.LINE, where owner and line may be FIRST-LAST")
        })?;
        label.add(&Places::of_region(&region));
    }
    Ok(label)
}

/// The places of one word.
fn region(word: &str) -> Option<Region> {
    let mut parts = word.split('.');
    let table = key(parts.next()?)?;
    let (owner_first, owner_last) = ends(parts.next()?)?;
    let (line_first, line_last) = ends(parts.next()?)?;
    parts.next().is_none().then_some(Region {
        table,
        owner_first,
        owner_last,
        line_first,
        line_last,
    })
}

/// A key, or two of which the first is not above the last.
fn ends(word: &str) -> Option<(u8, u8)> {
    let (first, last) = word.split_once('-').unwrap_or((word, word));
    let (first, last) = (key(first)?, key(last)?);
    (first <= last).then_some((first, last))
}

/// A table, owner or line: one digit.
fn key(word: &str) -> Option<u8> {
    match *word.as_bytes() {
        [digit @ b'0'..=b'7'] => Some(digit - b'0'),
        _ => None,
    }
}

//! The trailer's opening: refusal 3; and its distances and counts: refusal 4.

use super::base::{small, with_bytes, with_word, word};
use crate::decode::{SECTIONS, TRAILER};

pub(super) fn files() -> Vec<Vec<u8>> {
    let whole = small().encode();
    let trailer = whole.len() - TRAILER;
    let mut files = Vec::new();
    for at in trailer..trailer + 8 {
        files.extend(with_bytes(&whole, at, &around(whole[at])));
    }
    for (section, (most, size)) in SECTIONS.into_iter().take(6).enumerate() {
        let at = trailer + 8 + 4 * section;
        files.extend(with_words(&whole, at, &[0, 36, 65_535]));
        let most = most as u16;
        files.extend(with_words(&whole, at + 2, &[0, most, most + 1, 65_535]));
        files.push(wrapped(&whole, at + 2, size));
    }
    files
}

/// The ends, the values next to this one, and it with a bit turned over.
fn around(byte: u8) -> [u8; 8] {
    let (up, down) = (byte.wrapping_add(1), byte.wrapping_sub(1));
    [0, 1, 2, 255, up, down, byte ^ 0x20, byte ^ 0x80]
}

/// The file with other values in a field of 16 bits: these, one up, one down,
/// and more in the high byte.
pub(super) fn with_words(file: &[u8], at: usize, values: &[u16]) -> Vec<Vec<u8>> {
    let here = word(file, at);
    let near = [here + 1, here - 1, here + 256, here + 32_768];
    let others = values.iter().filter(|&&value| value != here);
    near.iter()
        .chain(others)
        .map(|value| with_word(file, at, *value))
        .collect()
}

/// A count so large that the section's size is right again in 16 bits.
fn wrapped(file: &[u8], at: usize, size: usize) -> Vec<u8> {
    with_word(file, at, word(file, at) + (65_536 / size) as u16)
}

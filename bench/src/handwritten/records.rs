//! Whether the records other than nodes are good: refusals 5 to 7, 9, 10 and 32.
//!
//! Fields of one byte that may be 0 to 7, and bytes that are 0, are tested
//! together: the record's bytes as one number, against the bits that must be 0.

use super::book::{Refusal, LABEL};
use super::kinds::{Flags, BARRED, COMMAND};
use super::sets::Set;

/// Refuses the first record that is not good, if there is one.
fn check<const SIZE: usize>(
    number: u32,
    records: &[[u8; SIZE]],
    mut good: impl FnMut(&[u8; SIZE]) -> bool,
) -> Result<(), Refusal> {
    match records.iter().position(|record| !good(record)) {
        Some(at) => Err(Refusal {
            number,
            at: at as u32,
        }),
        None => Ok(()),
    }
}

/// The place of a good cell record.
pub fn place(record: &[u8; 8]) -> usize {
    let [table, owner, line, ..] = record.map(usize::from);
    64 * table + 8 * owner + line
}

pub fn check_cells(cells: &[[u8; 8]]) -> Result<(), Refusal> {
    let mut least = 0;
    check(5, cells, |record| {
        let place = place(record);
        let rises = place >= least;
        least = place + 1;
        u64::from_le_bytes(*record) & 0xFFF8_F8F8 == 0 && rises
    })
}

pub fn check_regions(regions: &[[u8; 8]]) -> Result<(), Refusal> {
    check(6, regions, |record| {
        let [_, owner_first, owner_last, line_first, line_last, ..] = record;
        u64::from_le_bytes(*record) & 0xFFFF_FFF8_F8F8_F8F8 == 0
            && owner_first <= owner_last
            && line_first <= line_last
    })
}

pub fn check_rights(rights: &[[u8; 4]], regions: usize) -> Result<(), Refusal> {
    check(7, rights, |&[kind, user, region, zero]| {
        let user_fits = if kind == 0 { user == 0 } else { user < 8 };
        kind <= 2 && user_fits && usize::from(region) < regions && zero == 0
    })
}

pub fn check_programs(programs: &[[u8; 4]], flags: &Flags) -> Result<(), Refusal> {
    check(9, programs, |&[user, zero, low, high]| {
        let root = flags_of(flags, [low, high]);
        user < 8 && zero == 0 && root & COMMAND != 0
    })
}

pub fn check_triggers(triggers: &[[u8; 8]], regions: usize, flags: &Flags) -> Result<(), Refusal> {
    check(10, triggers, |record| {
        let &[region, event, _, _, low, high, ..] = record;
        let body = flags_of(flags, [low, high]);
        u64::from_le_bytes(*record) & 0xFFFF_0000_FFF8_0000 == 0
            && usize::from(region) < regions
            && (event == 1 || event == 2)
            && body & (COMMAND | BARRED) == COMMAND
    })
}

/// The place and the label of a label record.
#[inline(always)]
pub fn label(record: &[u8; LABEL]) -> (usize, Set) {
    let [low, high, words @ ..] = record;
    let mut label = [0; 8];
    for (word, bytes) in label.iter_mut().zip(words.as_chunks().0) {
        *word = u64::from_le_bytes(*bytes);
    }
    (usize::from(u16::from_le_bytes([*low, *high])), label)
}

pub fn check_labels(labels: &[[u8; LABEL]]) -> Result<(), Refusal> {
    let mut least = 0;
    check(32, labels, |record| {
        let (place, mut label) = label(record);
        let rises = place >= least;
        least = place + 1;
        // Nothing is left of the own place alone.
        label[place / 64 % 8] ^= 1 << (place % 64);
        place < 512 && rises && label.iter().fold(0, |all, word| all | word) != 0
    })
}

/// The flags of a node that is named by two bytes; none if it does not exist.
fn flags_of(flags: &Flags, number: [u8; 2]) -> u8 {
    let number = usize::from(u16::from_le_bytes(number));
    flags.get(number).copied().unwrap_or(0)
}

//! The writer.

use super::book::{Book, LABEL, MARK_2, PAIR, TRAILER};
use super::sets::Set;

/// Writes an accepted book with these cells and labels; gives its length. The
/// sections between them are copied as they stand.
pub fn write(
    book: &Book,
    amounts: &[i32; 512],
    presence: &[u64; 8],
    labels: &[Set; 512],
    out: &mut [u8],
) -> usize {
    let cells = write_cells(amounts, presence, out);
    let between = 8 * cells;
    let after = between + book.between.len();
    out[between..after].copy_from_slice(book.between);
    let labelled = write_labels(labels, &mut out[after..]);
    let end = after + LABEL * labelled;
    let length = end + PAIR + TRAILER;
    let tail = &mut out[end..length];
    let (seventh, trailer) = tail.split_at_mut(PAIR);
    seventh.copy_from_slice(&pair(length - after, labelled));
    trailer[..8].copy_from_slice(&MARK_2);
    let sections = [
        (8, cells),
        (8, book.regions.len()),
        (4, book.rights.len()),
        (16, book.nodes.len()),
        (4, book.programs.len()),
        (8, book.triggers.len()),
    ];
    let mut at = 0;
    for (bytes, (size, count)) in trailer[8..32].as_chunks_mut().0.iter_mut().zip(sections) {
        *bytes = pair(length - at, count);
        at += size * count;
    }
    trailer[32..].copy_from_slice(&(length as u32).to_le_bytes());
    length
}

fn pair(distance: usize, count: usize) -> [u8; PAIR] {
    (distance as u32 | (count as u32) << 16).to_le_bytes()
}

/// Writes the records of the present cells; gives how many there are.
fn write_cells(amounts: &[i32; 512], presence: &[u64; 8], out: &mut [u8]) -> usize {
    let (records, _) = out.as_chunks_mut::<8>();
    let mut written = 0;
    for (table, (&word, amounts)) in presence.iter().zip(amounts.as_chunks::<64>().0).enumerate() {
        let mut rest = word;
        while rest != 0 {
            let bit = rest.trailing_zeros() as usize;
            rest &= rest - 1;
            let key = (table | (bit / 8) << 8 | (bit % 8) << 16) as u64;
            let record = key | (amounts[bit] as u32 as u64) << 32;
            records[written] = record.to_le_bytes();
            written += 1;
        }
    }
    written
}

/// Writes a record for each label that is not the own place alone; gives how many
/// there are.
fn write_labels(labels: &[Set; 512], out: &mut [u8]) -> usize {
    let (records, _) = out.as_chunks_mut::<LABEL>();
    let mut written = 0;
    for (place, label) in labels.iter().enumerate() {
        let mut rest = *label;
        rest[place / 64] ^= 1 << (place % 64);
        if rest.iter().fold(0, |all, word| all | word) == 0 {
            continue;
        }
        let (head, words) = records[written].split_at_mut(2);
        head.copy_from_slice(&(place as u16).to_le_bytes());
        for (bytes, word) in words.as_chunks_mut().0.iter_mut().zip(label) {
            *bytes = word.to_le_bytes();
        }
        written += 1;
    }
    written
}

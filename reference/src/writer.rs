//! Writing a book back with other cells and labels.

use crate::book::{Book, Refusal};
use crate::run::Memory;

/// The writer's answer: a refusal, or how many bytes it wrote.
#[derive(Clone, Copy, Debug, PartialEq, Eq)]
pub enum Written {
    Refused(Refusal),
    Length(u32),
}

/// Writes the book in `file` to the start of `out`, with the present ones of
/// these cells, and the labels of all of them, in place of its own. What is
/// written is of version 2, whichever the book is. Later bytes of `out`, and all
/// of it on a refusal, stay as they were.
pub fn write(
    file: &[u8],
    amounts: &[i32],
    presence: &[u64],
    labels: &[u64],
    out: &mut [u8],
) -> Written {
    let lent = [amounts.len(), presence.len(), labels.len()];
    if lent != [512, 8, 4_096] || out.len() < 60_000 {
        return Written::Refused(Refusal {
            number: 1,
            index: 0,
        });
    }
    let mut book = match Book::decode(file) {
        Ok(book) => book,
        Err(refusal) => return Written::Refused(refusal),
    };
    book.replace_cells(amounts, presence);
    book.replace_labels(labels);
    let bytes = book.encode();
    out[..bytes.len()].copy_from_slice(&bytes);
    Written::Length(bytes.len() as u32)
}

/// The book that the writer makes of a file and of the cells and labels that a
/// run has left, such as that of the day before.
pub fn written(file: &[u8], left: &Memory) -> Result<Vec<u8>, Refusal> {
    let mut out = vec![0; 60_000];
    match write(file, &left.amounts, &left.presence, &left.labels, &mut out) {
        Written::Refused(refusal) => Err(refusal),
        Written::Length(length) => {
            out.truncate(length as usize);
            Ok(out)
        }
    }
}

//! Two faults at once: the earlier number is answered, then the earlier index.

use super::base::{labelled, reserved, small};
use crate::decode::{PAIR, TRAILER};

pub(super) fn files() -> Vec<Vec<u8>> {
    let file = small().encode();
    let faults = faults(file.len() - TRAILER);
    pairs(&file, &faults.map(|at| (at, 1)))
}

/// The same of a book with label records. Their places gain 2,048.
pub(super) fn files_of_version_2() -> Vec<Vec<u8>> {
    let book = labelled(small(), 3);
    let file = book.encode();
    let trailer = file.len() - TRAILER;
    let mut faults = faults(trailer).map(|at| (at, 1)).to_vec();
    faults.extend([(trailer - PAIR, 1), (trailer - PAIR + 2, 1)]);
    faults.extend([0, 1, 2].map(|index| (reserved(&book, 6, index), 8)));
    pairs(&file, &faults)
}

/// The file with every two of these bytes changed.
fn pairs(file: &[u8], faults: &[(usize, u8)]) -> Vec<Vec<u8>> {
    let mut files = Vec::new();
    for (number, &(first, change)) in faults.iter().enumerate() {
        for &(second, other_change) in &faults[number + 1..] {
            let mut both = file.to_vec();
            both[first] ^= change;
            both[second] ^= other_change;
            files.push(both);
        }
    }
    files
}

/// Bytes of the small book any of which must not be changed: of the length
/// field, the mark, the first and last count, and three records of each section.
fn faults(trailer: usize) -> [usize; 22] {
    let mut faults = [0; 22];
    let (first, records) = faults.split_at_mut(4);
    first.copy_from_slice(&[trailer + 32, trailer, trailer + 10, trailer + 30]);
    for (number, fault) in records.iter_mut().enumerate() {
        *fault = reserved(&small(), number / 3, number % 3);
    }
    faults
}

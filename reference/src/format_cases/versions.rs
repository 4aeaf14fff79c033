//! Files of version 1, good and bad, made files of version 2; and files that are
//! neither, or both.

use super::base::{label, labelled, small, starts, with_byte, with_true_length};
use super::lengths::empty;
use super::{bodies, indexes, lengths, nodes, order, records, sections, start, trailer};
use crate::book::Book;
use crate::decode::{LONGEST, PAIR, TRAILER};

pub(super) fn files() -> Vec<Vec<u8>> {
    let mut files = crossed_over();
    files.extend((TRAILER..TRAILER + 9).flat_map(shortest));
    files.extend([LONGEST, LONGEST + 1].map(|length| as_version_2(&empty(length - PAIR), 0)));
    files.extend(pairs_of_the_other_version());
    for file in [small().encode(), labelled(small(), 2).encode()] {
        let version = file.len() - TRAILER + 4;
        files.extend([0, 1, 2, 3, 255].map(|value| with_byte(&file, version, value)));
    }
    files
}

/// Every file, or one in so many where there are a lot of a sort.
fn crossed_over() -> Vec<Vec<u8>> {
    let sorts = [
        (lengths::files(), 2),
        (trailer::files(), 1),
        (sections::files(), 1),
        (records::files(), 3),
        (nodes::files(), 4),
        (bodies::files(), 3),
        (order::files(), 3),
        (indexes::files(), 1),
        (start::files(), 2),
    ];
    let mut files = Vec::new();
    for (sort, step) in sorts {
        for (number, file) in sort.into_iter().step_by(step).enumerate() {
            if file.len() >= TRAILER && file.len() < LONGEST / 2 {
                files.push(as_version_2(&file, number % 3));
            }
        }
    }
    files
}

/// The file with so many label records and the seventh pair before its trailer,
/// and with version 2 instead of 1. Distances and the length field are more by
/// what is new, so that what was wrong stays wrong.
fn as_version_2(file: &[u8], count: usize) -> Vec<u8> {
    let (records, old) = file.split_at(file.len() - TRAILER);
    let new = labelled(Book::default(), count).encode();
    let (new, _) = new.split_at(new.len() - TRAILER);
    let mut trailer = old.to_vec();
    if trailer[4] == 1 {
        trailer[4] = 2;
    }
    for distance in trailer[8..32].chunks_exact_mut(4) {
        let more = u16::from_le_bytes([distance[0], distance[1]]).wrapping_add(new.len() as u16);
        distance[..2].copy_from_slice(&more.to_le_bytes());
    }
    let length = u32::from_le_bytes([trailer[32], trailer[33], trailer[34], trailer[35]]);
    let length = length.wrapping_add(new.len() as u32);
    trailer[32..].copy_from_slice(&length.to_le_bytes());
    [records, new, &trailer].concat()
}

/// Version 2 and nothing but zeros before the trailer, where the seventh pair
/// may not even fit; and with a pair of which the end stands there.
fn shortest(length: usize) -> Vec<Vec<u8>> {
    let zeros = with_byte(&empty(length), length - TRAILER + 4, 2);
    let mut paired = zeros.clone();
    for (at, byte) in paired[..length - TRAILER]
        .iter_mut()
        .rev()
        .zip([0, 0, 0, 40])
    {
        *at = byte;
    }
    vec![zeros, paired]
}

/// A seventh pair in a file of version 1, and none in one of version 2, with and
/// without label records.
fn pairs_of_the_other_version() -> Vec<Vec<u8>> {
    let mut files = Vec::new();
    for count in [0, 1, 2] {
        let book = labelled(small(), count);
        let file = book.encode();
        files.push(with_byte(&file, file.len() - TRAILER + 4, 1));
        let mut without = file.clone();
        let end = starts(&book)[7];
        without.drain(end..end + PAIR);
        files.push(with_true_length(without.clone()));
        let trailer = without.len() - TRAILER;
        for distance in without[trailer + 8..trailer + 32].chunks_exact_mut(4) {
            let less = u16::from_le_bytes([distance[0], distance[1]]) - PAIR as u16;
            distance[..2].copy_from_slice(&less.to_le_bytes());
        }
        files.push(with_true_length(without));
    }
    // Label records that begin with what a pair would be.
    let mut book = labelled(small(), 1);
    book.labels = Some(vec![label(40)]);
    files.push(book.encode());
    files
}

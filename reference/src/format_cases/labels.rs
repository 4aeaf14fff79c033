//! Label records: their places and labels, refusal 32, and the pair that tells
//! where they stand, refusal 4.

use super::base::{full, label, labelled, plus, reserved, small, starts, with_byte, with_bytes};
use super::trailer::with_words;
use super::{Case, Labels};
use crate::book::{Book, LabelRecord};
use crate::places::Places;

pub(super) fn files() -> Vec<Vec<u8>> {
    let mut files = vec![labelled(full(), 512).encode()];
    files.extend([0, 1, 2, 3, 511, 512, 513].map(|count| labelled(small(), count).encode()));
    files.extend(bounds());
    files.extend(bytes());
    files.extend(faults(
        &(0..5).map(|n| label(3 + 101 * n)).collect::<Vec<_>>(),
    ));
    let many: Vec<LabelRecord> = (0..512).map(label).collect();
    files.extend(faults(&many));
    files.extend(last_of_all());
    files.extend(pairs());
    files.extend(single_labels());
    files
}

/// The seventh pair, with another distance or count.
fn bounds() -> Vec<Vec<u8>> {
    let mut files = Vec::new();
    for count in [1, 2, 9] {
        let book = labelled(small(), count);
        let file = book.encode();
        let at = starts(&book)[7];
        files.extend(with_words(&file, at, &[0, 36, 40, 65_535]));
        files.extend(with_words(&file, at + 2, &[0, 512, 513, 65_535]));
        for records in [-1, 1] {
            let moved = plus(&file, at, 66 * records);
            files.push(plus(&moved, at + 2, records));
        }
    }
    files
}

/// Every byte of two label records.
fn bytes() -> Vec<Vec<u8>> {
    let book = labelled(small(), 2);
    let file = book.encode();
    let [.., first, end] = starts(&book);
    (first..end)
        .flat_map(|at| with_bytes(&file, at, &[0, 1, 2, 255]))
        .collect()
}

/// Each thing that can be wrong with a record, at the first, a middle and the
/// last of these.
fn faults(records: &[LabelRecord]) -> Vec<Vec<u8>> {
    let last = records.len() - 1;
    let mut files = Vec::new();
    for index in [0, last / 2, last] {
        let mut bad = vec![512, 65_535];
        if index > 0 {
            let before = records[index - 1].place;
            bad.extend([before, before - 1]);
        }
        for place in bad {
            files.push(changed(records, index, |record| record.place = place));
        }
        let own = |record: &mut LabelRecord| record.label = Places::single(record.place.into());
        files.push(changed(records, index, own));
    }
    files
}

fn changed(
    records: &[LabelRecord],
    index: usize,
    change: impl FnOnce(&mut LabelRecord),
) -> Vec<u8> {
    let mut labels = records.to_vec();
    change(&mut labels[index]);
    let labels = Some(labels);
    let book = Book { labels, ..small() };
    book.encode()
}

/// The last record of the longest book, bad in itself and after another fault.
fn last_of_all() -> Vec<Vec<u8>> {
    let book = labelled(full(), 512);
    let file = book.encode();
    let bad = with_byte(&file, reserved(&book, 6, 511), 9);
    let worse = with_byte(&bad, reserved(&book, 5, 7), 1);
    vec![bad, worse]
}

/// Two records in every order: their places rise, are the same, or fall.
fn pairs() -> Vec<Vec<u8>> {
    let places = [0, 1, 63, 64, 255, 256, 257, 510, 511, 512, 767, 65_535];
    let mut files = Vec::new();
    for first in places {
        for second in places {
            let label = Places::single(99);
            let labels = [first, second].map(|place| LabelRecord { place, label });
            let labels = Some(labels.to_vec());
            let book = Book {
                labels,
                ..Book::default()
            };
            files.push(book.encode());
        }
    }
    files
}

/// Labels that a cell may have and the one that it may not, for present cells
/// and absent ones, in every word.
fn labels_of(place: usize) -> Vec<Places> {
    let own = Places::single(place);
    let other = Places::single((place + 64) % 512);
    let full = Places([u64::MAX; 8]);
    let mut all_but_own = full;
    all_but_own.remove(&own);
    let next = Places::single(place ^ 1);
    let both = own.union(&other);
    vec![Places::EMPTY, full, all_but_own, both, other, next, own]
}

fn single_labels() -> Vec<Vec<u8>> {
    let mut files = Vec::new();
    for number in 0..32 {
        let place = (number * 69 + 10) % 512;
        for label in labels_of(place) {
            let mut book = small();
            book.labels = Some(vec![LabelRecord {
                place: place as u16,
                label,
            }]);
            files.push(book.encode());
        }
    }
    files
}

/// Books of both versions, written with many labels.
pub(super) fn written() -> Vec<Case> {
    let mut cases = Vec::new();
    let present = {
        let mut book = small();
        let places = [10, 14, 320];
        book.labels = Some(
            places
                .map(|place| LabelRecord { place, ..label(3) })
                .to_vec(),
        );
        book
    };
    let books = [
        small(),
        labelled(small(), 3),
        labelled(small(), 40),
        present,
    ];
    for (number, book) in books.iter().enumerate() {
        for labels in [Labels::Left, Labels::Drawn, Labels::FewDrawn] {
            for seed in [0, 1, 2, 3, 65_536, u32::MAX] {
                let seed = u32::wrapping_mul(seed, number as u32 + 1);
                cases.push(Case::ample(book.encode(), seed, labels));
            }
        }
    }
    let longest = labelled(full(), 512).encode();
    cases.push(Case::ample(longest.clone(), 0, Labels::Left));
    for labels in [Labels::Left, Labels::Drawn, Labels::FewDrawn] {
        cases.push(Case::ample(longest.clone(), 77, labels));
        cases.push(Case::ample(full().encode(), 78, labels));
    }
    cases
}

//! Books to start from, and ways to spoil their files.

use crate::book::{Book, Cell, LabelRecord, Node, Region};
use crate::builder::Builder;
use crate::decode::SECTIONS;
use crate::places::Places;

/// An accepted book of 236 bytes with three records or more in every section.
///
/// Nodes: 0 and 1 constants, 2 skip, 3 put, 4 while, 5 out.
pub(super) fn small() -> Book {
    let mut b = Builder::new();
    b.cell(0, 1, 2, 10);
    b.cell(0, 1, 6, -11);
    b.cell(5, 0, 0, i32::MIN);
    b.region(0, 0..=7, 0..=7);
    b.region(1, 2..=3, 4..=5);
    b.region(7, 7..=7, 0..=0);
    b.public(0);
    b.read(3, 1);
    b.write(7, 2);
    b.read(3, 2);
    let zero = b.constant(0);
    let one = b.constant(1);
    let skip = b.skip();
    let put = b.put(0, zero, one, one);
    let repeat = b.repeat(zero, skip);
    let out = b.out(0, one);
    b.program(0, repeat);
    b.program(7, put);
    b.program(1, out);
    b.program(2, skip);
    b.put_trigger(0, 0, skip);
    b.clear_trigger(1, 7, put);
    b.put_trigger(2, 3, put);
    b.book
}

/// An accepted book with every section full. Each program and each trigger
/// reaches all nodes.
pub(super) fn full() -> Book {
    let mut b = Builder::new();
    for place in 0..512 {
        b.book.cells.push(cell(place));
    }
    for number in 0..64 {
        b.book.regions.push(region(number));
        let (kind, user) = (number % 3, number / 8);
        match kind {
            0 => b.public(number),
            1 => b.read(user, number),
            _ => b.write(user, number),
        }
    }
    let skip = b.skip();
    let root = doubled(&mut b, skip, 1_024);
    for user in 0..8 {
        b.program(user, root);
        b.put_trigger(63 - user, user, root);
    }
    b.book
}

/// The book with so many label records of many sorts, from place 0 on.
pub(super) fn labelled(book: Book, count: usize) -> Book {
    let labels = Some((0..count).map(label).collect());
    Book { labels, ..book }
}

/// A label record that tells its place.
pub(super) fn label(place: usize) -> LabelRecord {
    let own = Places::single(place % 512);
    let other = Places::single((place + 77) % 512);
    let label = match place % 5 {
        0 => own.union(&other),
        1 => Places::EMPTY,
        2 => Places([u64::MAX; 8]),
        3 => other,
        _ => Places(std::array::from_fn(|word| (place * 8 + word) as u64)),
    };
    let place = place as u16;
    LabelRecord { place, label }
}

/// Adds commands until there are `count` nodes, each "the one before, then the
/// one before", so that the number of ways down doubles with each. Gives the
/// last.
pub(super) fn doubled(b: &mut Builder, mut last: u16, count: usize) -> u16 {
    while b.book.nodes.len() < count {
        last = b.then(last, last);
    }
    last
}

/// A cell whose amount tells its place.
pub(super) fn cell(place: usize) -> Cell {
    Cell {
        table: (place / 64) as u8,
        owner: (place / 8 % 8) as u8,
        line: (place % 8) as u8,
        amount: 1_000_003 * place as i32 - 256_000_000,
    }
}

/// One of many regions.
fn region(number: u8) -> Region {
    Region {
        table: number % 8,
        owner_first: number / 8,
        owner_last: 7,
        line_first: 0,
        line_last: number / 8,
    }
}

/// The book with this many records in one section.
pub(super) fn resized(mut book: Book, section: usize, count: usize) -> Book {
    match section {
        0 => book.cells = (0..count).map(cell).collect(),
        1 => resize(&mut book.regions, count),
        2 => resize(&mut book.rights, count),
        3 => resize(&mut book.nodes, count),
        4 => resize(&mut book.programs, count),
        5 => resize(&mut book.triggers, count),
        _ => return labelled(book, count),
    }
    book
}

fn resize<T: Copy>(records: &mut Vec<T>, count: usize) {
    let last = records[records.len() - 1];
    records.resize(count, last);
}

/// Where each section starts in the book's file; then where the last one ends:
/// the trailer or, in version 2, the seventh pair follows.
pub(super) fn starts(book: &Book) -> [usize; 8] {
    let mut starts = [0; 8];
    for (section, (count, (_, size))) in book.counts().into_iter().zip(SECTIONS).enumerate() {
        starts[section + 1] = starts[section] + count * size;
    }
    starts
}

/// In a record of each section, a byte that has to be 0, or of a label record a
/// byte of the place that may not gain 8.
const RESERVED: [usize; 7] = [3, 5, 3, 14, 1, 3, 1];

/// Where such a byte of a record stands in the book's file.
pub(super) fn reserved(book: &Book, section: usize, index: usize) -> usize {
    starts(book)[section] + index * SECTIONS[section].1 + RESERVED[section]
}

/// The file with one byte changed.
pub(super) fn with_byte(file: &[u8], at: usize, value: u8) -> Vec<u8> {
    let mut file = file.to_vec();
    file[at] = value;
    file
}

/// The file with one byte changed to each of these values in turn that is not
/// there already.
pub(super) fn with_bytes(file: &[u8], at: usize, values: &[u8]) -> Vec<Vec<u8>> {
    let mut values = values.to_vec();
    values.sort();
    values.dedup();
    values.retain(|&value| value != file[at]);
    values
        .into_iter()
        .map(|value| with_byte(file, at, value))
        .collect()
}

/// A field of 16 bits.
pub(super) fn word(file: &[u8], at: usize) -> u16 {
    u16::from_le_bytes([file[at], file[at + 1]])
}

/// The file with another value in a field of 16 bits.
pub(super) fn with_word(file: &[u8], at: usize, value: u16) -> Vec<u8> {
    let mut file = file.to_vec();
    file[at..at + 2].copy_from_slice(&value.to_le_bytes());
    file
}

/// The file with this much more, or less, in a field of 16 bits.
pub(super) fn plus(file: &[u8], at: usize, more: isize) -> Vec<u8> {
    with_word(file, at, word(file, at).wrapping_add_signed(more as i16))
}

/// The file with its length field made right.
pub(super) fn with_true_length(mut file: Vec<u8>) -> Vec<u8> {
    let length = file.len();
    file[length - 4..].copy_from_slice(&(length as u32).to_le_bytes());
    file
}

pub(super) fn node(kind: u8, p: u8, [a, b, c, d]: [u16; 4]) -> Node {
    Node {
        kind,
        p,
        a,
        b,
        c,
        d,
        k: 0,
    }
}

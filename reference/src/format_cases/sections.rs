//! Sections full, too full, empty, swapped, and with their bounds moved.

use super::base::{full, plus, resized, small, starts};
use crate::book::Book;
use crate::decode::SECTIONS;

pub(super) fn files() -> Vec<Vec<u8>> {
    let mut files = vec![full().encode(), full().encode()];
    for (section, (most, _)) in SECTIONS.into_iter().take(6).enumerate() {
        for count in [1, 2, most, most + 1] {
            files.push(resized(small(), section, count).encode());
        }
        for others in [0, 0b00_1011, 0b11_0110] {
            let book = only(others | 1 << section);
            files.push(resized(book, section, most + 1).encode());
        }
    }
    files.extend((0..64).map(|kept| only(kept).encode()));
    let book = small();
    for first in 0..6 {
        for second in first + 1..6 {
            files.push(swapped(&book, first, second));
        }
    }
    for section in 0..5 {
        files.push(moved(&book, section, 1));
        files.push(moved(&book, section, -1));
    }
    files
}

/// The small book with some of its sections, those whose bits are set.
fn only(kept: u8) -> Book {
    let mut book = small();
    let drops: [fn(&mut Book); 6] = [
        |book| book.cells.clear(),
        |book| book.regions.clear(),
        |book| book.rights.clear(),
        |book| book.nodes.clear(),
        |book| book.programs.clear(),
        |book| book.triggers.clear(),
    ];
    for (section, drop) in drops.into_iter().enumerate() {
        if kept >> section & 1 == 0 {
            drop(&mut book);
        }
    }
    book
}

/// The book's file with the bytes of two sections in each other's place. The
/// trailer is left as it was.
pub(super) fn swapped(book: &Book, first: usize, second: usize) -> Vec<u8> {
    let file = book.encode();
    let starts = starts(book);
    let mut order = [0, 1, 2, 3, 4, 5];
    order.swap(first, second);
    let mut swapped = Vec::with_capacity(file.len());
    for section in order {
        swapped.extend(&file[starts[section]..starts[section + 1]]);
    }
    swapped.extend(&file[starts[6]..]);
    swapped
}

/// The book's file with the bound between a section and the next moved by as
/// few bytes as are whole records of both. Distances and counts fit together.
fn moved(book: &Book, section: usize, direction: isize) -> Vec<u8> {
    let (size, next_size) = (SECTIONS[section].1, SECTIONS[section + 1].1);
    let bytes = direction * size.max(next_size) as isize;
    let file = book.encode();
    let pair = starts(book)[7] + 8 + 4 * section;
    let file = plus(&file, pair + 2, bytes / size as isize);
    let file = plus(&file, pair + 4, -bytes);
    plus(&file, pair + 6, -bytes / next_size as isize)
}

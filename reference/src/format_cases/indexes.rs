//! Full sections: a bad record at the first, the last and two indexes between,
//! and the names of the last record and of one past it.

use super::base::{reserved, resized, small, with_byte};
use crate::book::Book;
use crate::decode::SECTIONS;

pub(super) fn files() -> Vec<Vec<u8>> {
    let mut files = Vec::new();
    for (section, (most, _)) in SECTIONS.into_iter().take(6).enumerate() {
        let book = resized(small(), section, most);
        let file = book.encode();
        for index in [0, most / 2, 3 * most / 4, most - 1] {
            files.push(with_byte(&file, reserved(&book, section, index), 1));
        }
    }
    files.extend(names());
    files
}

/// That the last node may be named is left to the book in which all sections
/// are full.
fn names() -> Vec<Vec<u8>> {
    let regions = resized(small(), 1, 64);
    let nodes = resized(small(), 3, 1_024);
    vec![
        changed(&regions, |book| book.rights[3].region = 63),
        changed(&regions, |book| book.rights[3].region = 64),
        changed(&regions, |book| book.triggers[2].region = 63),
        changed(&regions, |book| book.triggers[2].region = 64),
        changed(&nodes, |book| book.programs[3].root = 1_024),
        changed(&nodes, |book| book.triggers[2].body = 1_024),
    ]
}

fn changed(book: &Book, change: fn(&mut Book)) -> Vec<u8> {
    let mut book = book.clone();
    change(&mut book);
    book.encode()
}

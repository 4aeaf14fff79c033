//! Accepted books with many start states and rights.

use super::base::cell;
use crate::book::{Book, Cell, Region, Right};

pub(super) fn files() -> Vec<Vec<u8>> {
    let mut files: Vec<Vec<u8>> = (0..64).map(one_cell).collect();
    files.extend([2, 3, 7, 8, 9, 64].map(every));
    files.extend(regions().chunks(64).enumerate().map(all_rights));
    files
}

/// A single cell, at each owner and line, and in every table.
fn one_cell(key: usize) -> Vec<u8> {
    let amounts = [1, -1, 0, 255, -256, 65_536, i32::MAX, i32::MIN];
    let mut book = Book::default();
    book.cells.push(Cell {
        amount: amounts[key % 8],
        ..cell(64 * ((key + key / 8) % 8) + key)
    });
    book.encode()
}

/// Every so many cells, the last one among them.
fn every(step: usize) -> Vec<u8> {
    let places = (0..512).filter(|place| (511 - place) % step == 0);
    let book = Book {
        cells: places.map(cell).collect(),
        ..Book::default()
    };
    book.encode()
}

/// Every range of owners with every range of lines.
fn regions() -> Vec<Region> {
    let ranges: Vec<(u8, u8)> = (0..8)
        .flat_map(|first| (first..8).map(move |last| (first, last)))
        .collect();
    let mut regions = Vec::new();
    for &(owner_first, owner_last) in &ranges {
        for &(line_first, line_last) in &ranges {
            regions.push(Region {
                table: (regions.len() % 8) as u8,
                owner_first,
                owner_last,
                line_first,
                line_last,
            });
        }
    }
    regions
}

/// A book with a right for each region. There are eight to a user, one in each
/// table, so that each region makes up a word of a set alone.
fn all_rights((number, regions): (usize, &[Region])) -> Vec<u8> {
    let right = |region| Right {
        kind: 1 + (number % 2) as u8,
        user: (region / 8) as u8,
        region: region as u8,
    };
    let book = Book {
        regions: regions.to_vec(),
        rights: (0..regions.len()).map(right).collect(),
        ..Book::default()
    };
    book.encode()
}

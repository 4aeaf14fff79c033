//! Cells, regions, rights, programs and triggers: every field at its limits and
//! past them. Refusals 5–7, 9 and 10.

use super::base::{small, starts, with_bytes};
use crate::book::{Book, Cell, Program, Region, Right, Trigger};
use crate::builder::Builder;

pub(super) fn files() -> Vec<Vec<u8>> {
    [
        bytes(),
        cell_pairs(),
        region_ranges(),
        rights(),
        programs(),
        triggers(),
    ]
    .concat()
}

/// Every byte of every record of the small book, nodes included.
fn bytes() -> Vec<Vec<u8>> {
    let file = small().encode();
    let records = starts(&small())[7];
    (0..records)
        .flat_map(|at| {
            let (up, down) = (file[at].wrapping_add(1), file[at].wrapping_sub(1));
            with_bytes(&file, at, &[0, 1, 8, 255, up, down])
        })
        .collect()
}

/// Two cells in every order: their places rise, are the same, or fall.
fn cell_pairs() -> Vec<Vec<u8>> {
    let mut cells = Vec::new();
    for table in [0, 3, 7] {
        for (owner, line) in [(0, 0), (0, 7), (3, 3), (3, 4), (4, 3), (7, 0), (7, 7)] {
            cells.push(Cell {
                table,
                owner,
                line,
                amount: i32::from(table) - 3,
            });
        }
    }
    let mut files = Vec::new();
    for &first in &cells {
        for &second in &cells {
            let book = Book {
                cells: vec![first, second],
                ..Book::default()
            };
            files.push(book.encode());
        }
    }
    files
}

/// A range of owners or lines between any two of these ends.
fn region_ranges() -> Vec<Vec<u8>> {
    let ends = [0, 1, 4, 6, 7, 8, 255];
    let mut regions = Vec::new();
    for first in ends {
        for last in ends {
            regions.push([0, first, last, 0, 7]);
            regions.push([7, 7, 7, first, last]);
        }
    }
    regions.extend(ends.map(|table| [table, 0, 7, 0, 0]));
    regions.into_iter().map(region_file).collect()
}

/// A book whose only region everyone may read.
fn region_file([table, owner_first, owner_last, line_first, line_last]: [u8; 5]) -> Vec<u8> {
    let mut b = Builder::new();
    b.book.regions.push(Region {
        table,
        owner_first,
        owner_last,
        line_first,
        line_last,
    });
    b.public(0);
    b.book.encode()
}

/// Regions 0 to 2, and nodes 0 constant, 1 skip, 2 constant, 3 skip.
fn surroundings() -> Book {
    let mut b = Builder::new();
    b.region(2, 0..=0, 0..=7);
    b.region(4, 1..=6, 2..=3);
    b.region(6, 7..=7, 7..=7);
    for _ in 0..2 {
        b.constant(-1);
        b.skip();
    }
    b.book
}

fn rights() -> Vec<Vec<u8>> {
    let mut files = Vec::new();
    for kind in [0, 1, 2, 3, 255] {
        for user in [0, 1, 7, 8, 255] {
            for region in [0, 2, 3, 255] {
                let mut book = surroundings();
                book.nodes.clear();
                book.rights.push(Right { kind, user, region });
                files.push(book.encode());
            }
        }
    }
    files
}

/// Numbers of nodes: both sorts, the last, one past it, and others that only
/// the high byte tells apart from these.
const NODES: [u16; 8] = [0, 1, 2, 3, 4, 256, 259, 65_535];

fn programs() -> Vec<Vec<u8>> {
    let mut files = Vec::new();
    for user in [0, 7, 8] {
        for root in NODES {
            let mut book = surroundings();
            book.programs.push(Program { user, root });
            files.push(book.encode());
        }
    }
    files
}

fn triggers() -> Vec<Vec<u8>> {
    let mut triggers = Vec::new();
    for event in [0, 1, 2, 3] {
        for body in NODES {
            triggers.push((2, event, 7, body));
        }
        for region in [0, 2, 3, 255] {
            for user in [0, 7, 8, 255] {
                triggers.push((region, event, user, 3));
            }
        }
    }
    triggers.into_iter().map(trigger_file).collect()
}

fn trigger_file((region, event, user, body): (u8, u8, u8, u16)) -> Vec<u8> {
    let mut book = surroundings();
    book.triggers.push(Trigger {
        region,
        event,
        user,
        body,
    });
    book.encode()
}

//! All queries over ranges of owners and lines in which no cell is present, and
//! over such in which one is.

use super::super::office::{block, put, query};
use super::super::Case;
use super::{finishes, stops, Story, EXTREMES};
use crate::book::{kind, Cell};
use crate::builder::Builder;
use crate::places::place;

const MIN: i32 = i32::MIN;
const MAX: i32 = i32::MAX;

/// First and last owner, first and last line.
type Bounds = [i32; 4];

/// Between these lies no place: first is above last, or one side of the table
/// is passed. The last ones are 0 to 7 in their lowest 8 or 16 bits.
const WITHOUT_PLACES: [Bounds; 28] = [
    [3, 2, 0, 7],
    [1, 0, 0, 7],
    [7, 0, 0, 7],
    [0, 7, 1, 0],
    [0, 7, 7, 6],
    [4, 3, 4, 3],
    [8, -1, 0, 7],
    [0, 7, 8, -1],
    [MAX, MIN, 0, 7],
    [0, 7, MAX, MIN],
    [MAX, MIN, MAX, MIN],
    [-1, -1, 0, 7],
    [-9, -1, 3, 3],
    [MIN, -1, 0, 7],
    [MIN, MIN, 0, 7],
    [8, 8, 0, 7],
    [8, MAX, 0, 7],
    [MAX, MAX, 0, 7],
    [0, 7, -1, -1],
    [0, 7, MIN, -1],
    [0, 7, MIN, MIN],
    [0, 7, 8, 8],
    [5, 5, 8, MAX],
    [0, 7, MAX, MAX],
    [MIN, -1, 8, MAX],
    [256, 263, 0, 7],
    [0, 7, -256, -249],
    [65_536, 65_543, 65_536, 65_543],
];

/// Between these lie places: one, a row, a column, some, all; and some or all
/// with bounds that are outside.
const WITH_PLACES: [Bounds; 15] = [
    [0, 0, 0, 0],
    [3, 3, 4, 4],
    [7, 7, 7, 7],
    [0, 0, 0, 7],
    [7, 7, 0, 7],
    [0, 7, 0, 0],
    [0, 7, 7, 7],
    [2, 5, 2, 5],
    [0, 7, 0, 7],
    [-3, 0, -3, 0],
    [7, 9, 7, 9],
    [-1, 2, 6, 8],
    [5, MAX, MIN, 1],
    [MIN, 3, 4, MAX],
    [MIN, MAX, MIN, MAX],
];

pub(super) const AMOUNTS: [i32; 5] = [0, 1, -1, MIN, MAX];

pub(super) fn stories() -> Vec<Story> {
    let mut stories = Vec::new();
    for (number, bounds) in WITHOUT_PLACES.into_iter().enumerate() {
        let table = if number % 2 == 0 { 0 } else { 7 };
        stories.extend(EXTREMES.map(|kind| asked(kind, table, bounds, diagonal(table))));
    }
    for (number, bounds) in WITH_PLACES.into_iter().enumerate() {
        let table = if number % 2 == 0 { 7 } else { 0 };
        for kind in EXTREMES {
            stories.push(asked(kind, table, bounds, around(table, bounds)));
            stories.push(asked(kind, 7 - table, bounds, Vec::new()));
        }
    }
    stories.extend(with_one_cell());
    stories
}

/// A cell of every owner and of every line.
fn diagonal(table: u8) -> Vec<Cell> {
    (0..8).map(|key| cell(table, key, key, 40)).collect()
}

/// A table whose cells are all present but for those between the bounds, where
/// another table has one.
fn around(table: u8, bounds: Bounds) -> Vec<Cell> {
    let mut cells = Vec::new();
    for at in 0..64 {
        let (owner, line) = (at / 8, at % 8);
        let inside = holds(bounds, owner, line);
        if inside && cells.iter().all(|cell: &Cell| cell.table == table) {
            cells.push(cell(5, owner, line, 50));
        }
        if !inside {
            cells.push(cell(table, owner, line, 30 - i32::from(at)));
        }
    }
    cells
}

pub(super) fn cell(table: u8, owner: u8, line: u8, amount: i32) -> Cell {
    Cell {
        table,
        owner,
        line,
        amount,
    }
}

fn holds([first, last, low, high]: Bounds, owner: u8, line: u8) -> bool {
    (first..=last).contains(&owner.into()) && (low..=high).contains(&line.into())
}

/// A book with these cells, whose table 1 user 0 may write.
pub(super) fn with_cells(mut cells: Vec<Cell>) -> Builder {
    let mut b = Builder::new();
    cells.sort_by_key(|cell| place(cell.table, cell.owner, cell.line));
    b.book.cells = cells;
    let results = b.region(1, 0..=7, 0..=7);
    b.write(0, results);
    b
}

/// Count and sum are put into cells, both 0. The extreme stops.
fn asked(extreme: u8, table: u8, bounds: Bounds, cells: Vec<Cell>) -> Story {
    let mut b = with_cells(cells);
    let queries = ask(&mut b, &[kind::COUNT, kind::SUM, extreme], table, bounds);
    stops(31, queries[2], Case::ample(b.book.encode()))
}

/// A program that puts what the queries answer into cells. Gives their nodes.
fn ask(b: &mut Builder, kinds: &[u8], table: u8, bounds: Bounds) -> Vec<u16> {
    let queries: Vec<u16> = kinds
        .iter()
        .map(|&kind| query(b, kind, table, bounds))
        .collect();
    let puts: Vec<u16> = (0..)
        .zip(&queries)
        .map(|(line, &value)| put(b, 1, [0, line], value))
        .collect();
    let root = block(b, &puts);
    b.program(0, root);
    queries
}

/// One cell between the bounds is present: the first, one in the middle or the
/// last. All four queries answer.
fn with_one_cell() -> Vec<Story> {
    let inside = [
        ([0, 7, 0, 7], [[0, 0], [4, 3], [7, 7]]),
        ([2, 5, 3, 6], [[2, 3], [3, 5], [5, 6]]),
        ([-1, 8, MIN, MAX], [[0, 0], [3, 4], [7, 7]]),
        ([6, 6, 1, 1], [[6, 1]; 3]),
    ];
    let mut stories = Vec::new();
    for (number, amount) in AMOUNTS.into_iter().enumerate() {
        for (bounds, keys) in inside {
            for (at, [owner, line]) in keys.into_iter().enumerate() {
                let table = if (number + at) % 2 == 0 { 0 } else { 7 };
                let one = cell(table, owner, line, amount);
                stories.push(answered(table, bounds, vec![one]));
            }
        }
        let mut cells = around(7, [2, 5, 3, 6]);
        cells.push(cell(7, 4, 4, amount));
        stories.push(answered(7, [2, 5, 3, 6], cells));
    }
    stories
}

fn answered(table: u8, bounds: Bounds, cells: Vec<Cell>) -> Story {
    let mut b = with_cells(cells);
    let kinds: Vec<u8> = (kind::COUNT..=kind::LARGEST).collect();
    ask(&mut b, &kinds, table, bounds);
    finishes(Case::ample(b.book.encode()))
}

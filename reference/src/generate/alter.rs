//! A second book that differs from a first only outside a set of places.

use super::labels::label;
use crate::book::{Book, Cell};
use crate::places::{place, Places};
use crate::random::Random;

/// The book with cells outside the reach altered, added and removed. All else
/// stays. A cell is outside if its label at the start is not wholly inside.
pub fn altered(random: &mut Random, book: &Book, reach: &Places) -> Book {
    let mut cells = [None; 512];
    for cell in &book.cells {
        cells[place(cell.table, cell.owner, cell.line)] = Some(cell.amount);
    }
    let present = cells.map(|cell| cell.is_some());
    let labels = book.start_labels();
    let mut alter = |random: &mut Random, place: usize, wide: bool| {
        if !labels[place].within(reach) {
            cells[place] = altered_cell(random, cells[place], wide);
        }
    };
    // Sums of many wide amounts would mostly leave 32 bits.
    let wide = random.chance(25);
    match random.below(6) {
        0 => {
            let place = likely_place(random, book);
            alter(random, place, wide);
        }
        1 => {
            for _ in 0..random.between(2, 8) {
                let place = likely_place(random, book);
                alter(random, place, wide);
            }
        }
        _ => {
            let absent_too = random.weighted(&[(3, 2), (3, 30), (1, 100)]);
            for (place, present) in present.into_iter().enumerate() {
                if present || random.chance(absent_too) {
                    alter(random, place, wide);
                }
            }
        }
    }
    Book {
        cells: records(&cells),
        ..book.clone()
    }
}

/// A place that scripts may use: a present cell's or one in a region.
fn likely_place(random: &mut Random, book: &Book) -> usize {
    if random.chance(50) && !book.cells.is_empty() {
        let cell = random.pick(&book.cells);
        return place(cell.table, cell.owner, cell.line);
    }
    if book.regions.is_empty() {
        return random.below(512);
    }
    let region = random.pick(&book.regions);
    let owner = random.between(region.owner_first.into(), region.owner_last.into());
    let line = random.between(region.line_first.into(), region.line_last.into());
    place(region.table, owner as u8, line as u8)
}

/// Another amount for a cell, or none.
fn altered_cell(random: &mut Random, cell: Option<i32>, wide: bool) -> Option<i32> {
    match cell {
        Some(_) if random.chance(30) => None,
        Some(old) => Some(other_amount(random, old, wide)),
        None => Some(other_amount(random, 0, wide)),
    }
}

/// The book with other labels, also outside the reach, for cells outside the
/// reach. It may change its version where the labels let it.
pub fn relabelled(random: &mut Random, book: &Book, reach: &Places) -> Book {
    let mut labels = book.start_labels();
    let percent = random.weighted(&[(4, 0), (3, 10), (2, 50), (1, 100)]);
    let others: Vec<usize> = (0..8).map(|_| likely_place(random, book)).collect();
    for (place, old) in labels.iter_mut().enumerate() {
        if old.within(reach) || percent == 0 || !random.chance(percent) {
            continue;
        }
        let new = match random.below(3) {
            0 => Places::single(place),
            1 => old.union(&label(random, place, &others)),
            _ => label(random, place, &others),
        };
        if !new.within(reach) {
            *old = new;
        }
    }
    let words: Vec<u64> = labels.iter().flat_map(|label| label.0).collect();
    let mut other = book.clone();
    other.replace_labels(&words);
    if other.labels == Some(Vec::new()) && random.chance(50) {
        other.labels = None;
    }
    other
}

fn other_amount(random: &mut Random, old: i32, wide: bool) -> i32 {
    if wide && random.chance(50) {
        let any = random.word() as i32;
        return random.pick(&[i32::MAX, i32::MIN, any]);
    }
    match random.below(8) {
        0 => 0,
        1 => -1,
        2 => old.wrapping_add(1),
        3 => old.wrapping_sub(1),
        _ => random.below(5) as i32,
    }
}

fn records(cells: &[Option<i32>; 512]) -> Vec<Cell> {
    let mut records = Vec::new();
    for (place, amount) in cells.iter().enumerate() {
        if let Some(amount) = *amount {
            records.push(Cell {
                table: (place / 64) as u8,
                owner: (place / 8 % 8) as u8,
                line: (place % 8) as u8,
                amount,
            });
        }
    }
    records
}

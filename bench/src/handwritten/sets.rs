//! Sets of places, and labels: kept as sets, or not kept at all.

use super::book::LABEL;
use super::records;
use super::regions::{Area, Region};

/// A set of places: bit 8·owner + line of word `table`.
pub type Set = [u64; 8];

/// What a run keeps for a label.
pub trait Label: Copy {
    const EMPTY: Self;

    /// Gives each cell the label that it has at the start: that of its record, or
    /// its own place alone.
    fn start(labels: &mut [Set; 512], records: &[[u8; LABEL]]);

    fn join(&mut self, other: &Self);

    /// Joins the labels of all cells of an area, given those of its table.
    fn join_area(&mut self, table: &[Set; 64], cells: &Area);

    fn join_region(&mut self, region: &Region);

    fn within(&self, other: &Self) -> bool;

    /// As `within`, for a set that is kept in every run.
    fn within_set(&self, set: &Set) -> bool;

    fn store(&self, label: &mut Set);

    /// Copies a cell's label, if cells have any.
    fn copy(from: &Set, to: &mut Set);
}

impl Label for Set {
    const EMPTY: Set = [0; 8];

    fn start(labels: &mut [Set; 512], records: &[[u8; LABEL]]) {
        for (place, label) in labels.iter_mut().enumerate() {
            *label = Set::EMPTY;
            label[place / 64] = 1 << (place % 64);
        }
        for record in records {
            let (place, label) = records::label(record);
            labels[place % 512] = label;
        }
    }

    #[inline(always)]
    fn join(&mut self, other: &Set) {
        for (word, more) in self.iter_mut().zip(other) {
            *word |= more;
        }
    }

    #[inline(always)]
    fn join_area(&mut self, table: &[Set; 64], cells: &Area) {
        // A copy, so that it can stay in registers.
        let mut joined = *self;
        for run in cells.runs() {
            for label in &table[run] {
                joined.join(label);
            }
        }
        *self = joined;
    }

    fn join_region(&mut self, region: &Region) {
        self[region.table] |= region.cells;
    }

    /// Without a branch for each word: most tests pass.
    #[inline(always)]
    fn within(&self, other: &Set) -> bool {
        let outside = self.iter().zip(other).fold(0, |all, (a, b)| all | (a & !b));
        outside == 0
    }

    #[inline(always)]
    fn within_set(&self, set: &Set) -> bool {
        self.within(set)
    }

    #[inline(always)]
    fn store(&self, label: &mut Set) {
        *label = *self;
    }

    #[inline(always)]
    fn copy(from: &Set, to: &mut Set) {
        *to = *from;
    }
}

/// The label of a run with no labels. It takes no space and passes every test,
/// so the compiler leaves out what a monitored run does for labels.
#[derive(Clone, Copy)]
pub struct Unlabelled;

impl Label for Unlabelled {
    const EMPTY: Unlabelled = Unlabelled;

    fn start(_: &mut [Set; 512], _: &[[u8; LABEL]]) {}

    fn join(&mut self, _: &Unlabelled) {}

    fn join_area(&mut self, _: &[Set; 64], _: &Area) {}

    fn join_region(&mut self, _: &Region) {}

    fn within(&self, _: &Unlabelled) -> bool {
        true
    }

    fn within_set(&self, _: &Set) -> bool {
        true
    }

    fn store(&self, _: &mut Set) {}

    fn copy(_: &Set, _: &mut Set) {}
}

//! The lent cells, and the state at the start of a run.

use super::book::Book;
use super::records;
use super::sets::{Label, Set};

/// Lent memory that holds the cells.
pub struct Cells<'a> {
    pub amounts: &'a mut [i32; 512],
    pub presence: &'a mut [u64; 8],
    pub labels: &'a mut [Set; 512],
}

impl<'a> Cells<'a> {
    /// The lent slices, if each has its one right length.
    pub fn lent(
        amounts: &'a mut [i32],
        presence: &'a mut [u64],
        labels: &'a mut [u64],
    ) -> Option<Cells<'a>> {
        let (labels, []) = labels.as_chunks_mut() else {
            return None;
        };
        Some(Cells {
            amounts: amounts.try_into().ok()?,
            presence: presence.try_into().ok()?,
            labels: labels.try_into().ok()?,
        })
    }

    /// Sets the cells from the book, whatever stood there.
    pub fn start<L: Label>(&mut self, book: &Book) {
        L::start(self.labels, book.labels);
        self.amounts.fill(0);
        self.presence.fill(0);
        for record in book.cells {
            let [_, _, _, _, amount @ ..] = *record;
            let place = records::place(record);
            self.amounts[place] = i32::from_le_bytes(amount);
            self.presence[place / 64] |= 1 << (place % 64);
        }
    }
}

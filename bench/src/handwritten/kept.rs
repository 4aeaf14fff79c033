//! What a posting writes over: kept until it has finished, so that it can be
//! taken back.

use super::sets::{Label, Set};
use super::start::Cells;

/// A cell before the posting.
#[derive(Clone, Copy)]
pub struct Cell {
    place: u16,
    amount: i32,
    label: Set,
}

impl Cell {
    pub const NONE: Cell = Cell {
        place: 0,
        amount: 0,
        label: Set::EMPTY,
    };
}

/// Room for all cells that one posting may write.
pub type Room = [Cell; 512];

pub struct Kept<'a> {
    /// The cells kept, as many as `count`. No room is needed where there are no
    /// triggers.
    room: Option<&'a mut Room>,
    count: usize,
    /// The places of these cells.
    written: Set,
    presence: [u64; 8],
}

impl<'a> Kept<'a> {
    pub fn new(room: Option<&'a mut Room>) -> Kept<'a> {
        Kept {
            room,
            count: 0,
            written: Set::EMPTY,
            presence: [0; 8],
        }
    }

    /// Forgets what the last posting wrote over.
    pub fn begin(&mut self, cells: &Cells) {
        self.count = 0;
        self.written = Set::EMPTY;
        self.presence = *cells.presence;
    }

    /// Keeps a cell that is about to be written, unless the posting has written
    /// it already.
    #[inline(always)]
    pub fn keep<L: Label>(&mut self, cells: &Cells, place: usize) {
        let (word, bit) = (&mut self.written[place / 64], 1 << (place % 64));
        let Some(room) = &mut self.room else { return };
        if *word & bit != 0 {
            return;
        }
        *word |= bit;
        let cell = &mut room[self.count % 512];
        cell.place = place as u16;
        cell.amount = cells.amounts[place];
        L::copy(&cells.labels[place], &mut cell.label);
        self.count += 1;
    }

    /// Gives all kept cells back.
    pub fn take_back<L: Label>(&self, cells: &mut Cells) {
        *cells.presence = self.presence;
        let kept = self.room.iter().flat_map(|room| &room[..self.count]);
        for cell in kept {
            let place = usize::from(cell.place);
            cells.amounts[place] = cell.amount;
            L::copy(&cell.label, &mut cells.labels[place]);
        }
    }
}

//! What a user may read and write after grants and revokes: the last change that
//! covers a cell decides, and whatever no change covers stays.

use super::office::{amount, block, set};
use super::Case;
use crate::builder::Builder;

pub(super) fn cases() -> Vec<Case> {
    stories().iter().map(|story| story.case()).collect()
}

// Regions of three tables. HOUSE and ACROSS have cells in common.
const HOUSE: u8 = 0;
const ACROSS: u8 = 1;
const GARDEN: u8 = 2;
const YARD: u8 = 3;

// Users. At the start the holder reads and writes HOUSE and GARDEN, the
// neighbour HOUSE, and the newcomer nothing.
const HOLDER: u8 = 2;
const NEIGHBOUR: u8 = 3;
const NEWCOMER: u8 = 6;

fn village() -> Builder {
    let mut b = Builder::new();
    b.cell(3, 0, 0, 30);
    b.cell(5, 1, 2, -51);
    b.region(3, 0..=3, 0..=7);
    b.region(3, 2..=5, 0..=7);
    b.region(7, 4..=7, 0..=3);
    b.region(5, 1..=1, 2..=6);
    for (user, region) in [(HOLDER, HOUSE), (HOLDER, GARDEN), (NEIGHBOUR, HOUSE)] {
        b.read(user, region);
        b.write(user, region);
    }
    b
}

/// Table, owner and line.
type Cell = [u8; 3];

const IN_HOUSE: Cell = [3, 0, 0];
const IN_BOTH: Cell = [3, 3, 7];
const IN_ACROSS: Cell = [3, 5, 1];
const IN_GARDEN: Cell = [7, 4, 3];
const IN_YARD: Cell = [5, 1, 2];

const EVERYWHERE: [Cell; 5] = [IN_HOUSE, IN_BOTH, IN_ACROSS, IN_GARDEN, IN_YARD];

#[derive(Clone, Copy, PartialEq, Eq)]
enum Right {
    Read,
    Write,
}

impl Right {
    fn other(self) -> Right {
        match self {
            Right::Read => Right::Write,
            Right::Write => Right::Read,
        }
    }
}

/// A region that a user gains or loses.
#[derive(Clone, Copy)]
enum Change {
    Grant(u8),
    Revoke(u8),
}

use Change::{Grant, Revoke};

/// Regions gained and lost by one who has HOUSE and GARDEN.
const HISTORIES: [&[Change]; 11] = [
    &[Grant(YARD)],
    &[Grant(HOUSE)],
    &[Grant(ACROSS)],
    &[Revoke(ACROSS)],
    &[Revoke(YARD)],
    &[Grant(YARD), Revoke(GARDEN)],
    &[Grant(YARD), Revoke(ACROSS)],
    &[Grant(ACROSS), Revoke(HOUSE)],
    &[Grant(ACROSS), Revoke(GARDEN)],
    &[Revoke(HOUSE), Grant(ACROSS)],
    &[Revoke(ACROSS), Grant(YARD)],
];

/// Changes of one right of a user; then cells that someone reads or writes, one
/// after the other.
struct Story {
    right: Right,
    user: u8,
    changes: Vec<Change>,
    tried_right: Right,
    tried_by: u8,
    tried: Vec<Cell>,
}

fn stories() -> Vec<Story> {
    let mut stories = Vec::new();
    for right in [Right::Read, Right::Write] {
        for changes in HISTORIES {
            stories.extend(of_holder(right, changes));
            stories.extend(of_newcomer(right, changes));
        }
    }
    stories
}

/// The holder's set comes from records. The changes leave alone what his
/// neighbour has, and the holder's other right.
fn of_holder(right: Right, changes: &[Change]) -> Vec<Story> {
    let story = |tried_right, tried_by, tried: &[Cell]| Story {
        right,
        user: HOLDER,
        changes: changes.to_vec(),
        tried_right,
        tried_by,
        tried: tried.to_vec(),
    };
    let mut stories = Vec::from(EVERYWHERE.map(|cell| story(right, HOLDER, &[cell])));
    for denied in [IN_ACROSS, IN_YARD] {
        let tried = [IN_HOUSE, IN_BOTH, denied];
        stories.push(story(right, NEIGHBOUR, &tried));
        let tried = [IN_GARDEN, IN_HOUSE, IN_BOTH, denied];
        stories.push(story(right.other(), HOLDER, &tried));
    }
    stories
}

/// The newcomer's set comes from grants.
fn of_newcomer(right: Right, changes: &[Change]) -> Vec<Story> {
    let granted = [Grant(HOUSE), Grant(GARDEN)];
    Vec::from(EVERYWHERE.map(|cell| Story {
        right,
        user: NEWCOMER,
        changes: [&granted[..], changes].concat(),
        tried_right: right,
        tried_by: NEWCOMER,
        tried: vec![cell],
    }))
}

impl Story {
    /// The changes and what follows are programs of their own.
    fn case(&self) -> Case {
        let mut b = village();
        let changes: Vec<u16> = self
            .changes
            .iter()
            .map(|&change| self.command(&mut b, change))
            .collect();
        let first = block(&mut b, &changes);
        b.program(0, first);
        let tried: Vec<u16> = self
            .tried
            .iter()
            .map(|&cell| self.trial(&mut b, cell))
            .collect();
        let second = block(&mut b, &tried);
        b.program(self.tried_by, second);
        Case::ample(b.book.encode())
    }

    fn command(&self, b: &mut Builder, change: Change) -> u16 {
        match (self.right, change) {
            (Right::Read, Grant(region)) => b.grant_read(self.user, region),
            (Right::Read, Revoke(region)) => b.revoke_read(self.user, region),
            (Right::Write, Grant(region)) => b.grant_write(self.user, region),
            (Right::Write, Revoke(region)) => b.revoke_write(self.user, region),
        }
    }

    fn trial(&self, b: &mut Builder, [table, owner, line]: Cell) -> u16 {
        match self.tried_right {
            Right::Read => {
                let held = amount(b, table, owner, line);
                b.out(self.tried_by, held)
            }
            Right::Write => set(b, table, [owner.into(), line.into()], 9),
        }
    }
}

#[cfg(test)]
mod tests {
    use super::super::Outcome;
    use super::*;
    use crate::run::Answer;

    fn covers(region: u8, [table, owner, line]: Cell) -> bool {
        village().book.regions[usize::from(region)].holds(table, owner, line)
    }

    impl Story {
        /// Whether the last change that covers the cell grants it; if none does,
        /// whether a record covers it.
        fn allows(&self, cell: Cell) -> bool {
            let concerned = self.user == self.tried_by && self.right == self.tried_right;
            let changes = if concerned { &self.changes[..] } else { &[] };
            for change in changes.iter().rev() {
                match *change {
                    Grant(region) if covers(region, cell) => return true,
                    Revoke(region) if covers(region, cell) => return false,
                    _ => (),
                }
            }
            let records = match self.tried_by {
                HOLDER => &[HOUSE, GARDEN][..],
                NEIGHBOUR => &[HOUSE],
                _ => &[],
            };
            records.iter().any(|&region| covers(region, cell))
        }
    }

    #[test]
    fn the_last_change_that_covers_a_cell_decides() {
        for story in stories() {
            let denied = match story.tried_right {
                Right::Read => 27,
                Right::Write => 24,
            };
            let allowed = story.tried.iter().all(|&cell| story.allows(cell));
            let expected = if allowed { 0 } else { denied };
            let answer = Outcome::of(&story.case()).answer;
            let Answer::Ended { number, .. } = answer else {
                panic!("{answer:?}");
            };
            assert_eq!(number, expected, "{answer:?}");
        }
    }
}

//! What the maker of a script believes about labels and rights at some point
//! of the run.

use super::world::{Spots, World};
use crate::book::Right;
use std::ops::BitOr;

/// Bounds on a label: it has at least these places and at most those. They
/// differ after a branch, as either side may have run.
#[derive(Clone, Copy, Default)]
pub(super) struct Label {
    least: Spots,
    most: Spots,
}

impl Label {
    pub(super) const EMPTY: Label = Label { least: 0, most: 0 };

    /// Nothing is known.
    pub(super) const ANY: Label = Label {
        least: 0,
        most: Spots::MAX,
    };

    pub(super) fn exactly(places: Spots) -> Label {
        Label {
            least: places,
            most: places,
        }
    }

    /// Whether it is surely within the other.
    pub(super) fn within(self, other: Label) -> bool {
        self.most & !other.least == 0
    }

    /// This label or the other.
    fn either(self, other: Label) -> Label {
        Label {
            least: self.least & other.least,
            most: self.most | other.most,
        }
    }
}

impl BitOr for Label {
    type Output = Label;

    /// The union.
    fn bitor(self, other: Label) -> Label {
        Label {
            least: self.least | other.least,
            most: self.most | other.most,
        }
    }
}

/// A trigger: what sets it off and which spots its body may write.
#[derive(Clone, Copy, Default)]
struct Reaction {
    event: u8,
    region: Spots,
    writes: Spots,
}

impl Reaction {
    fn fits(&self, event: u8, spot: usize) -> bool {
        self.event == event && self.region >> spot & 1 == 1
    }
}

#[derive(Clone, Copy)]
pub(super) struct Guess {
    pub(super) context: Label,
    pub(super) variables: [Label; 16],
    /// By spot, the label of its cell; also for the bits of places elsewhere.
    cells: [Label; 32],
    public: Spots,
    reads: [Spots; 8],
    writes: [Spots; 8],
    reactions: [Reaction; 8],
}

impl Guess {
    /// The start of a run of this world's own book.
    pub(super) fn new(world: &World) -> Guess {
        let mut guess = Guess {
            context: Label::EMPTY,
            variables: [Label::EMPTY; 16],
            cells: std::array::from_fn(|spot| Label::exactly(1 << spot)),
            public: 0,
            reads: [0; 8],
            writes: [0; 8],
            reactions: [Reaction::default(); 8],
        };
        for record in world.labels.iter().flatten() {
            let bit = world.bit(record.place.into());
            let label = Label::exactly(world.bits(&record.label));
            guess.cells[bit] = match bit < 24 {
                true => label,
                // Other cells of the table share the bit.
                false => guess.cells[bit].either(label),
            };
        }
        guess.begin_day(world);
        guess
    }

    /// The start of a run with the cells that another left.
    pub(super) fn begin_day(&mut self, world: &World) {
        self.public = 0;
        self.reads = [0; 8];
        self.writes = [0; 8];
        self.reactions = [Reaction::default(); 8];
        for &Right { kind, user, region } in &world.rights {
            let user = usize::from(user);
            let set = match kind {
                0 => &mut self.public,
                1 => &mut self.reads[user],
                _ => &mut self.writes[user],
            };
            *set |= world.covers[usize::from(region)];
        }
    }

    pub(super) fn add_trigger(&mut self, number: usize, event: u8, region: Spots, writes: Spots) {
        self.reactions[number] = Reaction {
            event,
            region,
            writes,
        };
    }

    /// The union of the labels of some cells.
    pub(super) fn cells(&self, spots: Spots) -> Label {
        let mut label = Label::EMPTY;
        for (index, &cell) in self.cells.iter().enumerate() {
            if spots >> index & 1 == 1 {
                label = label | cell;
            }
        }
        label
    }

    pub(super) fn may_assign(&self, variable: u8) -> bool {
        self.context.within(self.variables[usize::from(variable)])
    }

    /// Whether the user may write the spot here, and the triggers that this
    /// sets off may write theirs.
    pub(super) fn may_write(&self, user: u8, event: u8, spot: usize) -> bool {
        let right = self.writes[usize::from(user)] >> spot & 1 == 1;
        let mut written: Spots = 1 << spot;
        for reaction in self.reactions.iter().filter(|r| r.fits(event, spot)) {
            written |= reaction.writes;
        }
        let holds = |(index, &label): (usize, &Label)| {
            written >> index & 1 == 0 || self.context.within(label)
        };
        right && self.cells.iter().enumerate().all(holds)
    }

    /// Whether a write of the spot sets off a trigger.
    pub(super) fn reacts(&self, event: u8, spot: usize) -> bool {
        self.reactions.iter().any(|r| r.fits(event, spot))
    }

    pub(super) fn may_read(&self, user: u8, label: Label) -> bool {
        let readable = self.reads[usize::from(user)] | self.public;
        (label | self.context).within(Label::exactly(readable))
    }

    pub(super) fn may_change_rights(&self) -> bool {
        self.context.within(Label::exactly(self.public))
    }

    /// A write of a spot, and what the triggers may make of it.
    pub(super) fn write(&mut self, event: u8, spot: usize, label: Label) {
        let label = self.context | label;
        self.cells[spot] = label;
        for reaction in self.reactions.iter().filter(|r| r.fits(event, spot)) {
            for (index, cell) in self.cells.iter_mut().enumerate() {
                if reaction.writes >> index & 1 == 1 {
                    *cell = cell.either(Label::ANY);
                }
            }
        }
    }

    /// A write of one of some spots.
    pub(super) fn write_one_of(&mut self, spots: Spots, label: Label) {
        let label = self.context | label;
        for (index, cell) in self.cells.iter_mut().enumerate() {
            if spots >> index & 1 == 1 {
                *cell = cell.either(label);
            }
        }
    }

    pub(super) fn change_right(&mut self, user: u8, places: Spots, read: bool, grant: bool) {
        let sets = if read {
            &mut self.reads
        } else {
            &mut self.writes
        };
        let set = &mut sets[usize::from(user)];
        *set = if grant { *set | places } else { *set & !places };
    }

    /// What is left to believe if the run may also have come another way.
    pub(super) fn join(&mut self, other: &Guess) {
        for (own, theirs) in self.variables.iter_mut().zip(&other.variables) {
            *own = own.either(*theirs);
        }
        for (own, theirs) in self.cells.iter_mut().zip(&other.cells) {
            *own = own.either(*theirs);
        }
    }
}

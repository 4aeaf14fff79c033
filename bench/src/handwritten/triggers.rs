//! Triggers, and the writes that fire them.

use super::book::Book;
use super::machine::{Frame, Machine};
use super::nodes::Stop;
use super::regions::Region;
use super::sets::Label;

/// A trigger as it is looked for: decoded once a run. One that the book does
/// not have has an empty region.
#[derive(Clone, Copy, Default)]
pub struct Trigger {
    region: Region,
    on_put: bool,
    user: u8,
    body: u16,
}

/// A put, or a clear where there is no amount.
pub struct Write<L> {
    pub table: usize,
    pub owner: u8,
    pub line: u8,
    pub amount: Option<i32>,
    /// Context plus key label.
    pub key: L,
    /// The cell's new label.
    pub label: L,
}

impl<L> Write<L> {
    pub fn bit(&self) -> u32 {
        u32::from(8 * self.owner + self.line) % 64
    }

    pub fn place(&self) -> usize {
        64 * self.table + self.bit() as usize
    }
}

/// The triggers of a book.
pub fn of(book: &Book) -> [Trigger; 8] {
    let mut triggers = [Trigger::default(); 8];
    for (trigger, record) in triggers.iter_mut().zip(book.triggers) {
        let &[region, event, user, _, low, high, _, _] = record;
        *trigger = Trigger {
            region: Region::of(&book.regions[usize::from(region)]),
            on_put: event == 1,
            user,
            body: u16::from_le_bytes([low, high]),
        };
    }
    triggers
}

impl Trigger {
    fn fits<L>(&self, write: &Write<L>) -> bool {
        self.on_put == write.amount.is_some()
            && self.region.table == write.table
            && self.region.cells >> write.bit() & 1 == 1
    }
}

impl Machine<'_> {
    /// A program's own write, which is taken back if a trigger stops.
    pub fn post_own<L: Label>(&mut self, write: &Write<L>) -> Result<(), Stop> {
        let Some(first) = (0..8).find(|&number| self.triggers[number].fits(write)) else {
            self.store(write);
            return Ok(());
        };
        self.kept.begin(&self.cells);
        self.kept.keep::<L>(&self.cells, write.place());
        self.store(write);
        let fired = self.fire(first, write);
        if fired.is_err() {
            self.kept.take_back::<L>(&mut self.cells);
        }
        fired
    }

    /// Runs the triggers that a write fires, of those from number `from` on.
    pub fn fire<L: Label>(&mut self, from: usize, write: &Write<L>) -> Result<(), Stop> {
        for number in from..8 {
            let trigger = self.triggers[number];
            if trigger.fits(write) {
                self.run_trigger(number, &trigger, write)?;
            }
        }
        Ok(())
    }

    #[inline(never)]
    fn run_trigger<L: Label>(
        &mut self,
        number: usize,
        trigger: &Trigger,
        write: &Write<L>,
    ) -> Result<(), Stop> {
        let mut frame = Frame::new(trigger.user, number + 1);
        // Filled where it stands: a literal of 16 copies is made apart and moved.
        frame.labels.fill(write.key);
        frame.values[0] = write.owner.into();
        frame.values[1] = write.line.into();
        frame.values[2] = write.amount.unwrap_or(0);
        frame.labels[2] = write.label;
        self.exec(&mut frame, trigger.body, &write.key)
    }
}

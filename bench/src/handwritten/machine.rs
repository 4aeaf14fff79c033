//! A run: what it holds, its budget, its trace and its programs.

use super::book::Book;
use super::kept::Kept;
use super::nodes::{Node, Nodes, Stop};
use super::regions::Region;
use super::rights::Rights;
use super::sets::Label;
use super::start::Cells;
use super::triggers::{self, Trigger};
use crate::proved::Ran;

/// A run of an accepted book.
pub struct Machine<'a> {
    nodes: &'a Nodes,
    regions: &'a [[u8; 8]],
    pub triggers: [Trigger; 8],
    pub cells: Cells<'a>,
    pub kept: Kept<'a>,
    pub rights: Rights,
    budget: u32,
    left: u32,
    trace: &'a mut [u8],
    used: usize,
}

/// The variables of a program or of one firing of a trigger, and what it may do.
pub struct Frame<L> {
    pub user: u8,
    /// The first trigger that its writes may fire.
    pub fires_from: usize,
    pub values: [i32; 16],
    pub labels: [L; 16],
}

impl<L: Label> Frame<L> {
    /// All variables 0, of empty label.
    pub fn new(user: u8, fires_from: usize) -> Frame<L> {
        Frame {
            user,
            fires_from,
            values: [0; 16],
            labels: [L::EMPTY; 16],
        }
    }
}

impl<'a> Machine<'a> {
    pub fn new(
        book: &Book<'a>,
        nodes: &'a Nodes,
        cells: Cells<'a>,
        kept: Kept<'a>,
        budget: u32,
        trace: &'a mut [u8],
    ) -> Machine<'a> {
        Machine {
            nodes,
            regions: book.regions,
            triggers: triggers::of(book),
            cells,
            kept,
            rights: Rights::of(book),
            budget,
            left: budget,
            trace,
            used: 0,
        }
    }

    /// Runs all programs.
    pub fn programs<L: Label>(mut self, book: &Book) -> Ran {
        let ended = book.programs.iter().try_for_each(|&[user, _, low, high]| {
            let mut frame = Frame::new(user, 0);
            self.exec(&mut frame, u16::from_le_bytes([low, high]), &L::EMPTY)
        });
        let (number, at) = match ended {
            Ok(()) => (0, 0),
            Err(stop) => (stop.number(), stop.node()),
        };
        Ran {
            number,
            at,
            cost: self.budget - self.left,
            bytes: self.used as u32,
        }
    }

    #[inline(always)]
    pub fn node(&self, number: u16) -> &'a Node {
        &self.nodes[usize::from(number) % 1_024]
    }

    pub fn region(&self, number: u16) -> Region {
        Region::of(&self.regions[usize::from(number)])
    }

    /// Pays for entering a node.
    #[inline(always)]
    pub fn pay(&mut self, cost: u32, node: &Node) -> Result<(), Stop> {
        self.left = self.left.checked_sub(cost).ok_or(node.stop(21))?;
        Ok(())
    }

    /// Adds a record to the trace.
    pub fn tell(&mut self, node: &Node, head: [u8; 4], amount: i32) -> Result<(), Stop> {
        let rest = &mut self.trace[self.used..];
        let record: &mut [u8; 8] = rest.first_chunk_mut().ok_or(node.stop(30))?;
        record[..4].copy_from_slice(&head);
        record[4..].copy_from_slice(&amount.to_le_bytes());
        self.used += 8;
        Ok(())
    }
}

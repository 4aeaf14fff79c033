//! A runner, loader and writer of trust books in safe Rust, written for speed:
//! what the proved ones are measured against.
//!
//! They take the same lent memory, use no heap, and answer the same. `Set` as
//! the label makes the run the scope document's; with `Unlabelled` it is the
//! run with no labels, which leaves the lent label words alone.
//!
//! The numbers in an accepted book are in range. Remainders such as `% 16` do
//! not change them; they spare the test of an index.

mod book;
mod commands;
mod expressions;
mod kept;
mod kinds;
mod machine;
mod nodes;
mod records;
mod regions;
mod rights;
mod sets;
mod start;
mod triggers;
mod writer;

pub use sets::{Set, Unlabelled};

use crate::proved::{Answered, Ran};
use book::{Book, Refusal};
use kept::Kept;
use machine::Machine;
use nodes::Nodes;
use sets::Label;
use start::Cells;

const MOST_BUDGET: u32 = 1_000_000;
const MOST_TRACE: usize = 65_536;
const LEAST_OUTPUT: usize = 60_000;
const REFUSED_1: Refusal = Refusal { number: 1, at: 0 };

/// Runs the book in a file.
#[inline(never)]
pub fn run<L: Label>(
    file: &[u8],
    budget: u32,
    amounts: &mut [i32],
    presence: &mut [u64],
    labels: &mut [u64],
    trace: &mut [u8],
) -> Ran {
    let started = if budget > MOST_BUDGET || trace.len() > MOST_TRACE {
        Err(REFUSED_1)
    } else {
        start::<L>(file, amounts, presence, labels)
    };
    match started {
        Ok((book, cells)) => {
            let nodes = nodes::decode(&book);
            if book.triggers.is_empty() {
                let kept = Kept::new(None);
                return Machine::new(&book, &nodes, cells, kept, budget, trace)
                    .programs::<L>(&book);
            }
            run_with_triggers::<L>(&book, &nodes, cells, budget, trace)
        }
        Err(Refusal { number, at }) => Ran {
            number,
            at,
            cost: 0,
            bytes: 0,
        },
    }
}

/// Out of line, so that only books with triggers pay for the room.
#[inline(never)]
fn run_with_triggers<L: Label>(
    book: &Book,
    nodes: &Nodes,
    cells: Cells,
    budget: u32,
    trace: &mut [u8],
) -> Ran {
    let mut room = [kept::Cell::NONE; 512];
    let kept = Kept::new(Some(&mut room));
    Machine::new(book, nodes, cells, kept, budget, trace).programs::<L>(book)
}

/// Sets lent memory to the start state of the book in a file.
#[inline(never)]
pub fn load<L: Label>(
    file: &[u8],
    amounts: &mut [i32],
    presence: &mut [u64],
    labels: &mut [u64],
) -> Answered {
    answered(start::<L>(file, amounts, presence, labels).map(|_| 0))
}

/// Writes the book in a file with the cells and labels of lent memory for its own.
#[inline(never)]
pub fn write(
    file: &[u8],
    amounts: &[i32],
    presence: &[u64],
    labels: &[u64],
    out: &mut [u8],
) -> Answered {
    answered(written(file, amounts, presence, labels, out))
}

fn start<'a, L: Label>(
    file: &'a [u8],
    amounts: &'a mut [i32],
    presence: &'a mut [u64],
    labels: &'a mut [u64],
) -> Result<(Book<'a>, Cells<'a>), Refusal> {
    let mut cells = Cells::lent(amounts, presence, labels).ok_or(REFUSED_1)?;
    let book = Book::read(file)?;
    cells.start::<L>(&book);
    Ok((book, cells))
}

fn written(
    file: &[u8],
    amounts: &[i32],
    presence: &[u64],
    labels: &[u64],
    out: &mut [u8],
) -> Result<usize, Refusal> {
    let (labels, []) = labels.as_chunks() else {
        return Err(REFUSED_1);
    };
    let (Ok(amounts), Ok(presence), Ok(labels)) =
        (amounts.try_into(), presence.try_into(), labels.try_into())
    else {
        return Err(REFUSED_1);
    };
    if out.len() < LEAST_OUTPUT {
        return Err(REFUSED_1);
    }
    let book = Book::read(file)?;
    Ok(writer::write(&book, amounts, presence, labels, out))
}

fn answered(result: Result<usize, Refusal>) -> Answered {
    let (number, at, length) = match result {
        Ok(length) => (0, 0, length as u32),
        Err(Refusal { number, at }) => (number, at, 0),
    };
    Answered { number, at, length }
}

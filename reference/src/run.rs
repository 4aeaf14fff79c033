//! Running a book file in memory that the caller lends.

use crate::book::{Book, Refusal};
use crate::interpreter::{Interpreter, Stop};
use crate::places::{place, Places};
use std::thread;

const MOST_BUDGET: u32 = 1_000_000;
const MOST_TRACE: usize = 65_536;

/// Enough for the deepest legal nesting, about 9,000 commands (a chain of
/// nearly all nodes as the program and again in each of eight triggers), even
/// without optimisation.
const DEEP_STACK: usize = 256 << 20;

/// Memory lent to a run. A run accepts only 512 amounts, 8 words of presence,
/// 4,096 words of labels and at most 65,536 bytes of trace.
#[derive(Clone, Debug, PartialEq, Eq)]
pub struct Memory {
    pub amounts: Vec<i32>,
    pub presence: Vec<u64>,
    /// Eight words for each cell, in the order of places.
    pub labels: Vec<u64>,
    pub trace: Vec<u8>,
}

impl Memory {
    /// Zeroed memory of the lengths that a run accepts, with this much trace.
    pub fn new(trace: usize) -> Memory {
        Memory {
            amounts: vec![0; 512],
            presence: vec![0; 8],
            labels: vec![0; 4_096],
            trace: vec![0; trace],
        }
    }

    fn is_accepted(&self) -> bool {
        self.amounts.len() == 512
            && self.presence.len() == 8
            && self.labels.len() == 4_096
            && self.trace.len() <= MOST_TRACE
    }

    /// The state at the start: the book's cells, and each cell labelled as its
    /// label record says, or by itself where it has none.
    fn set(&mut self, book: &Book) {
        self.amounts.fill(0);
        self.presence.fill(0);
        for (words, label) in self.labels.chunks_exact_mut(8).zip(book.start_labels()) {
            words.copy_from_slice(&label.0);
        }
        for cell in &book.cells {
            let place = place(cell.table, cell.owner, cell.line);
            self.amounts[place] = cell.amount;
            self.presence[place / 64] |= 1 << (place % 64);
        }
    }
}

/// Whether the tests on labels (25, 26, 27 and 29) are made. Labels themselves
/// are kept either way.
#[derive(Clone, Copy, Debug, PartialEq, Eq)]
pub enum Tests {
    Labelled,
    Unlabelled,
}

/// What becomes of a program's put or clear when a stop falls inside the body of
/// a trigger that it set off, directly or by way of others. Runs take it back;
/// that it is left, as far as it came, is for comparison only.
#[derive(Clone, Copy, Debug, PartialEq, Eq)]
pub enum Failed {
    TakenBack,
    Left,
}

/// The answer of a run. `number` and `node` are 0 if it finished; `bytes` is
/// how much of the trace was written.
#[derive(Clone, Copy, Debug, PartialEq, Eq)]
pub enum Answer {
    Refused(Refusal),
    Ended {
        number: u32,
        node: u32,
        cost: u32,
        bytes: u32,
    },
}

impl Answer {
    pub fn number(&self) -> u32 {
        match *self {
            Answer::Refused(refusal) => refusal.number,
            Answer::Ended { number, .. } => number,
        }
    }
}

/// The answer of a run, why a test on labels stopped it, and what the stop took
/// back.
#[derive(Clone, Copy, Debug, PartialEq, Eq)]
pub struct Explained {
    pub answer: Answer,
    /// The places of the tested set that the set it had to lie within lacked at
    /// the stop. Empty for every answer but 25, 26, 27 and 29.
    pub lacking: Places,
    /// The places of the cells that are not as they were at the stop, as the
    /// posting that failed is taken back. No part of what the office is told.
    pub taken_back: Places,
}

impl Explained {
    fn refused(refusal: Refusal) -> Explained {
        Explained {
            answer: Answer::Refused(refusal),
            lacking: Places::EMPTY,
            taken_back: Places::EMPTY,
        }
    }

    /// The lowest of the places.
    pub fn place(&self) -> Option<usize> {
        self.lacking.members().next()
    }

    /// How many places there are.
    pub fn count(&self) -> usize {
        self.lacking.members().count()
    }
}

const REFUSED_1: Refusal = Refusal {
    number: 1,
    index: 0,
};

/// Sets the state at the start. A refusal leaves all of `memory` as it was.
pub fn load(file: &[u8], memory: &mut Memory) -> Result<Book, Refusal> {
    if !memory.is_accepted() {
        return Err(REFUSED_1);
    }
    let book = Book::decode(file)?;
    memory.set(&book);
    Ok(book)
}

/// Runs a book. A refusal leaves all of `memory` as it was.
pub fn run(file: &[u8], budget: u32, memory: &mut Memory, tests: Tests) -> Answer {
    carry_out(file, budget, memory, tests, Failed::TakenBack).answer
}

/// Runs a book in the same way, with labels, and tells why a test on them
/// stopped it.
pub fn explain(file: &[u8], budget: u32, memory: &mut Memory) -> Explained {
    carry_out(file, budget, memory, Tests::Labelled, Failed::TakenBack)
}

/// Runs a book, with the choices that `run` and `explain` make given.
pub fn carry_out(
    file: &[u8],
    budget: u32,
    memory: &mut Memory,
    tests: Tests,
    failed: Failed,
) -> Explained {
    if budget > MOST_BUDGET {
        return Explained::refused(REFUSED_1);
    }
    let book = match load(file, memory) {
        Ok(book) => book,
        Err(refusal) => return Explained::refused(refusal),
    };
    let mut interpreter = Interpreter::new(&book, memory, budget, tests, failed);
    let (number, node, lacking) = match interpreter.programs() {
        Ok(()) => (0, 0, Places::EMPTY),
        Err(Stop { number, node, flow }) => {
            let mut lacking = flow.tested;
            lacking.remove(&flow.bound);
            (number, u32::from(node), lacking)
        }
    };
    Explained {
        answer: Answer::Ended {
            number,
            node,
            cost: interpreter.cost(),
            bytes: interpreter.bytes() as u32,
        },
        lacking,
        taken_back: interpreter.taken_back(),
    }
}

/// Does `work` on a thread whose stack holds the deepest legal book. A usual
/// thread's stack does for books that nest less.
pub fn on_deep_stack<T: Send>(work: impl FnOnce() -> T + Send) -> T {
    thread::scope(|scope| {
        thread::Builder::new()
            .stack_size(DEEP_STACK)
            .spawn_scoped(scope, work)
            .expect("the system starts a thread")
            .join()
            .unwrap_or_else(|panic| std::panic::resume_unwind(panic))
    })
}

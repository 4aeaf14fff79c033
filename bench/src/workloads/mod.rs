//! The workloads. Each is one call on a book that is built here.

mod arithmetic;
mod cascades;
mod full;
mod postings;
mod queries;

use crate::sides::{Answer, Call};
use reference::book::Book;
use reference::builder::Builder;

const BUDGET: u32 = 1_000_000;

pub struct Workload {
    pub name: &'static str,
    pub file: Vec<u8>,
    pub call: Call,
    /// What the call must answer.
    pub answer: Answer,
}

pub fn all() -> [Workload; 11] {
    [
        run("arithmetic", arithmetic::book(), arithmetic::COST),
        run("queries", queries::book(), queries::COST),
        run("postings", postings::book(), postings::COST),
        cascades("cascades", cascades::TURNS),
        cascades("cascades-double", 2 * cascades::TURNS),
        run("smallest", smallest(), 2),
        Workload {
            name: "smallest-2",
            file: smallest_2().encode(),
            call: Call::Run { budget: BUDGET },
            answer: [0, 0, 0, 0],
        },
        reading("reading", full::book()),
        reading("reading-2", full::labelled()),
        // A written book has a seventh pair, whatever it is written from.
        writing("writing", full::book(), full::LENGTH + 4),
        writing("writing-2", full::labelled(), full::LABELLED_LENGTH),
    ]
}

fn reading(name: &'static str, book: Book) -> Workload {
    Workload {
        name,
        file: book.encode(),
        call: Call::Load,
        answer: [0, 0, 0, 0],
    }
}

fn writing(name: &'static str, book: Book, length: u32) -> Workload {
    Workload {
        name,
        file: book.encode(),
        call: Call::Write,
        answer: [0, 0, length, 0],
    }
}

/// A run that tells something once and finishes.
fn run(name: &'static str, book: Book, cost: u32) -> Workload {
    Workload {
        name,
        file: book.encode(),
        call: Call::Run { budget: BUDGET },
        answer: [0, 0, cost, 8],
    }
}

/// Cascades of writes, so many of them.
fn cascades(name: &'static str, turns: u32) -> Workload {
    run(name, cascades::book(turns), cascades::cost(turns))
}

/// What every run costs: one out of a constant.
fn smallest() -> Book {
    let mut builder = Builder::new();
    let one = builder.constant(1);
    let tell = builder.out(1, one);
    builder.program(0, tell);
    builder.book
}

/// Version 2 with no records at all: 40 bytes.
fn smallest_2() -> Book {
    Book {
        labels: Some(Vec::new()),
        ..Book::default()
    }
}

/// One command after another, at least one.
fn block(builder: &mut Builder, commands: &[u16]) -> u16 {
    let (&last, others) = commands.split_last().expect("a block has a command");
    let others = others.iter().rev();
    others.fold(last, |rest, &command| builder.then(command, rest))
}

/// Makes `variable` one more.
fn count_up(builder: &mut Builder, variable: u8) -> u16 {
    let one = builder.constant(1);
    let old = builder.variable(variable);
    let next = builder.operator(reference::book::kind::ADD, old, one);
    builder.assign(variable, next)
}

/// Runs `body` until variable 0, which it counts up, has reached `turns`.
fn repeat(builder: &mut Builder, turns: i32, body: u16) -> u16 {
    let turns = builder.constant(turns);
    let counter = builder.variable(0);
    let test = builder.operator(reference::book::kind::LESS, counter, turns);
    builder.repeat(test, body)
}

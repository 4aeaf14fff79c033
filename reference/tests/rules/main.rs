//! The rules of running, each on a small book with a result worked out by hand.

mod arithmetic;
#[path = "../common/mod.rs"]
mod common;
mod context;
mod cost;
mod labels;
mod nothing;
mod output;
mod programs;
mod rights;
mod taken_back;
mod triggers;
mod unlabelled;
mod writes;

use common::run_with;
use reference::book::{kind, Book};
use reference::builder::Builder;
use reference::places::place;
use reference::run::{Answer, Memory};

// Cells that most books here have, all in table 0 with owner 0. The line of
// each is also its place.
const A: u8 = 0;
const B: u8 = 1;
const C: u8 = 2;

/// Cells A = 1, B = 2 and C = 33; region t is the whole of table t; user 0 may
/// write everywhere.
fn three_cells() -> Builder {
    let mut b = Builder::new();
    b.cell(0, 0, A, 1);
    b.cell(0, 0, B, 2);
    b.cell(0, 0, C, 33);
    for table in 0..8 {
        let region = b.region(table, 0..=7, 0..=7);
        b.write(0, region);
    }
    b
}

/// The amount of one cell, as a sum over that cell alone; costs 8.
fn amount_of(b: &mut Builder, table: u8, owner: u8, line: u8) -> u16 {
    let owner = b.constant(owner.into());
    let line = b.constant(line.into());
    b.query(kind::SUM, table, [owner, owner, line, line])
}

/// A put with a constant key.
fn put_at(b: &mut Builder, table: u8, owner: u8, line: u8, amount: u16) -> u16 {
    let owner = b.constant(owner.into());
    let line = b.constant(line.into());
    b.put(table, owner, line, amount)
}

/// A clear with a constant key.
fn clear_at(b: &mut Builder, table: u8, owner: u8, line: u8) -> u16 {
    let owner = b.constant(owner.into());
    let line = b.constant(line.into());
    b.clear(table, owner, line)
}

/// If the condition is nonzero then the command, else nothing.
fn when(b: &mut Builder, condition: u16, command: u16) -> u16 {
    let skip = b.skip();
    b.choose(condition, command, skip)
}

/// A program of user 0 that runs these commands one after another.
fn program(b: &mut Builder, commands: &[u16]) {
    let root = commands
        .iter()
        .copied()
        .reduce(|first, second| b.then(first, second))
        .expect("a program has a command");
    b.program(0, root);
}

/// Runs with ample budget and trace.
fn run_amply(book: &Book) -> (Answer, Memory) {
    run_with(book, 100_000, 4_096)
}

/// Memory after a run that has to finish.
fn finish(book: &Book) -> Memory {
    let (answer, memory) = run_amply(book);
    assert!(
        matches!(answer, Answer::Ended { number: 0, .. }),
        "{answer:?}"
    );
    memory
}

/// The number and node of a run that has to stop.
fn stop(book: &Book) -> (u32, u16) {
    stop_of(run_amply(book).0)
}

fn stop_of(answer: Answer) -> (u32, u16) {
    match answer {
        Answer::Ended { number, node, .. } if number != 0 => (number, node as u16),
        _ => panic!("no stop but {answer:?}"),
    }
}

/// A cell after the run: its amount if present, and the places in its label.
fn cell(memory: &Memory, table: u8, owner: u8, line: u8) -> (Option<i32>, Vec<usize>) {
    let place = place(table, owner, line);
    let bit = |words: &[u64], place: usize| words[place / 64] >> (place % 64) & 1 == 1;
    let words = &memory.labels[8 * place..8 * place + 8];
    let label = (0..512).filter(|&member| bit(words, member)).collect();
    if bit(&memory.presence, place) {
        return (Some(memory.amounts[place]), label);
    }
    assert_eq!(memory.amounts[place], 0, "an absent cell's amount is 0");
    (None, label)
}

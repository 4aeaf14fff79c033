//! What several test programs share.

use reference::book::Book;
use reference::run::{run, Answer, Memory, Tests};

/// What lent memory holds before a run, so that a byte left alone shows.
pub const UNTOUCHED: u8 = 0xAA;

/// Runs a book, with labels, in memory full of older contents.
pub fn run_with(book: &Book, budget: u32, trace: usize) -> (Answer, Memory) {
    let mut memory = Memory {
        amounts: vec![-7; 512],
        presence: vec![0x5555; 8],
        labels: vec![0x3333; 4_096],
        trace: vec![UNTOUCHED; trace],
    };
    let answer = run(&book.encode(), budget, &mut memory, Tests::Labelled);
    (answer, memory)
}

/// An answer other than a refusal.
pub fn ended(number: u32, node: u16, cost: u32, bytes: u32) -> Answer {
    Answer::Ended {
        number,
        node: node.into(),
        cost,
        bytes,
    }
}

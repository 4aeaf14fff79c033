//! What a case comes to.

use super::Case;
use crate::case_lines::{digest_of_amounts, digest_of_bytes, digest_of_words, Draws};
use crate::run::{explain, run, Answer, Explained, Memory, Tests};
use std::fmt;

/// Digests of what is left in the lent memory.
#[derive(Clone, Copy, Debug, PartialEq, Eq)]
pub struct Left {
    pub amounts: u64,
    pub presence: u64,
    pub labels: u64,
    /// Of the whole trace buffer, not only of what was written.
    pub trace: u64,
}

/// What a run answers and leaves. As text, the first part of the line that a
/// case has to give.
#[derive(Clone, Copy, Debug, PartialEq, Eq)]
pub struct Outcome {
    pub answer: Answer,
    pub left: Left,
}

/// The same of an explained run. As text, the rest of the line.
#[derive(Clone, Copy, Debug, PartialEq, Eq)]
pub struct ExplainedOutcome {
    pub explained: Explained,
    pub left: Left,
}

impl Outcome {
    /// Runs the case's file.
    pub fn of(case: &Case) -> Outcome {
        let mut memory = drawn(case);
        let answer = run(&case.file, case.budget, &mut memory, Tests::Labelled);
        let left = Left::of(&memory);
        Outcome { answer, left }
    }
}

impl ExplainedOutcome {
    /// Runs the case's file to explain how it ends.
    pub fn of(case: &Case) -> ExplainedOutcome {
        let mut memory = drawn(case);
        let explained = explain(&case.file, case.budget, &mut memory);
        let left = Left::of(&memory);
        ExplainedOutcome { explained, left }
    }
}

impl Left {
    fn of(memory: &Memory) -> Left {
        Left {
            amounts: digest_of_amounts(&memory.amounts),
            presence: digest_of_words(&memory.presence),
            labels: digest_of_words(&memory.labels),
            trace: digest_of_bytes(&memory.trace),
        }
    }
}

impl fmt::Display for Left {
    fn fmt(&self, out: &mut fmt::Formatter) -> fmt::Result {
        let Left {
            amounts,
            presence,
            labels,
            trace,
        } = self;
        write!(out, "{amounts} {presence} {labels} {trace}")
    }
}

impl fmt::Display for Outcome {
    fn fmt(&self, out: &mut fmt::Formatter) -> fmt::Result {
        write!(out, "{} {}", numbers(&self.answer), self.left)
    }
}

impl fmt::Display for ExplainedOutcome {
    fn fmt(&self, out: &mut fmt::Formatter) -> fmt::Result {
        let explained = &self.explained;
        let numbers = numbers(&explained.answer);
        // One past the last place stands for none.
        let place = explained.place().unwrap_or(512);
        let count = explained.count();
        write!(out, "{numbers} {place} {count} {}", self.left)
    }
}

/// Number, node or index, cost and trace bytes of an answer.
fn numbers(answer: &Answer) -> String {
    let [number, at, cost, bytes] = match *answer {
        Answer::Refused(refusal) => [refusal.number, refusal.index, 0, 0],
        Answer::Ended {
            number,
            node,
            cost,
            bytes,
        } => [number, node, cost, bytes],
    };
    format!("{number} {at} {cost} {bytes}")
}

/// The memory that a case lends.
fn drawn(case: &Case) -> Memory {
    let mut draws = Draws::new(case.seed);
    Memory {
        amounts: draws.amounts(case.lent.amounts.into()),
        presence: draws.words(case.lent.presence.into()),
        labels: draws.words(case.lent.labels.into()),
        trace: draws.bytes(case.lent.trace as usize),
    }
}

//! A run as lines of text, and the book that it leaves for the next day.

use crate::book::Refusal;
use crate::run::{explain, run, Answer, Explained, Memory, Tests};
use crate::writer::written;
use std::fmt::Write;

const BUDGET: u32 = 100_000;
const TRACE: usize = 4_096;

/// The text for a book file: one line for each trace record, then one for how
/// the run ended.
pub fn run_list(file: &[u8]) -> String {
    let mut memory = Memory::new(TRACE);
    let answer = run(file, BUDGET, &mut memory, Tests::Labelled);
    lines(&answer, &memory.trace)
}

/// The same text, and a line for why a test on labels stopped the run.
pub fn explain_list(file: &[u8]) -> String {
    let mut memory = Memory::new(TRACE);
    let explained = explain(file, BUDGET, &mut memory);
    lines(&explained.answer, &memory.trace) + &reason(&explained)
}

/// The book for the next day: the file's own records with the cells and labels
/// that its run leaves, finished or stopped.
pub fn next_day(file: &[u8]) -> Result<Vec<u8>, Refusal> {
    let mut memory = Memory::new(TRACE);
    match run(file, BUDGET, &mut memory, Tests::Labelled) {
        Answer::Refused(refusal) => Err(refusal),
        Answer::Ended { .. } => written(file, &memory),
    }
}

fn reason(explained: &Explained) -> String {
    let place = match explained.place() {
        Some(place) => format!("{} {} {}", place / 64, place / 8 % 8, place % 8),
        None => "none".to_string(),
    };
    format!("place {place} count {}\n", explained.count())
}

/// The text for an answer and the trace buffer of its run.
pub fn lines(answer: &Answer, trace: &[u8]) -> String {
    match *answer {
        Answer::Refused(refusal) => format!("refused {} {}\n", refusal.number, refusal.index),
        Answer::Ended {
            number,
            node,
            cost,
            bytes,
        } => {
            let mut text = String::new();
            for record in trace[..bytes as usize].chunks_exact(8) {
                add_record(&mut text, record);
            }
            if number == 0 {
                add_line(&mut text, format_args!("done {cost}"));
            } else {
                add_line(&mut text, format_args!("stop {number} {node} {cost}"));
            }
            text
        }
    }
}

fn add_record(text: &mut String, record: &[u8]) {
    let (user, region) = (record[1], record[2]);
    let what = match record[0] {
        1 => {
            let amount = i32::from_le_bytes([record[4], record[5], record[6], record[7]]);
            return add_line(text, format_args!("out {user} {amount}"));
        }
        2 => "grant read",
        3 => "grant write",
        4 => "revoke read",
        _ => "revoke write",
    };
    add_line(text, format_args!("{what} {user} {region}"));
}

fn add_line(text: &mut String, line: std::fmt::Arguments) {
    writeln!(text, "{line}").expect("a string takes any text");
}

//! What a case comes to.

use super::{Case, Labels};
use crate::book::{Book, Refusal};
use crate::case_lines::{digest_of_amounts, digest_of_bytes, digest_of_words, Draws};
use crate::places::Places;
use crate::rights::Rights;
use crate::run::{load, Memory};
use crate::writer::{write, Written};
use std::fmt;

// What lent memory holds at first, so that whatever is left alone shows.
const AMOUNT: i32 = 7;
const PRESENCE: u64 = 5;
const LABEL: u64 = 3;
const OUTPUT: u8 = 165;

/// The answers of the loader and the writer, and digests of what they leave in
/// the lent memory. As text, the line that a case has to give.
#[derive(Clone, Copy, Debug, PartialEq, Eq)]
pub struct Outcome {
    /// The loader's refusal; none if it accepted.
    pub refusal: Option<Refusal>,
    pub amounts: u64,
    pub presence: u64,
    pub labels: u64,
    /// The public set, the read sets by user, then the write sets; 0 after a
    /// refusal.
    pub rights: u64,
    pub written: Written,
    pub output: u64,
}

impl Outcome {
    /// Loads the case's file, and then writes it.
    pub fn of(case: &Case) -> Outcome {
        let mut memory = Memory {
            amounts: vec![AMOUNT; case.lent.amounts.into()],
            presence: vec![PRESENCE; case.lent.presence.into()],
            labels: vec![LABEL; case.lent.labels.into()],
            trace: Vec::new(),
        };
        let loaded = load(&case.file, &mut memory);
        let mut output = vec![OUTPUT; case.lent.output as usize];
        let Memory {
            amounts,
            presence,
            labels,
            ..
        } = to_write(case, &memory);
        let written = write(&case.file, &amounts, &presence, &labels, &mut output);
        Outcome {
            refusal: loaded.as_ref().err().copied(),
            amounts: digest_of_amounts(&memory.amounts),
            presence: digest_of_words(&memory.presence),
            labels: digest_of_words(&memory.labels),
            rights: loaded.as_ref().map_or(0, rights),
            written,
            output: digest_of_bytes(&output),
        }
    }
}

impl fmt::Display for Outcome {
    fn fmt(&self, out: &mut fmt::Formatter) -> fmt::Result {
        let (number, index) = self.refusal.map_or((0, 0), |r| (r.number, r.index));
        let (refused, value) = match self.written {
            Written::Refused(refusal) => (refusal.number, refusal.index),
            Written::Length(length) => (0, length),
        };
        let Outcome {
            amounts,
            presence,
            labels,
            rights,
            output,
            ..
        } = self;
        write!(
            out,
            "{number} {index} {amounts} {presence} {labels} {rights} {refused} {value} {output}"
        )
    }
}

/// The cells and labels to write: as many as are lent, from the seed; or those
/// loaded.
fn to_write(case: &Case, loaded: &Memory) -> Memory {
    let mut memory = loaded.clone();
    if case.seed == 0 {
        return memory;
    }
    let mut draws = Draws::new(case.seed);
    memory.amounts = draws.amounts(case.lent.amounts.into());
    memory.presence = draws.words(case.lent.presence.into());
    match case.labels {
        Labels::Left => {}
        Labels::Drawn => memory.labels = draws.words(case.lent.labels.into()),
        Labels::FewDrawn => draws.few_labels(&mut memory.labels),
    }
    memory
}

fn rights(book: &Book) -> u64 {
    let rights = Rights::at_start(book);
    let sets = [&[rights.public][..], &rights.readable, &rights.writable].concat();
    let words: Vec<u64> = sets.iter().flat_map(|Places(words)| *words).collect();
    digest_of_words(&words)
}

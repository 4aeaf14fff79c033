//! Cases for the reader, loader and writer of book files, and what each comes
//! to, so that another implementation can be compared.

mod base;
mod bodies;
mod indexes;
mod labels;
mod lengths;
mod lent;
mod nodes;
mod order;
mod outcome;
mod records;
mod sample;
mod sections;
mod start;
mod trailer;
mod versions;

pub use outcome::Outcome;

use crate::case_lines::{Entry, Task};

/// Lengths of lent memory.
#[derive(Clone, Copy, Debug, PartialEq, Eq)]
pub struct Lent {
    pub amounts: u16,
    pub presence: u16,
    pub labels: u16,
    pub output: u32,
}

impl Lent {
    /// Lengths that both the loader and the writer accept.
    pub const ACCEPTED: Lent = Lent {
        amounts: 512,
        presence: 8,
        labels: 4_096,
        output: 60_000,
    };
}

/// Which labels are written where the seed is not 0.
#[derive(Clone, Copy, Debug, PartialEq, Eq)]
pub enum Labels {
    /// Those left by the loader.
    Left,
    /// All drawn.
    Drawn,
    /// Those left by the loader, of which some are changed.
    FewDrawn,
}

/// A file to load, and then to write with other cells and labels or its own.
#[derive(Clone, Debug, PartialEq, Eq)]
pub struct Case {
    pub file: Vec<u8>,
    pub lent: Lent,
    /// What the cells to write are drawn from; 0 for those left by the loader.
    pub seed: u32,
    pub labels: Labels,
}

impl Case {
    /// A file with the right lengths lent.
    fn ample(file: Vec<u8>, seed: u32, labels: Labels) -> Case {
        Case {
            file,
            lent: Lent::ACCEPTED,
            seed,
            labels,
        }
    }

    fn task(&self) -> Task {
        match self.labels {
            Labels::Left => Task::LoadAndWrite,
            Labels::Drawn => Task::WriteLabels,
            Labels::FewDrawn => Task::WriteFewLabels,
        }
    }
}

/// All cases, the same at every call.
pub fn all() -> Vec<Case> {
    let mut cases = lent::cases();
    for (number, file) in version_1().into_iter().enumerate() {
        let seed = if number % 2 == 0 { 0 } else { number as u32 };
        cases.push(Case::ample(file, seed, Labels::Left));
    }
    cases.extend(sample::cases());
    cases.extend(lent::cases_of_version_2());
    for (number, file) in version_2().into_iter().enumerate() {
        let seed = if number % 3 == 0 { 0 } else { number as u32 };
        let labels = [Labels::Left, Labels::Drawn, Labels::FewDrawn][number % 7 % 3];
        cases.push(Case::ample(file, seed, labels));
    }
    cases.extend(labels::written());
    cases.extend(sample::cases_of_version_2());
    cases
}

/// Files that were accepted or refused before there was a version 2.
fn version_1() -> Vec<Vec<u8>> {
    [
        lengths::files(),
        trailer::files(),
        sections::files(),
        records::files(),
        nodes::files(),
        bodies::files(),
        order::files(),
        indexes::files(),
        start::files(),
    ]
    .concat()
}

fn version_2() -> Vec<Vec<u8>> {
    [
        versions::files(),
        labels::files(),
        order::files_of_version_2(),
    ]
    .concat()
}

/// The stream of these cases.
pub fn stream(cases: &[Case]) -> Vec<u8> {
    let entry = |case: &Case| {
        let lent = case.lent;
        Entry {
            file: &case.file,
            budget: 0,
            bytes: lent.output,
            cells: [lent.amounts, lent.presence, lent.labels],
            task: case.task(),
            seed: case.seed,
        }
        .encode()
    };
    cases.iter().flat_map(entry).collect()
}

/// What each case comes to, one line a case.
pub fn answers(cases: &[Case]) -> String {
    cases
        .iter()
        .map(|case| format!("{}\n", Outcome::of(case)))
        .collect()
}

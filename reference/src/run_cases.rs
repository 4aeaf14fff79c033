//! Cases for runners of books, and what each comes to, so that another
//! implementation can be compared.

mod contexts;
mod deep;
mod explanations;
mod files;
mod firing;
mod full_traces;
mod labels;
mod lent;
mod limits;
mod nothing;
mod office;
mod outcome;
mod remembered;
mod rights;
mod sample;
mod scripts;
mod second_days;
mod stops;
mod succession;
mod sweeps;
mod taken_back;
mod values;
mod views;

pub use outcome::{ExplainedOutcome, Outcome};

use crate::case_lines::{Entry, Task};
use crate::run::Answer;

/// Lengths of lent memory.
#[derive(Clone, Copy, Debug, PartialEq, Eq)]
pub struct Lent {
    pub amounts: u16,
    pub presence: u16,
    pub labels: u16,
    pub trace: u32,
}

impl Lent {
    /// Lengths that a run accepts, with this much trace.
    pub const fn with_trace(trace: u32) -> Lent {
        Lent {
            amounts: 512,
            presence: 8,
            labels: 4_096,
            trace,
        }
    }
}

/// A file to run.
#[derive(Clone, Debug, PartialEq, Eq)]
pub struct Case {
    pub file: Vec<u8>,
    pub budget: u32,
    pub lent: Lent,
    /// What all that is lent is drawn from, so that whatever is left alone
    /// shows.
    pub seed: u32,
}

impl Case {
    /// A file with more budget and trace than a short script needs.
    fn ample(file: Vec<u8>) -> Case {
        Case {
            file,
            budget: 2_000,
            lent: Lent::with_trace(200),
            seed: 0,
        }
    }

    fn with_budget(self, budget: u32) -> Case {
        Case { budget, ..self }
    }

    fn with_trace(self, trace: u32) -> Case {
        let lent = Lent::with_trace(trace);
        Case { lent, ..self }
    }

    /// The cost and the trace bytes of its run.
    fn spent(&self) -> (u32, u32) {
        match Outcome::of(self).answer {
            Answer::Ended { cost, bytes, .. } => (cost, bytes),
            Answer::Refused(_) => (0, 0),
        }
    }
}

/// All cases, the same at every call. Each has its number as its seed.
pub fn all() -> Vec<Case> {
    let first_days = first_days();
    let second_days = second_days::cases(&first_days);
    let mut cases = [first_days, second_days].concat();
    for (number, case) in cases.iter_mut().enumerate() {
        case.seed = number as u32;
    }
    cases
}

/// The cases whose files are made for them, and not left by another.
fn first_days() -> Vec<Case> {
    [
        lent::cases(),
        files::cases(),
        limits::cases(),
        full_traces::cases(),
        values::cases(),
        labels::cases(),
        contexts::cases(),
        stops::cases(),
        sweeps::cases(),
        firing::cases(),
        views::cases(),
        rights::cases(),
        succession::cases(),
        sample::cases(),
        deep::cases(),
        explanations::cases(),
        taken_back::cases(),
        nothing::cases(),
        remembered::cases(),
        sample::cases_of_version_2(),
    ]
    .concat()
}

/// The stream of these cases.
pub fn stream(cases: &[Case]) -> Vec<u8> {
    let entry = |case: &Case| {
        let lent = case.lent;
        Entry {
            file: &case.file,
            budget: case.budget,
            bytes: lent.trace,
            cells: [lent.amounts, lent.presence, lent.labels],
            task: Task::Run,
            seed: case.seed,
        }
        .encode()
    };
    cases.iter().flat_map(entry).collect()
}

/// What each case comes to, one line a case. Some cases need a deep stack.
pub fn answers(cases: &[Case]) -> String {
    cases
        .iter()
        .map(|case| format!("{} {}\n", Outcome::of(case), ExplainedOutcome::of(case)))
        .collect()
}

//! Second days: books that the writer makes of what other runs left, finished or
//! stopped. Some of them are run for a third day.

use super::Case;
use crate::generate;
use crate::random::Random;
use crate::run::{run, Answer, Memory, Tests};
use crate::writer::written;

/// Longer files are left out, to keep the stream short.
const LONGEST: usize = 1_500;

/// Of the first days whose run leaves labels, one in so many has a second.
const STEP: usize = 7;

pub(super) fn cases(first_days: &[Case]) -> Vec<Case> {
    let mut cases: Vec<Case> = first_days
        .iter()
        .filter(|case| case.file.len() <= LONGEST && case.budget <= 2_000)
        .filter_map(|case| next_day(&case.file, case))
        .step_by(STEP)
        .collect();
    cases.extend((0..).filter_map(after_a_day).take(250));
    let third: Vec<Case> = cases
        .iter()
        .step_by(4)
        .filter_map(|case| next_day(&case.file, case))
        .collect();
    [cases, third].concat()
}

/// The file with the cells and labels that the run of a case leaves. None if
/// these are all own places, or the file is long.
fn next_day(file: &[u8], before: &Case) -> Option<Case> {
    let mut memory = Memory::new(before.lent.trace as usize);
    let Answer::Ended { .. } = run(&before.file, before.budget, &mut memory, Tests::Labelled)
    else {
        return None;
    };
    let book = written(file, &memory).ok()?;
    // Where the number of label records stands.
    let count = [book[book.len() - 38], book[book.len() - 37]];
    (book.len() <= LONGEST && count != [0, 0]).then(|| Case::ample(book))
}

/// A second day with scripts of its own, on the cells of the first.
fn after_a_day(seed: u64) -> Option<Case> {
    let mut random = Random::new((10 << 32) + seed);
    let days = generate::days(&mut random, 2);
    next_day(&days[1].encode(), &Case::ample(days[0].encode()))
}

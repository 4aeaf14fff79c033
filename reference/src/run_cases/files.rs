//! Files of the format cases: accepted and refused in every way. The answer of
//! a run is held against them as the loader's is.

use super::Case;
use crate::format_cases;

/// Of the files of usual length, one in so many is taken.
const STEP: usize = 5;
const USUAL: usize = 400;

pub(super) fn cases() -> Vec<Case> {
    let files = format_cases::all().into_iter().map(|case| case.file);
    let (usual, mut long): (Vec<_>, Vec<_>) = files.partition(|file| file.len() <= USUAL);
    let taken = usual.into_iter().step_by(STEP);
    let mut cases: Vec<Case> = taken.map(Case::ample).collect();
    long.retain(|file| file.len() > 21_000);
    long.dedup();
    cases.extend(long.into_iter().map(Case::ample));
    cases
}

//! Random books, unharmed and damaged.

use super::Case;
use crate::generate;
use crate::random::Random;

/// Longer files are left out, with few exceptions, to keep the stream short.
const LONGEST: usize = 700;
const LONGEST_2: usize = 1_300;

pub(super) fn cases() -> Vec<Case> {
    let mut cases: Vec<Case> = (0..).filter_map(unharmed).take(1_000).collect();
    cases.extend((0..).filter_map(large).take(30));
    cases.extend((0..).filter_map(damaged).take(200));
    cases
}

/// Books of either version.
pub(super) fn cases_of_version_2() -> Vec<Case> {
    let mut cases: Vec<Case> = (0..).filter_map(of_either_version).take(500).collect();
    cases.extend((0..).filter_map(damaged_of_either_version).take(150));
    cases
}

// Each has other seeds than those of the format cases.

fn of_either_version(seed: u64) -> Option<Case> {
    let mut random = Random::new((8 << 32) + seed);
    let file = generate::of_either_version(&mut random).encode();
    (file.len() <= LONGEST_2).then(|| case(&mut random, file))
}

fn damaged_of_either_version(seed: u64) -> Option<Case> {
    let mut random = Random::new((9 << 32) + seed);
    let book = generate::of_either_version(&mut random);
    let file = generate::damaged(&mut random, &book);
    (file.len() <= LONGEST_2).then(|| case(&mut random, file))
}

fn unharmed(seed: u64) -> Option<Case> {
    let mut random = Random::new((3 << 32) + seed);
    let file = generate::book(&mut random).encode();
    (file.len() <= LONGEST).then(|| case(&mut random, file))
}

fn large(seed: u64) -> Option<Case> {
    let mut random = Random::new((4 << 32) + seed);
    let file = generate::book(&mut random).encode();
    (2_000..6_000)
        .contains(&file.len())
        .then(|| Case::ample(file).with_budget(20_000).with_trace(4_096))
}

fn damaged(seed: u64) -> Option<Case> {
    let mut random = Random::new((5 << 32) + seed);
    let book = generate::book(&mut random);
    let file = generate::damaged(&mut random, &book);
    (file.len() <= LONGEST).then(|| case(&mut random, file))
}

/// The file with ample budget and trace, or with little of one of them.
fn case(random: &mut Random, file: Vec<u8>) -> Case {
    let case = Case::ample(file);
    match random.below(10) {
        0..=1 => case.with_budget(random.below(150) as u32),
        2 => case.with_trace(random.below(33) as u32),
        _ => case,
    }
}

//! Random books, unharmed and damaged.

use super::sections::swapped;
use super::{Case, Labels};
use crate::generate;
use crate::random::Random;

/// Longer files are left out, with few exceptions, to keep the stream short.
const LONGEST: usize = 400;
const LONGEST_2: usize = 1_000;

pub(super) fn cases() -> Vec<Case> {
    let mut cases: Vec<Case> = (0..).filter_map(unharmed).take(300).collect();
    cases.extend((0..).filter_map(large).take(12));
    cases.extend((0..).filter_map(damaged).take(600));
    cases
}

/// Books of either version, with labels of the writer's own or drawn.
pub(super) fn cases_of_version_2() -> Vec<Case> {
    let mut cases: Vec<Case> = (0..).filter_map(of_either_version).take(300).collect();
    cases.extend((0..).filter_map(damaged_of_either_version).take(500));
    cases
}

fn of_either_version(seed: u64) -> Option<Case> {
    let mut random = Random::new((6 << 32) + seed);
    let file = generate::of_either_version(&mut random).encode();
    (file.len() <= LONGEST_2).then(|| labelled_case(&mut random, file))
}

fn damaged_of_either_version(seed: u64) -> Option<Case> {
    let mut random = Random::new((7 << 32) + seed);
    let book = generate::of_either_version(&mut random);
    let file = generate::damaged(&mut random, &book);
    (file.len() <= LONGEST_2).then(|| labelled_case(&mut random, file))
}

fn labelled_case(random: &mut Random, file: Vec<u8>) -> Case {
    let labels = random.pick(&[Labels::Left, Labels::Drawn, Labels::FewDrawn]);
    Case {
        labels,
        ..case(random, file)
    }
}

fn unharmed(seed: u64) -> Option<Case> {
    let mut random = Random::new(seed);
    let file = generate::book(&mut random).encode();
    (file.len() <= LONGEST).then(|| case(&mut random, file))
}

fn large(seed: u64) -> Option<Case> {
    let mut random = Random::new(seed);
    let file = generate::book(&mut random).encode();
    (2_000..6_000)
        .contains(&file.len())
        .then(|| case(&mut random, file))
}

fn damaged(seed: u64) -> Option<Case> {
    // Other seeds than those of the unharmed books.
    let mut random = Random::new((1 << 32) + seed);
    let book = generate::book(&mut random);
    let file = if random.chance(10) {
        swapped(&book, random.below(6), random.below(6))
    } else {
        generate::damaged(&mut random, &book)
    };
    (file.len() <= LONGEST).then(|| case(&mut random, file))
}

/// The file with right lengths lent, and cells drawn from any seed or loaded.
fn case(random: &mut Random, file: Vec<u8>) -> Case {
    let seed = match random.chance(75) {
        true => random.word() as u32,
        false => 0,
    };
    Case::ample(file, seed, Labels::Left)
}

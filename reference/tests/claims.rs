//! What holds of every book, tried on many random ones. Seeds are fixed; a
//! failure prints its seed and the books.

mod support;

use reference::book::Refusal;
use reference::generate;
use reference::random::Random;
use reference::run::{explain, on_deep_stack, run, Answer, Tests};
use std::ops::Range;
use support::chains::{Chains, Counts};
use support::coverage::Coverage;
use support::pairs::Pairs;
use support::postings::Postings;
use support::reasons::Reasons;
use support::singles::Singles;
use support::{is_for_labels, Lent};

/// Books to be paired and single books for each test function. There are four of
/// each, so that two processors can share them.
const PAIRED: u64 = 60_000;
const SINGLES: u64 = 52_000;

/// Pairs for each test function of which a test on labels stops at least one:
/// 200,000 in all four.
const PAIRS_STOPPED_FOR_LABELS: usize = 50_000;

/// Pairs for each test function of which at least one takes a posting back:
/// 200,000 in all four too.
const PAIRS_THAT_TOOK_BACK: usize = 50_000;

/// Pairs for each test function of which at least one asks for the smallest or
/// largest of nothing: 200,000 in all four again. In one in five of these, at least, only
/// one does.
const PAIRS_OF_NOTHING: usize = 50_000;
const PAIRS_OF_NOTHING_ONCE: usize = 10_000;

/// Books of either version to be paired.
const VERSIONED: u64 = 40_000;

/// First days for each test function, of which there are two, and pairs of
/// chains of these with label records to read on a later day and first days that
/// differ: 200,000 in both.
const CHAINS: u64 = 76_000;
const CHAINS_THAT_REMEMBER: usize = 100_000;

/// Tries every seed; then tells how many failed, and the first of them whole.
fn try_seeds(seeds: Range<u64>, mut check: impl FnMut(u64) -> Result<(), String>) {
    let mut failures = 0;
    let mut first = String::new();
    for seed in seeds {
        let Err(what) = check(seed) else { continue };
        failures += 1;
        if failures == 1 {
            first = format!("seed {seed}: {what}");
        }
    }
    assert_eq!(failures, 0, "the first of {failures} failures: {first}");
}

/// Each kind of node is in at least an eighth of the books, and each answer
/// comes from at least one run in 150.
fn demand_coverage(coverage: &Coverage) {
    let runs = coverage.runs;
    coverage.demand(runs / 8, runs / 150);
    assert!(coverage.answers[0] > runs / 4, "{coverage:?}");
    assert!(coverage.with_trace > runs / 3, "{coverage:?}");
    assert!(coverage.with_writes > runs / 3, "{coverage:?}");
    assert!(coverage.with_nests > runs / 8, "{coverage:?}");
}

/// What a group sees does not depend on cells outside its reach.
fn demand_3(part: u64) {
    on_deep_stack(|| {
        let mut pairs = Pairs::new();
        try_seeds(part * PAIRED..(part + 1) * PAIRED, |seed| pairs.check(seed));
        demand_coverage(&pairs.coverage);
        let count = pairs.coverage.runs;
        assert!(pairs.finished_with_trace > count / 8);
        assert!(pairs.stopped_with_trace > count / 12);
        assert!(pairs.diverged > count / 70);
        let (tried, for_labels) = (pairs.tried, pairs.stopped_for_labels);
        let (taken_back, of_nothing) = (pairs.taken_back, pairs.of_nothing);
        let once = pairs.of_nothing_once;
        println!("{tried} pairs, of which {for_labels} stopped for labels");
        println!("{taken_back} of them took a posting back");
        println!("{of_nothing} asked for the smallest or largest of nothing, {once} in one book");
        assert!(for_labels >= PAIRS_STOPPED_FOR_LABELS);
        assert!(taken_back >= PAIRS_THAT_TOOK_BACK);
        assert!(of_nothing >= PAIRS_OF_NOTHING);
        assert!(once >= PAIRS_OF_NOTHING_ONCE);
    });
}

/// The same of books of either version, that may start with other labels in what
/// the group cannot reach.
#[test]
fn demand_3_of_versions() {
    on_deep_stack(|| {
        let mut pairs = Pairs::new();
        // Other seeds than all others here.
        let first = 4 << 32;
        try_seeds(first..first + VERSIONED, |seed| pairs.check_versions(seed));
        let (tried, versions, relabelled) = (pairs.tried, pairs.versions, pairs.relabelled);
        println!("{tried} pairs, by version {versions:?}, {relabelled} with other labels");
        assert!(versions.iter().all(|&count| count >= 2_000));
        assert!(relabelled >= 15_000);
        assert!(pairs.finished_with_trace > tried / 20);
        assert!(pairs.stopped_for_labels > tried / 8);
    });
}

/// What a group sees of a chain of days does not depend on cells outside the
/// reach of all these days.
fn demand_3_over_days(part: u64) {
    on_deep_stack(|| {
        let mut chains = Chains::new();
        // Other seeds again.
        let first = (5 << 32) + part * CHAINS;
        try_seeds(first..first + CHAINS, |seed| chains.check(seed));
        let counts = chains.counts;
        println!("{counts:?}");
        demand_chains(&counts);
    });
}

fn demand_chains(counts: &Counts) {
    let tried = counts.tried;
    assert!(
        counts.read_and_differing >= CHAINS_THAT_REMEMBER,
        "{counts:?}"
    );
    assert!(counts.second_days >= CHAINS_THAT_REMEMBER / 2, "{counts:?}");
    assert!(counts.mixed_versions > tried / 20, "{counts:?}");
    assert!(counts.finished > tried / 10, "{counts:?}");
    assert!(counts.finished_with_later_trace > tried / 40, "{counts:?}");
    assert!(counts.refused > tried / 100, "{counts:?}");
    assert!(
        counts.lengths[1..].iter().all(|&count| count > tried / 100),
        "{counts:?}"
    );
    // 25, 26, 27 and 29 are tests on labels.
    for number in [0, 1, 2, 4] {
        assert!(counts.later_stops[number] > tried / 400, "{counts:?}");
    }
}

#[test]
fn demand_3_over_days_part_0() {
    demand_3_over_days(0);
}

#[test]
fn demand_3_over_days_part_1() {
    demand_3_over_days(1);
}

/// The tests on labels only ever stop a run; budget and trace only cut it off.
fn demand_2(part: u64) {
    on_deep_stack(|| {
        let mut singles = Singles::new();
        // Other seeds than those of the pairs.
        let first = (1 << 32) + part * SINGLES;
        try_seeds(first..first + SINGLES, |seed| singles.check(seed));
        demand_coverage(&singles.coverage);
        assert!(singles.triggers_ran > singles.without_triggers / 6);
        assert!(singles.without_triggers > singles.coverage.runs / 40);
    });
}

#[test]
fn demand_3_part_0() {
    demand_3(0);
}

#[test]
fn demand_3_part_1() {
    demand_3(1);
}

#[test]
fn demand_3_part_2() {
    demand_3(2);
}

#[test]
fn demand_3_part_3() {
    demand_3(3);
}

#[test]
fn demand_2_part_0() {
    demand_2(0);
}

#[test]
fn demand_2_part_1() {
    demand_2(1);
}

#[test]
fn demand_2_part_2() {
    demand_2(2);
}

#[test]
fn demand_2_part_3() {
    demand_2(3);
}

/// The place that an explanation names is a true reason.
#[test]
fn reasons_are_true() {
    on_deep_stack(|| {
        let mut reasons = Reasons::default();
        // Other seeds than those of the pairs and of the single books.
        let first = 2 << 32;
        try_seeds(first..first + 20_000, |seed| reasons.check(seed));
        assert!(reasons.made_public >= 1_500, "{reasons:?}");
        assert!(reasons.in_memory >= 1_500, "{reasons:?}");
        assert!(reasons.told >= 2_000, "{reasons:?}");
    });
}

/// Taking a posting back changes cells of stopped runs and nothing else, and
/// leaves the cells as they were before the posting.
#[test]
fn postings_are_taken_back_whole() {
    on_deep_stack(|| {
        let mut postings = Postings::default();
        // Other seeds than those above.
        let first = 3 << 32;
        try_seeds(first..first + 20_000, |seed| postings.check(seed));
        println!("{postings:?}");
        assert!(postings.finished >= 5_000, "{postings:?}");
        assert!(postings.stopped >= 5_000, "{postings:?}");
        assert!(postings.taken_back >= 4_000, "{postings:?}");
        assert!(postings.cut_short >= 3_500, "{postings:?}");
    });
}

/// Explaining answers and leaves what running does.
#[test]
fn explaining_is_running() {
    on_deep_stack(|| {
        let mut numbers = [0; 33];
        try_seeds(0..20_000, |seed| {
            let mut random = Random::new(seed);
            let mut lent = Lent::new();
            let (file, budget) = match random.chance(50) {
                true => often_refused(&mut random, &mut lent),
                false => ample(&mut random, &mut lent),
            };
            let mut memory = lent.memory.clone();
            let answer = run(&file, budget, &mut lent.memory, Tests::Labelled);
            let explained = explain(&file, budget, &mut memory);
            if explained.answer != answer || memory != lent.memory {
                return Err(format!("{explained:?} after {answer:?}"));
            }
            numbers[answer.number() as usize] += 1;
            match explained.place().is_some() == is_for_labels(answer.number()) {
                true => Ok(()),
                false => Err(format!("{explained:?}")),
            }
        });
        for number in (0..=10).chain(21..=32) {
            let count = numbers[number];
            assert!(count >= 20, "answer {number} came {count} times");
        }
    });
}

/// A book's file and budget, and memory that is lent to it, now and then with
/// little trace.
fn ample(random: &mut Random, lent: &mut Lent) -> (Vec<u8>, u32) {
    let trace = random.pick(&[500, 500, 500, 20]);
    lent.soil(random, trace);
    (generate::often_failing(random).encode(), 2_500)
}

/// The same, where the file is damaged and a length or the budget may be off.
fn often_refused(random: &mut Random, lent: &mut Lent) -> (Vec<u8>, u32) {
    let book = generate::of_either_version(random);
    let file = generate::damaged(random, &book);
    lent.soil(random, 64);
    // A book that is accepted after all need not run far.
    let budget = random.pick(&[100, 100, 1_000_001]);
    match random.below(20) {
        0 => lent.memory.amounts.truncate(511),
        1 => lent.memory.presence.push(0),
        2 => lent.memory.labels.truncate(4_088),
        3 => lent.memory.trace.resize(65_537, 7),
        _ => {}
    }
    (file, budget)
}

/// A refused file, length or budget leaves all that was lent as it was.
#[test]
fn refusals_leave_memory_alone() {
    let mut numbers = [0; 33];
    try_seeds(0..20_000, |seed| {
        let mut lent = Lent::new();
        let (file, budget) = often_refused(&mut Random::new(seed), &mut lent);
        let before = lent.memory.clone();
        let answer = run(&file, budget, &mut lent.memory, Tests::Labelled);
        match answer {
            Answer::Refused(refusal) if lent.memory != before => {
                return Err(format!("memory changed: {refusal:?}"));
            }
            Answer::Refused(Refusal { number, .. }) => numbers[number as usize] += 1,
            Answer::Ended { .. } => {}
        }
        Ok(())
    });
    for number in (1..=10).chain([32]) {
        let count = numbers[number];
        assert!(count >= 40, "refusal {number} came {count} times");
    }
}

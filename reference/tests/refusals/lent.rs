//! Refusal 1, and that a refusal changes nothing lent.

use crate::sound;
use reference::book::Refusal;
use reference::run::{run, Answer, Memory, Tests};

const REFUSED_1: Answer = Answer::Refused(Refusal {
    number: 1,
    index: 0,
});

/// Lent memory of these lengths with older contents.
fn memory(amounts: usize, presence: usize, labels: usize, trace: usize) -> Memory {
    Memory {
        amounts: vec![-5; amounts],
        presence: vec![0x1234; presence],
        labels: vec![0x5678; labels],
        trace: vec![0x9A; trace],
    }
}

/// The answer, after checking that memory changes exactly if there is a run.
fn answer(file: &[u8], budget: u32, mut memory: Memory, tests: Tests) -> Answer {
    let before = memory.clone();
    let answer = run(file, budget, &mut memory, tests);
    let refused = matches!(answer, Answer::Refused(_));
    assert_eq!(memory == before, refused);
    answer
}

#[test]
fn lent_lengths_are_exact() {
    let file = sound().encode();
    for tests in [Tests::Labelled, Tests::Unlabelled] {
        for lent in [
            memory(511, 8, 4_096, 64),
            memory(513, 8, 4_096, 64),
            memory(0, 8, 4_096, 64),
            memory(512, 7, 4_096, 64),
            memory(512, 9, 4_096, 64),
            memory(512, 8, 4_095, 64),
            memory(512, 8, 4_097, 64),
            memory(512, 8, 4_096, 65_537),
        ] {
            assert_eq!(answer(&file, 100, lent, tests), REFUSED_1);
        }
    }
}

#[test]
fn trace_and_budget_may_be_at_their_bounds() {
    let file = sound().encode();
    for trace in [0, 65_536] {
        for budget in [0, 1_000_000] {
            let lent = memory(512, 8, 4_096, trace);
            let answer = answer(&file, budget, lent, Tests::Labelled);
            assert!(matches!(answer, Answer::Ended { .. }));
        }
    }
}

#[test]
fn budget_ends_at_a_million() {
    let file = sound().encode();
    for budget in [1_000_001, u32::MAX] {
        let lent = memory(512, 8, 4_096, 64);
        assert_eq!(answer(&file, budget, lent, Tests::Labelled), REFUSED_1);
    }
}

#[test]
fn refusal_1_comes_before_the_file() {
    let lent = memory(512, 8, 4_096, 64);
    assert_eq!(answer(&[], 1_000_001, lent, Tests::Labelled), REFUSED_1);
    let lent = memory(512, 8, 0, 64);
    assert_eq!(answer(&[], 0, lent, Tests::Labelled), REFUSED_1);
}

#[test]
fn a_refused_file_changes_nothing() {
    let mut file = sound().encode();
    file[171] = 1;
    let refused = Answer::Refused(Refusal {
        number: 10,
        index: 0,
    });
    for tests in [Tests::Labelled, Tests::Unlabelled] {
        let lent = memory(512, 8, 4_096, 64);
        assert_eq!(answer(&file, 100, lent, tests), refused);
    }
    let refused = Answer::Refused(Refusal {
        number: 2,
        index: 0,
    });
    let lent = memory(512, 8, 4_096, 64);
    assert_eq!(answer(&file[1..], 100, lent, Tests::Labelled), refused);
}

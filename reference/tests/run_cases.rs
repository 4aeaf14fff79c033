//! The cases for runners of books: their stream, their lines, and that they meet
//! enough.

#[path = "common/commands.rs"]
mod commands;
#[path = "run_cases/nothing.rs"]
mod nothing;
#[path = "run_cases/reasons.rs"]
mod reasons;
#[path = "run_cases/taken_back.rs"]
mod taken_back;
#[path = "common/w.rs"]
mod w;

use nothing::Nothing;
use reasons::Reasons;
use reference::book::{kind, Book, Refusal};
use reference::run::{on_deep_stack, Answer};
use reference::run_cases::{all, answers, stream, Case, Lent, Outcome};
use std::collections::{BTreeMap, BTreeSet};
use taken_back::TakenBack;
use w::book_w;

fn case_w(budget: u32, lent: Lent, seed: u32) -> Case {
    Case {
        file: book_w().encode(),
        budget,
        lent,
        seed,
    }
}

#[test]
fn a_case_is_a_header_and_the_file() {
    let lent = Lent {
        amounts: 0x0201,
        presence: 3,
        labels: 0x0504,
        trace: 0x0001_0203,
    };
    let case = case_w(0x0D0C_0B0A, lent, 0xFF06);
    let bytes = stream(&[case, case_w(0, lent, 0)]);
    let header = [
        224, 0, 0, 0, 10, 11, 12, 13, 3, 2, 1, 0, 1, 2, 3, 0, 4, 5, 0, 0, 6, 255, 0, 0,
    ];
    assert_eq!(bytes[..24], header);
    assert_eq!(bytes[24..248], book_w().encode());
    assert_eq!(bytes.len(), 496);
}

/// What a line has of the run was worked out by a program that shares nothing
/// with this one. The explained run answers and leaves the same. Owner 2's eight
/// lines, from place 16 on, are what user 1 may not read.
#[test]
fn lines_of_book_w() {
    let wrong = Lent {
        amounts: 513,
        presence: 7,
        labels: 4_095,
        trace: 0,
    };
    let lines = answers(&[
        case_w(100_000, Lent::with_trace(4_096), 1),
        case_w(18, Lent::with_trace(16), 2),
        case_w(14, Lent::with_trace(9), 3),
        case_w(100_000, Lent::with_trace(7), 65_535),
        case_w(100_000, Lent::with_trace(65_537), 4),
        case_w(1_000_000, wrong, 5),
    ]);
    let expected = "\
27 7 19 8 2635775572 1851500920 2413327146 620496162 27 7 19 8 16 8 2635775572 1851500920 2413327146 620496162
21 3 18 8 2635775572 1851500920 2413327146 2053065580 21 3 18 8 512 0 2635775572 1851500920 2413327146 2053065580
21 5 11 8 2635775572 1851500920 2413327146 99245160 21 5 11 8 512 0 2635775572 1851500920 2413327146 99245160
30 6 10 0 2635775572 1851500920 2413327146 1296375478 30 6 10 0 512 0 2635775572 1851500920 2413327146 1296375478
1 0 0 0 2114680905 1400783998 1673766567 3120944637 1 0 0 0 512 0 2114680905 1400783998 1673766567 3120944637
1 0 0 0 2516231669 2306959905 2011409263 1 1 0 0 0 512 0 2516231669 2306959905 2011409263 1
";
    assert_eq!(lines, expected);
}

#[test]
fn cases_are_the_same_at_every_call() {
    assert_eq!(stream(&all()), stream(&all()));
}

/// A program over the stream has buffers of these sizes.
#[test]
fn cases_are_many_and_small() {
    let cases = all();
    assert!(cases.len() >= 11_000, "{} cases", cases.len());
    assert!(stream(&cases).len() <= 7_000_000);
    for Case { file, lent, .. } in cases {
        assert!(file.len() <= 60_016);
        assert!(lent.amounts <= 520 && lent.presence <= 16);
        assert!(lent.labels <= 4_104 && lent.trace <= 65_544);
    }
}

/// What the cases met.
#[derive(Debug, Default)]
struct Met {
    /// By number of the answer.
    answers: BTreeMap<u32, usize>,
    /// Stops by number and by the kind of the node.
    stops: BTreeMap<(u32, u8), usize>,
    /// By number, the nodes of stops or the indexes of refusals.
    places: BTreeMap<u32, BTreeSet<u32>>,
    /// Accepted books with a node of the kind.
    kinds: BTreeMap<u8, usize>,
    /// Accepted books with so many programs, and with so many triggers.
    programs: BTreeMap<usize, usize>,
    triggers: BTreeMap<usize, usize>,
    /// Budgets and lengths of traces of accepted cases.
    budgets: BTreeSet<u32>,
    traces: BTreeSet<u32>,
    /// Finished runs that filled a trace of the length, and that used up the
    /// budget.
    filled: BTreeMap<u32, usize>,
    used_up: BTreeMap<u32, usize>,
    cost: u32,
    reasons: Reasons,
    taken_back: TakenBack,
    nothing: Nothing,
}

impl Met {
    fn count(&mut self, case: &Case) {
        let outcome = Outcome::of(case);
        self.reasons.count(case, &outcome);
        self.taken_back.count(case);
        self.nothing.count(case, &outcome);
        match outcome.answer {
            Answer::Refused(Refusal { number, index }) => {
                *self.answers.entry(number).or_default() += 1;
                self.places.entry(number).or_default().insert(index);
            }
            Answer::Ended {
                number,
                node,
                cost,
                bytes,
            } => {
                *self.answers.entry(number).or_default() += 1;
                self.places.entry(number).or_default().insert(node);
                self.cost += cost;
                self.accepted(case, number, node);
                if number == 0 {
                    self.finished(case, cost, bytes);
                }
            }
        }
    }

    fn finished(&mut self, case: &Case, cost: u32, bytes: u32) {
        if bytes == case.lent.trace {
            *self.filled.entry(bytes).or_default() += 1;
        }
        if cost == case.budget {
            *self.used_up.entry(cost).or_default() += 1;
        }
    }

    fn accepted(&mut self, case: &Case, number: u32, node: u32) {
        let book = Book::decode(&case.file).expect("it was accepted");
        if number != 0 {
            let kind = book.nodes[node as usize].kind;
            *self.stops.entry((number, kind)).or_default() += 1;
        }
        let kinds: BTreeSet<u8> = book.nodes.iter().map(|node| node.kind).collect();
        for kind in kinds {
            *self.kinds.entry(kind).or_default() += 1;
        }
        *self.programs.entry(book.programs.len()).or_default() += 1;
        *self.triggers.entry(book.triggers.len()).or_default() += 1;
        self.budgets.insert(case.budget);
        self.traces.insert(case.lent.trace);
    }
}

#[test]
fn the_cases_meet_enough() {
    let met = on_deep_stack(|| {
        let mut met = Met::default();
        all().iter().for_each(|case| met.count(case));
        met
    });
    demand_answers(&met);
    demand_stops(&met);
    demand_books(&met);
    demand_lengths(&met);
    met.reasons.demand();
    met.taken_back.demand();
    met.nothing.demand();
}

fn demand_answers(met: &Met) {
    assert!(met.answers[&0] >= 1_000, "{met:?}");
    for number in (1..=10).chain([32]) {
        assert!(met.answers[&number] >= 20, "{number}: {met:?}");
    }
    for number in 21..=31 {
        assert!(met.answers[&number] >= 60, "{number}: {met:?}");
        assert!(met.places[&number].len() >= 10, "{number}: {met:?}");
    }
    for number in (5..=10).chain([32]) {
        assert!(met.places[&number].len() >= 3, "{number}: {met:?}");
    }
}

fn kinds() -> Vec<u8> {
    (1..=6).chain(8..=11).chain(16..=26).collect()
}

/// The kinds of node that a run can stop on with a number.
fn stopping(number: u32) -> Vec<u8> {
    match number {
        21 => kinds(),
        22 => vec![kind::ADD, kind::SUBTRACT, kind::SUM],
        23 | 24 | 26 => vec![kind::PUT, kind::CLEAR],
        25 => vec![kind::ASSIGN, kind::RAISE],
        27 => vec![kind::OUT],
        28 | 29 => vec![kind::GRANT, kind::REVOKE],
        31 => vec![kind::SMALLEST, kind::LARGEST],
        _ => vec![kind::OUT, kind::GRANT, kind::REVOKE],
    }
}

fn demand_stops(met: &Met) {
    for number in 21..=31 {
        for kind in 1..=26 {
            let stops = met.stops.get(&(number, kind));
            let enough = match stopping(number).contains(&kind) {
                true => stops >= Some(&5),
                false => stops.is_none(),
            };
            assert!(enough, "{number} on kind {kind}: {stops:?}");
        }
    }
}

fn demand_books(met: &Met) {
    for kind in kinds() {
        let books = met.kinds.get(&kind);
        assert!(books >= Some(&100), "kind {kind}: {books:?}");
    }
    for (count, books) in [(0, 100), (1, 100), (2, 100), (4, 100), (8, 10)] {
        let programs = met.programs.get(&count);
        assert!(programs >= Some(&books), "{count} programs: {met:?}");
    }
    for (count, books) in [(0, 100), (1, 100), (2, 100), (3, 100), (8, 5)] {
        let triggers = met.triggers.get(&count);
        assert!(triggers >= Some(&books), "{count} triggers: {met:?}");
    }
}

fn demand_lengths(met: &Met) {
    for length in (0..=40).chain(65_527..=65_529).chain([65_535, 65_536]) {
        assert!(met.traces.contains(&length), "trace {length}");
    }
    for budget in (0..=60).chain([999_999, 1_000_000]) {
        assert!(met.budgets.contains(&budget), "budget {budget}");
    }
    for (length, runs) in [(8, 1), (16, 1), (24, 1), (32, 1), (40, 1), (65_536, 5)] {
        let filled = met.filled.get(&length);
        assert!(filled >= Some(&runs), "trace {length}: {filled:?}");
    }
    assert!(met.used_up.len() >= 15, "{:?}", met.used_up);
    assert!(met.used_up.contains_key(&1_000_000), "{:?}", met.used_up);
    // So that a slower runner can run all cases in a few seconds.
    assert!(met.cost <= 10_000_000, "cost {}", met.cost);
}

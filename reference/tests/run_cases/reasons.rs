//! What the explained cases met.

use super::commands::reached;
use super::nothing::parts;
use reference::book::{kind, Book};
use reference::run::Answer;
use reference::run_cases::{Case, ExplainedOutcome, Outcome};
use std::collections::{BTreeMap, BTreeSet};

/// Stops by a test on labels, with the kinds of node that they are on.
const STOPS: [(u32, u8); 7] = [
    (25, kind::ASSIGN),
    (25, kind::RAISE),
    (26, kind::PUT),
    (26, kind::CLEAR),
    (27, kind::OUT),
    (29, kind::GRANT),
    (29, kind::REVOKE),
];

#[derive(Debug, Default)]
pub struct Reasons {
    /// Named places and counts, by number and by the kind of the node.
    places: BTreeMap<(u32, u8), BTreeSet<usize>>,
    counts: BTreeMap<(u32, u8), BTreeSet<usize>>,
    /// Stops with a reason inside a trigger, by number, by kind, and by whether
    /// another trigger set it off.
    triggered: BTreeMap<(u32, u8, bool), usize>,
    /// Cases without a reason, by number.
    without: BTreeMap<u32, usize>,
}

impl Reasons {
    /// Explains the case, whose run had this outcome.
    pub fn count(&mut self, case: &Case, outcome: &Outcome) {
        let ExplainedOutcome { explained, left } = ExplainedOutcome::of(case);
        assert_eq!(explained.answer, outcome.answer);
        assert_eq!(left, outcome.left);
        let Some(place) = explained.place() else {
            assert_eq!(explained.count(), 0);
            let number = explained.answer.number();
            *self.without.entry(number).or_default() += 1;
            return;
        };
        let Answer::Ended { number, node, .. } = explained.answer else {
            panic!("a refusal has a reason: {explained:?}");
        };
        let book = Book::decode(&case.file).expect("it was accepted");
        let kind = book.nodes[node as usize].kind;
        self.places.entry((number, kind)).or_default().insert(place);
        let counts = self.counts.entry((number, kind)).or_default();
        counts.insert(explained.count());
        if let Some(nested) = in_trigger(&book, node as u16) {
            *self.triggered.entry((number, kind, nested)).or_default() += 1;
        }
    }

    pub fn demand(&self) {
        let stops: Vec<(u32, u8)> = self.places.keys().copied().collect();
        assert_eq!(stops, STOPS);
        for stop in STOPS {
            let (places, counts) = (&self.places[&stop], &self.counts[&stop]);
            for table in 0..8 {
                assert!(places.contains(&(64 * table)), "{stop:?}: {places:?}");
                assert!(places.contains(&(64 * table + 63)), "{stop:?}: {places:?}");
            }
            for count in [1, 2, 7, 8, 16, 63, 64, 65, 256, 512] {
                assert!(counts.contains(&count), "{stop:?}: {counts:?}");
            }
        }
        for (number, kind) in &STOPS[..4] {
            for nested in [false, true] {
                let stops = self.triggered.get(&(*number, *kind, nested));
                assert!(stops >= Some(&9), "{number} on kind {kind}: {stops:?}");
            }
        }
        let without: Vec<u32> = self.without.keys().copied().collect();
        let others: Vec<u32> = (0..=10).chain(21..=24).chain([28, 30, 31, 32]).collect();
        assert_eq!(without, others);
        for (number, cases) in &self.without {
            assert!(*cases >= 20, "{number}: {cases} cases");
        }
    }
}

/// The commands that are reached from these, and the expressions in them.
fn nodes_of(book: &Book, commands: Vec<u16>) -> BTreeSet<u16> {
    let mut nodes = reached(book, commands);
    let mut waiting: Vec<u16> = nodes.iter().copied().collect();
    while let Some(node) = waiting.pop() {
        let parts = parts(&book.nodes[usize::from(node)]);
        waiting.extend(parts.into_iter().filter(|&part| nodes.insert(part)));
    }
    nodes
}

/// Whether the node is in no program but in a trigger's body; and then whether
/// no program can set off that trigger, so that another trigger has.
pub fn in_trigger(book: &Book, node: u16) -> Option<bool> {
    let programs: Vec<u16> = book.programs.iter().map(|program| program.root).collect();
    let own = nodes_of(book, programs);
    if own.contains(&node) {
        return None;
    }
    let writes = |event, table| {
        own.iter().any(|&command| {
            let command = book.nodes[usize::from(command)];
            let does = match command.kind {
                kind::PUT => 1,
                kind::CLEAR => 2,
                _ => 0,
            };
            does == event && command.p == table
        })
    };
    let mut triggers = book
        .triggers
        .iter()
        .filter(|trigger| nodes_of(book, vec![trigger.body]).contains(&node));
    let nested = triggers.all(|trigger| {
        let region = book.regions[usize::from(trigger.region)];
        !writes(trigger.event, region.table)
    });
    Some(nested)
}

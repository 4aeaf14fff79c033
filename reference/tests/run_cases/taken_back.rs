//! What the cases met that take a posting back.

use super::reasons::in_trigger;
use reference::book::{kind, Book};
use reference::places::Places;
use reference::run::Answer;
use reference::run_cases::{Case, ExplainedOutcome};
use std::collections::{BTreeMap, BTreeSet};

/// Stops that a trigger's body can come to, other than 21, with the kinds of
/// node that they are on.
const STOPS: [(u32, u8); 13] = [
    (22, kind::ADD),
    (22, kind::SUBTRACT),
    (22, kind::SUM),
    (23, kind::PUT),
    (23, kind::CLEAR),
    (24, kind::PUT),
    (24, kind::CLEAR),
    (25, kind::ASSIGN),
    (25, kind::RAISE),
    (26, kind::PUT),
    (26, kind::CLEAR),
    (31, kind::SMALLEST),
    (31, kind::LARGEST),
];

const FEW: usize = 8;

#[derive(Debug, Default)]
pub struct TakenBack {
    /// Stops that changed a cell, by number and by the kind of the node.
    stops: BTreeMap<(u32, u8), usize>,
    /// Those of them on a node that only triggers have, by number and by whether
    /// another trigger set it off.
    triggered: BTreeMap<(u32, bool), usize>,
    /// Those of them with something told before.
    with_trace: usize,
    /// How many cells they changed; and the cells, where they were few.
    counts: BTreeSet<usize>,
    places: BTreeSet<usize>,
    /// Other stops of books with a trigger, by number.
    without: BTreeMap<u32, usize>,
}

impl TakenBack {
    pub fn count(&mut self, case: &Case) {
        let explained = ExplainedOutcome::of(case).explained;
        let Answer::Ended {
            number,
            node,
            bytes,
            ..
        } = explained.answer
        else {
            return;
        };
        let book = Book::decode(&case.file).expect("it was accepted");
        if number == 0 || book.triggers.is_empty() {
            return;
        }
        if explained.taken_back == Places::EMPTY {
            *self.without.entry(number).or_default() += 1;
            return;
        }
        let kind = book.nodes[node as usize].kind;
        *self.stops.entry((number, kind)).or_default() += 1;
        if let Some(nested) = in_trigger(&book, node as u16) {
            *self.triggered.entry((number, nested)).or_default() += 1;
        }
        self.with_trace += usize::from(bytes > 0);
        let count = explained.taken_back.members().count();
        self.counts.insert(count);
        if count <= FEW {
            self.places.extend(explained.taken_back.members());
        }
    }

    pub fn demand(&self) {
        for stop in STOPS {
            let stops = self.stops.get(&stop);
            let least = if stop.1 <= kind::SUM { 1 } else { 20 };
            assert!(stops >= Some(&least), "{stop:?}: {stops:?}");
        }
        let numbers: BTreeSet<u32> = self.stops.keys().map(|stop| stop.0).collect();
        let others = (21..=26).chain([31]);
        assert!(numbers.into_iter().eq(others.clone()), "{self:?}");
        for number in others {
            for nested in [false, true] {
                let stops = self.triggered.get(&(number, nested));
                assert!(stops >= Some(&8), "{number}: {stops:?}");
            }
        }
        assert!(self.with_trace >= 60, "{self:?}");
        for table in 0..8 {
            assert!(self.places.contains(&(64 * table)), "{self:?}");
            assert!(self.places.contains(&(64 * table + 63)), "{self:?}");
        }
        for count in (1..=FEW).chain([512]) {
            assert!(self.counts.contains(&count), "{self:?}");
        }
        for number in 21..=31 {
            let stops = self.without.get(&number);
            assert!(stops >= Some(&5), "{number}: {stops:?}");
        }
    }
}

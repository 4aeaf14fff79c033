//! What the cases met that ask for the smallest or largest of nothing.

use super::reasons::in_trigger;
use reference::book::{kind, Book, Node};
use reference::run::Answer;
use reference::run_cases::{Case, Outcome};
use std::collections::{BTreeMap, BTreeSet};

/// Kinds of node with expressions for parts, and how many.
const WITH_PARTS: [(u8, usize); 14] = [
    (kind::ADD, 2),
    (kind::SUBTRACT, 2),
    (kind::EQUAL, 2),
    (kind::LESS, 2),
    (kind::COUNT, 4),
    (kind::SUM, 4),
    (kind::SMALLEST, 4),
    (kind::LARGEST, 4),
    (kind::ASSIGN, 1),
    (kind::IF, 1),
    (kind::WHILE, 1),
    (kind::PUT, 3),
    (kind::CLEAR, 2),
    (kind::OUT, 1),
];

/// The expressions that a node evaluates, in order.
pub fn parts(node: &Node) -> Vec<u16> {
    let found = WITH_PARTS.iter().find(|(kind, _)| *kind == node.kind);
    let count = found.map_or(0, |&(_, count)| count);
    [node.a, node.b, node.c, node.d][..count].to_vec()
}

#[derive(Debug, Default)]
pub struct Nothing {
    /// Stops 31 by the kind of the query, and by where it is: in a program, in a
    /// trigger, or in one that another trigger sets off.
    stops: BTreeMap<(u8, Option<bool>), usize>,
    /// By the kind of the query, the kind of the node that it is a part of, and
    /// which part.
    parts: BTreeSet<(u8, u8, usize)>,
    tables: BTreeSet<u8>,
    nodes: BTreeSet<u32>,
    /// Those with something told before, and those that used the budget up.
    with_trace: usize,
    used_up: usize,
    /// Finished runs of books with a smallest or largest.
    finished: BTreeMap<u8, usize>,
}

impl Nothing {
    /// Counts the case, whose run had this outcome.
    pub fn count(&mut self, case: &Case, outcome: &Outcome) {
        let Answer::Ended {
            number,
            node,
            cost,
            bytes,
        } = outcome.answer
        else {
            return;
        };
        let book = Book::decode(&case.file).expect("it was accepted");
        if number == 0 {
            self.count_finished(&book);
        }
        if number != 31 {
            return;
        }
        let query = book.nodes[node as usize];
        let place = in_trigger(&book, node as u16);
        *self.stops.entry((query.kind, place)).or_default() += 1;
        self.tables.insert(query.p);
        self.nodes.insert(node);
        self.with_trace += usize::from(bytes > 0);
        self.used_up += usize::from(cost == case.budget);
        self.count_parts(&book, node as u16);
    }

    fn count_finished(&mut self, book: &Book) {
        let kinds: BTreeSet<u8> = book.nodes.iter().map(|node| node.kind).collect();
        for kind in [kind::SMALLEST, kind::LARGEST] {
            *self.finished.entry(kind).or_default() += usize::from(kinds.contains(&kind));
        }
    }

    fn count_parts(&mut self, book: &Book, query: u16) {
        for node in &book.nodes {
            for (part, child) in parts(node).into_iter().enumerate() {
                if child == query {
                    let kind = book.nodes[usize::from(query)].kind;
                    self.parts.insert((kind, node.kind, part));
                }
            }
        }
    }

    pub fn demand(&self) {
        for kind in [kind::SMALLEST, kind::LARGEST] {
            for (place, least) in [(None, 100), (Some(false), 30), (Some(true), 8)] {
                let stops = self.stops.get(&(kind, place));
                assert!(stops >= Some(&least), "{kind} in {place:?}: {stops:?}");
            }
            assert!(self.finished[&kind] >= 100, "{self:?}");
            for (around, count) in WITH_PARTS {
                for part in (0..count).map(|part| (kind, around, part)) {
                    assert!(self.parts.contains(&part), "{part:?}: {self:?}");
                }
            }
        }
        assert_eq!(self.tables.len(), 8, "{self:?}");
        for node in [1, 2, 512, 1_022] {
            assert!(self.nodes.contains(&node), "node {node}: {self:?}");
        }
        assert!(self.with_trace >= 100, "{self:?}");
        assert!(self.used_up >= 2, "{self:?}");
    }
}

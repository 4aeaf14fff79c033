//! Trigger bodies, and what they reach: refusal 10.

use super::base::{doubled, node};
use crate::book::{kind, Node};
use crate::builder::Builder;

pub(super) fn files() -> Vec<Vec<u8>> {
    let mut files = Vec::new();
    for leaf in BARRED {
        files.extend(paths(3).iter().map(|path| reaching(leaf, path)));
    }
    for leaf in ALLOWED {
        files.extend(paths(1).iter().map(|path| reaching(leaf, path)));
    }
    files.extend(paths(3).iter().map(|path| reaching(ALLOWED[1], path)));
    for leaf in BARRED.into_iter().chain(ALLOWED) {
        files.extend([shared(leaf), unreached(leaf), long_chain(leaf)]);
    }
    files.extend(number_traps());
    // Bodies 256, 257 and 299, and the last node.
    files.extend([257, 258, 300, 1_024].map(|count| many_ways(kind::SKIP, 0, count)));
    files.push(many_ways(kind::OUT, 7, 1_024));
    files
}

const fn leaf(kind: u8, a: u16, b: u16, c: u16) -> Node {
    Node {
        kind,
        p: 0,
        a,
        b,
        c,
        d: 0,
        k: 0,
    }
}

// Node 0 is a constant and node 1 a skip; there are three regions.
const BARRED: [Node; 4] = [
    leaf(kind::WHILE, 0, 1, 0),
    leaf(kind::OUT, 0, 0, 0),
    leaf(kind::GRANT, 0, 1, 0),
    leaf(kind::REVOKE, 0, 2, 0),
];
const ALLOWED: [Node; 7] = [
    leaf(kind::SKIP, 0, 0, 0),
    leaf(kind::ASSIGN, 0, 0, 0),
    leaf(kind::THEN, 1, 1, 0),
    leaf(kind::IF, 0, 1, 1),
    leaf(kind::PUT, 0, 0, 0),
    leaf(kind::CLEAR, 0, 0, 0),
    leaf(kind::RAISE, 0, 0, 0),
];

/// How a command has another as its child.
#[derive(Clone, Copy)]
enum Step {
    First,
    Second,
    Nonzero,
    Zero,
}

const STEPS: [Step; 4] = [Step::First, Step::Second, Step::Nonzero, Step::Zero];

/// All ways of at most this many steps.
fn paths(longest: usize) -> Vec<Vec<Step>> {
    let mut all = vec![Vec::new()];
    let mut last = all.clone();
    for _ in 0..longest {
        last = last
            .iter()
            .flat_map(|path| STEPS.map(|step| [&path[..], &[step]].concat()))
            .collect();
        all.extend(last.clone());
    }
    all
}

/// Three regions, node 0 a constant and node 1 a skip.
fn surroundings() -> Builder {
    let mut b = Builder::new();
    for table in 0..3 {
        b.region(table, 0..=7, 0..=7);
    }
    b.constant(0);
    b.skip();
    b
}

/// The book with this trigger as the middle one of three.
fn with_body(mut b: Builder, body: u16) -> Vec<u8> {
    b.put_trigger(0, 0, 1);
    b.clear_trigger(1, 1, body);
    b.put_trigger(2, 2, 1);
    b.book.encode()
}

/// A body that reaches the leaf in these steps, and skips otherwise.
fn reaching(leaf: Node, path: &[Step]) -> Vec<u8> {
    let mut b = surroundings();
    let mut command = b.node(leaf);
    for step in path {
        command = match step {
            Step::First => b.then(command, 1),
            Step::Second => b.then(1, command),
            Step::Nonzero => b.choose(0, command, 1),
            Step::Zero => b.choose(0, 1, command),
        };
    }
    with_body(b, command)
}

/// A body that reaches the leaf in several ways.
fn shared(leaf: Node) -> Vec<u8> {
    let mut b = surroundings();
    let leaf = b.node(leaf);
    let left = b.then(leaf, leaf);
    let right = b.choose(0, leaf, leaf);
    let both = b.then(left, right);
    with_body(b, both)
}

/// The leaf stands between the body's parts, and only a program reaches it.
fn unreached(leaf: Node) -> Vec<u8> {
    let mut b = surroundings();
    let before = b.then(1, 1);
    let leaf = b.node(leaf);
    b.program(0, leaf);
    let body = b.choose(0, before, 1);
    b.then(body, leaf);
    with_body(b, body)
}

/// The leaf at the end of a chain of 60 commands.
fn long_chain(leaf: Node) -> Vec<u8> {
    let mut b = surroundings();
    let mut last = b.node(leaf);
    for _ in 0..30 {
        last = b.then(1, last);
        last = b.choose(0, 1, last);
    }
    with_body(b, last)
}

/// Commands that name the number of a barred one as a region, table, variable
/// or constant, which is not to reach it.
fn number_traps() -> Vec<Vec<u8>> {
    let barred = 2;
    let traps = [
        leaf(kind::RAISE, barred, 0, 0),
        node(kind::RAISE, 2, [barred, 0, 0, 0]),
        node(kind::ASSIGN, 2, [0; 4]),
        node(kind::PUT, 2, [0; 4]),
        node(kind::CLEAR, 2, [0; 4]),
        leaf(kind::ASSIGN, 3, 0, 0),
    ];
    traps
        .into_iter()
        .map(|trap| {
            let mut b = surroundings();
            b.out(2, 0);
            b.constant(2);
            let body = b.node(trap);
            with_body(b, body)
        })
        .collect()
}

/// A body that reaches this command in more ways than can be gone one by one. It
/// is the last of so many nodes.
fn many_ways(kind: u8, p: u8, count: usize) -> Vec<u8> {
    let mut b = surroundings();
    let leaf = b.node(node(kind, p, [0; 4]));
    let body = doubled(&mut b, leaf, count);
    with_body(b, body)
}

//! Branches and loops within each other: inside, the context has the labels of
//! both conditions.

use super::office::{
    assign, block, clear, constant, held, office, put, set, tell, too_large, when, A, B, CELL_A,
    CELL_B,
};
use super::Case;
use crate::book::kind;
use crate::builder::Builder;

pub(super) fn cases() -> Vec<Case> {
    let mut files = Vec::new();
    for outer in AROUND {
        for inner in AROUND {
            files.extend(BODIES.map(|body| within(outer, inner, body)));
        }
    }
    files.into_iter().map(Case::ample).collect()
}

type Around = fn(&mut Builder, u16, u16) -> u16;

/// Ways to run a command where an expression is not 0.
const AROUND: [Around; 3] = [
    when,
    |b, test, command| {
        let zero = constant(b, 0);
        let no = b.operator(kind::EQUAL, test, zero);
        let skip = b.skip();
        b.choose(no, skip, command)
    },
    |b, test, command| b.repeat(test, command),
];

// Variables labelled by A, and by B.
const OF_A: u8 = 4;
const OF_B: u8 = 5;

/// A cell labelled by A and B.
const OF_BOTH: [i32; 2] = [4, 4];

/// Commands that the labels of A and B in the context stop, where one of them
/// would not; the last one changes a cell's label before it stops.
const BODIES: [fn(&mut Builder) -> u16; 7] = [
    |b| assign(b, OF_A, 1),
    |b| b.raise(OF_B, 0),
    |b| set(b, 0, [0, A.into()], 6),
    |b| clear(b, 0, [0, B.into()]),
    |b| tell(b, 1, 7),
    |b| tell(b, 2, 8),
    |b| {
        let change = set(b, 1, OF_BOTH, 9);
        let amount = too_large(b);
        let stop = b.assign(OF_A, amount);
        b.then(change, stop)
    },
];

/// The command in the context of B inside that of A. User 1 reads A, user 2 B.
fn within(outer: Around, inner: Around, body: fn(&mut Builder) -> u16) -> Vec<u8> {
    let mut b = office();
    b.read(2, CELL_B);
    let raises = [b.raise(OF_A, CELL_A), b.raise(OF_B, CELL_B)];
    let [first, second] = [A, B].map(|line| held(&mut b, line));
    let both = b.operator(kind::ADD, first, second);
    let ready = put(&mut b, 1, OF_BOTH, both);
    let command = body(&mut b);
    let inside = inner(&mut b, second, command);
    let outside = outer(&mut b, first, inside);
    let root = block(&mut b, &[raises[0], raises[1], ready, outside]);
    b.program(0, root);
    b.book.encode()
}

//! Books at the edges of the run-list program: its budget, its trace and the
//! longest file, each used to the last unit, and one past it.

use crate::book::{kind, Book};
use crate::builder::Builder;

/// The most bytes that a book may have.
const LONGEST: usize = 60_000;

/// The name and the bytes of each file.
pub fn files() -> [(&'static str, Vec<u8>); 6] {
    [
        ("edge_cost_100000.book", costly(false).encode()),
        ("edge_cost_100001.book", costly(true).encode()),
        ("edge_trace_512.book", talkative(512).encode()),
        ("edge_trace_513.book", talkative(513).encode()),
        ("edge_length_60000.book", long(false)),
        ("edge_length_60001.book", long(true)),
    ]
}

/// A test and a step, which together count to a number with variable 0. A while
/// with its test costs 4, and so does the step.
fn counting(builder: &mut Builder, last: i32) -> (u16, u16) {
    let count = builder.variable(0);
    let one = builder.constant(1);
    let last = builder.constant(last);
    let next = builder.operator(kind::ADD, count, one);
    let test = builder.operator(kind::LESS, count, last);
    (test, builder.assign(0, next))
}

/// Costs 100,000: a program counts to 12,499, which takes as many turns of 8
/// and a last test of 4, and another takes one step, of 4. With a third, which
/// skips, it costs one more.
fn costly(more: bool) -> Book {
    let mut builder = Builder::new();
    let (test, step) = counting(&mut builder, 12_499);
    let count = builder.repeat(test, step);
    builder.program(0, count);
    builder.program(0, step);
    if more {
        let skip = builder.skip();
        builder.program(0, skip);
    }
    builder.book
}

/// Tells user 1 the numbers from 1 to `last`.
fn talkative(last: i32) -> Book {
    let mut builder = Builder::new();
    let (test, step) = counting(&mut builder, last);
    let count = builder.variable(0);
    let tell = builder.out(1, count);
    let turn = builder.then(step, tell);
    let root = builder.repeat(test, turn);
    builder.program(0, root);
    builder.book
}

/// A file of the most bytes, with a right mark and length. No sections are as
/// long as that, so that 4 refuses it. With one byte more 2 does, but would not
/// if that byte were left unread.
fn long(more: bool) -> Vec<u8> {
    let trailer = Book::default().encode();
    let mut file = vec![0; LONGEST - trailer.len()];
    file.extend(trailer);
    file[LONGEST - 4..].copy_from_slice(&(LONGEST as u32).to_le_bytes());
    if more {
        file.push(0);
    }
    file
}

//! The deepest legal books: what a runner's stack has to hold.
//!
//! Nearly all of the nodes are one chain of commands, each within the one
//! above it, with a put at its end. The chain is run by the program and is the
//! body of all eight triggers, and each put sets off the next trigger alone. So
//! nine chains stand within one another at the last put. No test stops the
//! run, and its cost stays within the budget of the run-list program.

use crate::book::{kind, Book};
use crate::builder::Builder;

/// As many as a book may have.
const NODES: usize = 1_024;

/// The nodes that follow the chain: a query, an out and a then.
const LAST_NODES: usize = 3;

/// How a command of the chain holds the next.
#[derive(Clone, Copy, Debug, PartialEq, Eq)]
pub enum Link {
    /// The next is done if a constant is nonzero.
    If,
    /// The next is done first, and then a skip.
    Then,
}

/// The book with such a chain. In the end it tells user 0 how many puts there
/// were, nine.
pub fn book(link: Link) -> Book {
    let mut builder = Builder::new();
    let table = builder.region(0, 0..=7, 0..=7);
    builder.read(0, table);
    builder.write(0, table);
    let (zero, seven) = (builder.constant(0), builder.constant(7));
    let top = chain(&mut builder, link, zero, seven);
    for owner in 0..8 {
        let region = builder.region(0, owner..=owner, 0..=7);
        builder.put_trigger(region, 0, top);
    }
    let puts = builder.query(kind::LARGEST, 0, [zero, seven, zero, seven]);
    let tell = builder.out(0, puts);
    let root = builder.then(top, tell);
    builder.program(0, root);
    builder.book
}

/// The chain's first command. Its put is at the owner of the trigger that is to
/// run next: variable 2 counts the puts before, 0 in the program and the last
/// amount in a trigger. The ninth put, which sets off nothing, is at owner 7.
fn chain(builder: &mut Builder, link: Link, zero: u16, seven: u16) -> u16 {
    let one = builder.constant(1);
    let count = builder.variable(2);
    let past = builder.operator(kind::LESS, seven, count);
    let owner = builder.operator(kind::SUBTRACT, count, past);
    let next = builder.operator(kind::ADD, count, one);
    let skip = builder.skip();
    let mut command = builder.put(0, owner, zero, next);
    while builder.book.nodes.len() < NODES - LAST_NODES {
        command = match link {
            Link::If => builder.choose(one, command, skip),
            Link::Then => builder.then(command, skip),
        };
    }
    command
}

//! Runs that nest deep, and long loops.

use super::office::{assign, office, put};
use super::Case;
use crate::book::kind;
use crate::builder::Builder;
use crate::generate::nested;

pub(super) fn cases() -> Vec<Case> {
    let mut files = COMMANDS.map(nested_commands).to_vec();
    files.extend(EXPRESSIONS.map(nested_expressions));
    for (length, triggers) in [(10, 8), (100, 4), (1_024, 1), (1_024, 8)] {
        files.push(nested(6, [7, -9], length, triggers).encode());
    }
    files.extend([10_000, 200_000].map(count_down));
    files.extend(BODIES.map(endless));
    files
        .into_iter()
        .map(|file| Case::ample(file).with_budget(1_000_000))
        .collect()
}

/// How many commands or expressions are nested.
const DEPTH: usize = 1_000;

/// The first nodes of these books.
const ZERO: u16 = 0;
const ONE: u16 = 1;
const READY: u16 = 2;
const SKIP: u16 = 3;

fn start() -> Builder {
    let mut b = office();
    b.constant(0);
    b.constant(1);
    b.variable(0);
    b.skip();
    b
}

/// Ways to have a command in another one; READY is 1 until the innermost makes
/// it 0.
const COMMANDS: [fn(&mut Builder, u16) -> u16; 4] = [
    |b, command| b.then(command, SKIP),
    |b, command| b.then(SKIP, command),
    |b, command| b.choose(READY, command, SKIP),
    |b, command| b.repeat(READY, command),
];

fn nested_commands(around: fn(&mut Builder, u16) -> u16) -> Vec<u8> {
    let mut b = start();
    let ready = assign(&mut b, 0, 1);
    let innermost = assign(&mut b, 0, 0);
    let command = (0..DEPTH).fold(innermost, |command, _| around(&mut b, command));
    let root = b.then(ready, command);
    b.program(0, root);
    b.book.encode()
}

/// Ways to have an expression in another one.
const EXPRESSIONS: [fn(&mut Builder, u16) -> u16; 3] = [
    |b, value| b.operator(kind::ADD, value, ONE),
    |b, value| b.operator(kind::SUBTRACT, ONE, value),
    |b, value| b.query(kind::COUNT, 0, [ZERO, ONE, value, ONE]),
];

fn nested_expressions(around: fn(&mut Builder, u16) -> u16) -> Vec<u8> {
    let mut b = start();
    let value = (0..DEPTH).fold(ZERO, |value, _| around(&mut b, value));
    let root = put(&mut b, 1, [0, 0], value);
    b.program(0, root);
    b.book.encode()
}

/// Counts a variable down from this number, and puts each into a cell.
fn count_down(from: i32) -> Vec<u8> {
    let mut b = start();
    let first = assign(&mut b, 0, from);
    let write = put(&mut b, 2, [0, 0], READY);
    let less = b.operator(kind::SUBTRACT, READY, ONE);
    let step = b.assign(0, less);
    let body = b.then(write, step);
    let turns = b.repeat(READY, body);
    let root = b.then(first, turns);
    b.program(0, root);
    b.book.encode()
}

/// Commands that can be run again for ever.
const BODIES: [fn(&mut Builder) -> u16; 3] = [
    |_| SKIP,
    |b| put(b, 2, [0, 0], ONE),
    |b| b.choose(ZERO, SKIP, SKIP),
];

fn endless(body: fn(&mut Builder) -> u16) -> Vec<u8> {
    let mut b = start();
    let body = body(&mut b);
    let root = b.repeat(ONE, body);
    b.program(0, root);
    b.book.encode()
}

//! Postings that fire all eight triggers, one inside the other, over and over: a
//! few cells are written many times by each posting.

use super::{block, count_up, repeat};
use reference::book::kind::{ADD, SUM};
use reference::book::Book;
use reference::builder::Builder;

pub const TURNS: u32 = 200;

/// What a body costs by itself: two puts, one after the other.
const BODY: u32 = 1 + 2 * 4;

/// A posting fires trigger 0 once, and each trigger the next one twice.
const CASCADE: u32 = 255 * BODY;

/// In a turn the loop with its test costs 4, the sequence 1, the put of a sum 6
/// and the count 4. Besides there are the last test, two sequences and two
/// commands with a query.
pub fn cost(turns: u32) -> u32 {
    turns * (4 + 1 + 6 + 4 + CASCADE) + 4 + 2 + 9 + 9
}

/// Table n fires trigger n, which puts at two keys of table n + 1. Amounts are
/// labelled by a rate.
pub fn book(turns: u32) -> Book {
    let mut builder = Builder::new();
    builder.cell(7, 7, 7, 10);
    for table in 0..8 {
        let region = builder.region(table, 0..=7, 0..=7);
        builder.read(1, region);
        builder.write(0, region);
    }
    let [owner, line, amount] = [0, 1, 2].map(|variable| builder.variable(variable));
    for table in 0..8 {
        let next = (table + 1) % 8;
        let first = builder.put(next, owner, line, amount);
        let second = builder.put(next, line, owner, amount);
        let body = builder.then(first, second);
        builder.put_trigger(table, 0, body);
    }
    let root = program(&mut builder, turns);
    builder.program(0, root);
    builder.book
}

/// Variable 0 counts the turns, and variable 1 has the rate.
fn program(builder: &mut Builder, turns: u32) -> u16 {
    let rate = amount_at(builder, 7, [7, 7]);
    let take = builder.assign(1, rate);
    let [turn, rate] = [0, 1].map(|variable| builder.variable(variable));
    let amount = builder.operator(ADD, rate, turn);
    let [owner, line] = [2, 3].map(|key| builder.constant(key));
    let post = builder.put(0, owner, line, amount);
    let count = count_up(builder, 0);
    let body = block(builder, &[post, count]);
    let turns = repeat(builder, turns as i32, body);
    let last = amount_at(builder, 0, [2, 3]);
    let tell = builder.out(1, last);
    block(builder, &[take, turns, tell])
}

/// The amount of one cell.
fn amount_at(builder: &mut Builder, table: u8, key: [i32; 2]) -> u16 {
    let [owner, line] = key.map(|part| builder.constant(part));
    builder.query(SUM, table, [owner, owner, line, line])
}

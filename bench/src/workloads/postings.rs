//! Puts and clears in a loop over computed keys, with triggers that post totals
//! and so fire further triggers.

use super::{block, count_up, repeat};
use reference::book::kind::{ADD, COUNT, EQUAL, LARGEST, LESS, SUBTRACT, SUM};
use reference::book::Book;
use reference::builder::Builder;

const TURNS: i32 = 1_000;
pub const COST: u32 = 108869;

/// Tables by what they hold.
const JOURNAL: u8 = 0;
const OWNERS: u8 = 1;
const OFFICE: u8 = 2;
const AUDIT: u8 = 3;
const REVERSALS: u8 = 4;
const SUMMARY: u8 = 5;
const RATES: u8 = 7;

/// The program posts to the journal and clears from it. A posting fires a chain
/// of five triggers, each of which fires the next, and a clear one of three.
pub fn book() -> Book {
    let mut builder = Builder::new();
    for line in 0..8 {
        builder.cell(RATES, 0, line, 10 + i32::from(line));
    }
    let tables = [0, 1, 2, 3, 4, 5, 6, 7].map(|table| builder.region(table, 0..=7, 0..=7));
    for table in tables {
        builder.read(1, table);
        builder.write(1, table);
    }
    builder.write(0, tables[usize::from(JOURNAL)]);
    posting_triggers(&mut builder, tables);
    clearing_triggers(&mut builder, tables);
    let root = program(&mut builder);
    builder.program(0, root);
    builder.book
}

/// A query over all lines of some owners.
fn rows(builder: &mut Builder, kind: u8, table: u8, owners: [u16; 2]) -> u16 {
    let (first, last) = (builder.constant(0), builder.constant(7));
    builder.query(kind, table, [owners[0], owners[1], first, last])
}

/// A query over a whole table.
fn whole(builder: &mut Builder, kind: u8, table: u8) -> u16 {
    let (first, last) = (builder.constant(0), builder.constant(7));
    builder.query(kind, table, [first, last, first, last])
}

/// Triggers 0 to 3: a posting's owner's total, the office's total of those, the
/// largest of them beside it, and how many journal cells there are.
fn posting_triggers(builder: &mut Builder, tables: [u8; 8]) {
    let zero = builder.constant(0);
    let [owner, _, amount] = written(builder);
    let total = rows(builder, SUM, JOURNAL, [owner, owner]);
    let body = builder.put(OWNERS, owner, zero, total);
    builder.put_trigger(tables[usize::from(JOURNAL)], 1, body);

    let total = whole(builder, SUM, OWNERS);
    let body = builder.put(OFFICE, zero, zero, total);
    builder.put_trigger(tables[usize::from(OWNERS)], 1, body);

    let largest = whole(builder, LARGEST, OWNERS);
    let rest = builder.operator(SUBTRACT, amount, largest);
    let body = builder.put(AUDIT, zero, zero, rest);
    builder.put_trigger(tables[usize::from(OFFICE)], 1, body);

    let count = whole(builder, COUNT, JOURNAL);
    let body = builder.put(SUMMARY, zero, zero, count);
    builder.put_trigger(tables[usize::from(AUDIT)], 1, body);
}

/// Triggers 4 to 6: the cleared owner's total among the reversals, the sum of
/// these at a key that depends on the owner, and a last one that only clears.
fn clearing_triggers(builder: &mut Builder, tables: [u8; 8]) {
    let [owner, line, _] = written(builder);
    let one = builder.constant(1);
    let left = rows(builder, SUM, JOURNAL, [owner, owner]);
    let body = builder.put(REVERSALS, owner, line, left);
    builder.clear_trigger(tables[usize::from(JOURNAL)], 1, body);

    let total = whole(builder, SUM, REVERSALS);
    let low = builder.put(SUMMARY, one, line, total);
    let high = builder.put(SUMMARY, owner, one, total);
    let four = builder.constant(4);
    let is_low = builder.operator(LESS, owner, four);
    let body = builder.choose(is_low, low, high);
    builder.put_trigger(tables[usize::from(REVERSALS)], 1, body);

    let body = builder.clear(OWNERS, owner, one);
    builder.put_trigger(tables[usize::from(SUMMARY)], 1, body);
}

/// What a trigger knows of the write: owner, line and amount.
fn written(builder: &mut Builder) -> [u16; 3] {
    [0, 1, 2].map(|variable| builder.variable(variable))
}

/// Variable 0 counts the turns, 1 and 2 are the key's owner and line, all of
/// empty label. Variable 3 is an amount that is labelled by the rates.
fn program(builder: &mut Builder) -> u16 {
    let rates = whole(builder, SUM, RATES);
    let take = builder.assign(3, rates);
    let [turn, owner, line, rate] = [0, 1, 2, 3].map(|variable| builder.variable(variable));
    let amount = builder.operator(ADD, rate, turn);
    let post = builder.put(JOURNAL, owner, line, amount);
    let seven = builder.constant(7);
    let other = builder.operator(SUBTRACT, seven, owner);
    let clear = builder.clear(JOURNAL, other, line);
    let count = count_up(builder, 0);
    let next_line = next_key(builder, 2, None);
    let next_owner = next_key(builder, 1, Some(next_line));
    let body = block(builder, &[post, clear, count, next_owner]);
    let turns = repeat(builder, TURNS, body);
    let total = whole(builder, SUM, OFFICE);
    let tell = builder.out(1, total);
    block(builder, &[take, turns, tell])
}

/// Counts a part of the key up; from 7 it goes to 0 and `carry` is done.
fn next_key(builder: &mut Builder, variable: u8, carry: Option<u16>) -> u16 {
    let (zero, seven) = (builder.constant(0), builder.constant(7));
    let part = builder.variable(variable);
    let is_last = builder.operator(EQUAL, part, seven);
    let reset = builder.assign(variable, zero);
    let wrap = match carry {
        Some(carry) => builder.then(reset, carry),
        None => reset,
    };
    let up = count_up(builder, variable);
    builder.choose(is_last, wrap, up)
}

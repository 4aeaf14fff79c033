//! The book with every section full, which is only read and written.

use reference::book::kind::{ADD, COUNT, EQUAL, LARGEST, LESS, SMALLEST, SUBTRACT, SUM};
use reference::book::{Book, LabelRecord};
use reference::builder::Builder;
use reference::places::Places;

pub const LENGTH: u32 = 21_380;
/// With a label record for every cell.
pub const LABELLED_LENGTH: u32 = 55_176;

const NODES: usize = 1_024;
/// How many nodes one turn of `script` adds.
const TURN: usize = 7;

/// 512 cells, 64 regions, 64 rights, 1,024 nodes of all kinds, 8 programs and
/// 8 triggers.
pub fn book() -> Book {
    let mut builder = Builder::new();
    for place in 0..512_u16 {
        let [table, owner, line] = [place / 64, place / 8 % 8, place % 8].map(|part| part as u8);
        builder.cell(table, owner, line, 7_919 * i32::from(place) - 2_000_000);
    }
    for number in 0..64 {
        let (table, owner) = (number / 8, number % 8);
        builder.region(table, owner..=7, 0..=owner);
        match number % 3 {
            0 => builder.public(number),
            1 => builder.read(number % 8, number),
            _ => builder.write(number % 8, number),
        }
    }
    let body = body(&mut builder);
    let root = script(&mut builder);
    for user in 0..8 {
        builder.program(user, root);
        if user % 2 == 0 {
            builder.put_trigger(8 * user, user, body);
        } else {
            builder.clear_trigger(8 * user, user, body);
        }
    }
    builder.book
}

/// The same with a label of several places for every cell.
pub fn labelled() -> Book {
    let labels = (0..512_u16).map(|place| LabelRecord {
        place,
        label: Places(std::array::from_fn(|word| {
            0x0101_0101_0101_0101 << ((usize::from(place) + word) % 8)
        })),
    });
    Book {
        labels: Some(labels.collect()),
        ..book()
    }
}

/// A command that a trigger may run.
fn body(builder: &mut Builder) -> u16 {
    let [owner, line, amount] = [0, 1, 2].map(|variable| builder.variable(variable));
    let total = builder.query(SUM, 3, [owner, owner, line, line]);
    let more = builder.operator(ADD, amount, total);
    let post = builder.put(4, owner, line, more);
    let clear = builder.clear(5, owner, line);
    builder.choose(amount, post, clear)
}

/// A script that takes all nodes that are left.
fn script(builder: &mut Builder) -> u16 {
    let mut script = builder.skip();
    for turn in 0.. {
        if builder.book.nodes.len() + TURN > NODES {
            break;
        }
        let command = command(builder, turn);
        script = builder.then(script, command);
    }
    while builder.book.nodes.len() < NODES {
        script = builder.then(script, script);
    }
    script
}

/// One of the commands in turn, with expressions of its own.
fn command(builder: &mut Builder, turn: i32) -> u16 {
    let (p, region) = (turn as u8 % 8, turn as u8 % 64);
    let (number, variable) = (builder.constant(turn - 20), builder.variable(p));
    let operator = [ADD, SUBTRACT, EQUAL, LESS][turn as usize % 4];
    let value = builder.operator(operator, number, variable);
    let query = [COUNT, SUM, SMALLEST, LARGEST][turn as usize / 2 % 4];
    let found = builder.query(query, p, [number, variable, number, value]);
    let assign = builder.assign(p, found);
    match turn % 8 {
        0 => builder.choose(value, assign, assign),
        1 => builder.repeat(value, assign),
        2 => builder.put(p, variable, number, found),
        3 => builder.clear(p, variable, number),
        4 => builder.out(p, found),
        5 => builder.grant_read(p, region),
        6 => builder.revoke_write(p, region),
        _ => builder.raise(p, region),
    }
}

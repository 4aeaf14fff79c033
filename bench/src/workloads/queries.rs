//! Counts, sums, smallest and largest amounts over whole tables, in a loop.

use super::{block, count_up, repeat};
use reference::book::kind::{ADD, COUNT, LARGEST, SMALLEST, SUM};
use reference::book::Book;
use reference::builder::Builder;

const TURNS: i32 = 1_000;
pub const COST: u32 = 168013;

const KINDS: [u8; 4] = [COUNT, SUM, SMALLEST, LARGEST];

/// Each turn asks each question of each of four tables, and keeps the answers
/// to the last in variables 1 to 4; in the end user 1 is told their total.
pub fn book() -> Book {
    let mut builder = Builder::new();
    for table in 0..4 {
        fill(&mut builder, table);
        let all = builder.region(table, 0..=7, 0..=7);
        builder.read(1, all);
    }
    let turn = turn(&mut builder);
    let turns = repeat(&mut builder, TURNS, turn);
    let mut total = builder.variable(1);
    for variable in 2..=4 {
        let more = builder.variable(variable);
        total = builder.operator(ADD, total, more);
    }
    let tell = builder.out(1, total);
    let root = builder.then(turns, tell);
    builder.program(0, root);
    builder.book
}

/// Amounts of both signs in three of every four cells.
fn fill(builder: &mut Builder, table: u8) {
    for owner in 0..8 {
        for line in 0..8 {
            if !(owner + line + table).is_multiple_of(4) {
                let mixed = 37 * i32::from(owner) + 101 * i32::from(line);
                builder.cell(table, owner, line, mixed % 211 - 100);
            }
        }
    }
}

fn turn(builder: &mut Builder) -> u16 {
    let (first, last) = (builder.constant(0), builder.constant(7));
    let mut commands = vec![count_up(builder, 0)];
    for table in 0..4 {
        for (variable, kind) in (1..).zip(KINDS) {
            let answer = builder.query(kind, table, [first, last, first, last]);
            commands.push(builder.assign(variable, answer));
        }
    }
    block(builder, &commands)
}

//! A loop that adds, subtracts and compares variables until the budget is
//! nearly used.

use super::{block, count_up, repeat};
use reference::book::kind::{ADD, EQUAL, LESS, SUBTRACT, SUM};
use reference::book::Book;
use reference::builder::Builder;

const TURNS: i32 = 30_248;
pub const COST: u32 = 999978;

/// Two amounts, in variables 1 and 2, approach one another by steps, in
/// variable 3; when they meet, the first jumps away. Both amounts come from
/// cells, so labels are not empty; the loop's own test has none.
pub fn book() -> Book {
    let mut builder = Builder::new();
    builder.cell(0, 1, 0, 900);
    builder.cell(0, 2, 0, 250);
    let owners = builder.region(0, 1..=2, 0..=7);
    builder.read(1, owners);
    let start = [
        start(&mut builder, 1, owners),
        start(&mut builder, 2, owners),
    ];
    let turn = turn(&mut builder);
    let turns = repeat(&mut builder, TURNS, turn);
    let (first, second) = (builder.variable(1), builder.variable(2));
    let total = builder.operator(ADD, first, second);
    let tell = builder.out(1, total);
    let root = block(&mut builder, &[start[0], start[1], turns, tell]);
    builder.program(0, root);
    builder.book
}

/// Takes an owner's amount into the variable of the same number, and raises
/// the variable so that it may be assigned where both amounts are compared.
fn start(builder: &mut Builder, owner: u8, owners: u8) -> u16 {
    let number = builder.constant(owner.into());
    let line = builder.constant(0);
    let amount = builder.query(SUM, 0, [number, number, line, line]);
    let take = builder.assign(owner, amount);
    let raise = builder.raise(owner, owners);
    builder.then(take, raise)
}

fn turn(builder: &mut Builder) -> u16 {
    let count = count_up(builder, 0);
    let [first, second, step] = [1, 2, 3].map(|variable| builder.variable(variable));
    let nearer = builder.operator(ADD, first, step);
    let move_first = builder.assign(1, nearer);
    let nearer = builder.operator(SUBTRACT, second, step);
    let move_second = builder.assign(2, nearer);
    let below = builder.operator(LESS, first, second);
    let above = builder.operator(LESS, second, first);
    let sign = builder.operator(SUBTRACT, below, above);
    let set_step = builder.assign(3, sign);
    let met = builder.operator(EQUAL, first, second);
    let far = builder.constant(100);
    let away = builder.operator(ADD, first, far);
    let jump = builder.assign(1, away);
    let stay = builder.skip();
    let part = builder.choose(met, jump, stay);
    block(builder, &[count, move_first, move_second, set_step, part])
}

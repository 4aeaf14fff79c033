//! Short books, each about one rule. The sweeps run them with every budget, so
//! that the state after each of their steps is seen.

use super::office::{
    amount, assign, block, clear, constant, held, office, put, query, set, tell, when, A, B, C,
    CELL_A, CELL_B, OPEN,
};
use crate::book::{kind, Book};
use crate::builder::Builder;
use crate::notation::assemble;

/// The examples, and the scripts below.
pub(super) fn books() -> Vec<Book> {
    let scripts = [
        absent_cells,
        secret_bounds,
        new_labels,
        branches,
        loops,
        late_tests,
        read_rights,
        write_rights,
        public_stays,
        put_variables,
        clear_variables,
        trigger_contexts,
        overwritten,
        clears,
        programs,
        raises,
    ];
    let mut books = EXAMPLES.map(example).to_vec();
    books.extend(scripts.map(|script| script().book));
    books
}

pub(super) fn book_w() -> Book {
    example(EXAMPLES[0])
}

const EXAMPLES: [&str; 6] = [
    include_str!("../../../examples/w.txt"),
    include_str!("../../../examples/grant.txt"),
    include_str!("../../../examples/leak.txt"),
    include_str!("../../../examples/posting.txt"),
    include_str!("../../../examples/raised.txt"),
    include_str!("../../../examples/statement.txt"),
];

fn example(text: &str) -> Book {
    assemble(text).expect("the text of an example has no fault")
}

/// A query's label has the cells that are absent too.
fn absent_cells() -> Builder {
    let mut b = office();
    let none = query(&mut b, kind::COUNT, 6, [0, 1, 6, 7]);
    let assign = b.assign(3, none);
    let value = b.variable(3);
    let first = put(&mut b, 1, [0, 0], value);
    let largest = query(&mut b, kind::LARGEST, 0, [0, 0, 1, 3]);
    let second = put(&mut b, 1, [0, 1], largest);
    let both = query(&mut b, kind::SMALLEST, 1, [0, 0, 0, 1]);
    let third = put(&mut b, 1, [0, 2], both);
    let out = b.out(1, none);
    let root = block(&mut b, &[assign, first, second, third, out]);
    b.program(0, root);
    b
}

/// A query's label has those of its bounds, each one of the four in turn. With
/// any of them a cell is present.
fn secret_bounds() -> Builder {
    let mut b = office();
    b.cell(7, 2, 2, 6);
    let [first, last] = [0, 2].map(|k| constant(&mut b, k));
    for bound in 0..4 {
        let mut bounds = [first, last, first, last];
        bounds[bound] = held(&mut b, B);
        let value = b.query(kind::LARGEST, 7, bounds);
        let put = put(&mut b, 1, [0, bound as i32], value);
        b.program(0, put);
    }
    b
}

/// A new label replaces the old one, of variables and of cells.
fn new_labels() -> Builder {
    let mut b = office();
    let secret = held(&mut b, B);
    let keep = b.assign(0, secret);
    let forget = assign(&mut b, 0, 6);
    let value = b.variable(0);
    let out = b.out(2, value);
    let open = set(&mut b, 0, [0, B.into()], 20);
    let shown = b.out(2, secret);
    let other = held(&mut b, C);
    let copy = put(&mut b, 0, [0, B.into()], other);
    let root = block(&mut b, &[keep, forget, out, open, shown, copy, shown]);
    b.program(0, root);
    b
}

/// The context is put back after each branch, and branches add to it.
fn branches() -> Builder {
    let mut b = office();
    let [first, second] = [A, B].map(|line| held(&mut b, line));
    let both = b.operator(kind::LESS, first, second);
    let ready = put(&mut b, 1, [4, 4], both);
    let inner = set(&mut b, 1, [4, 4], 44);
    let nested = when(&mut b, second, inner);
    let outer = when(&mut b, first, nested);
    let after = set(&mut b, 1, [5, 5], 55);
    let third = held(&mut b, C);
    let refused = b.choose(third, inner, inner);
    let root = block(&mut b, &[ready, outer, after, refused]);
    b.program(0, root);
    b
}

/// Counts a variable down and tells each turn.
fn loops() -> Builder {
    let mut b = office();
    let start = assign(&mut b, 9, 3);
    let counter = b.variable(9);
    let one = constant(&mut b, 1);
    let less = b.operator(kind::SUBTRACT, counter, one);
    let step = b.assign(9, less);
    let out = b.out(4, counter);
    let body = b.then(out, step);
    let turns = b.repeat(counter, body);
    let root = block(&mut b, &[start, turns, out]);
    b.program(3, root);
    b
}

/// The second test of a loop depends on a cell on which the first does not.
fn late_tests() -> Builder {
    let mut b = office();
    let secret = held(&mut b, C);
    let start = assign(&mut b, 0, 1);
    let raise = b.raise(1, 0);
    let test = b.variable(0);
    let other = b.variable(1);
    let one = constant(&mut b, 1);
    let more = b.operator(kind::ADD, other, one);
    let count = b.assign(1, more);
    let limit = b.operator(kind::LESS, other, secret);
    let next = b.assign(0, limit);
    let body = b.then(count, next);
    let turns = b.repeat(test, body);
    let result = put(&mut b, 2, [0, 0], other);
    let root = block(&mut b, &[start, raise, turns, result]);
    b.program(0, root);
    b
}

fn read_rights() -> Builder {
    let mut b = office();
    let secret = held(&mut b, B);
    let out = b.out(1, secret);
    let grant = b.grant_read(1, CELL_B);
    let revoke = b.revoke_read(1, 0);
    let again = b.grant_read(1, 0);
    let other = b.revoke_read(2, 0);
    let root = block(&mut b, &[grant, out, revoke, again, other, out, revoke]);
    b.program(0, root);
    b.program(1, out);
    b
}

/// A trigger's user is granted a write right, and loses it.
fn write_rights() -> Builder {
    let mut b = office();
    let copy = b.variable(2);
    let body = put(&mut b, 1, [7, 7], copy);
    b.put_trigger(2, 4, body);
    let [first, second, third] = [31, 32, 33].map(|k| set(&mut b, 2, [0, 0], k));
    let grant = b.grant_write(4, 1);
    let useless = b.revoke_read(4, 1);
    let revoke = b.revoke_write(4, 1);
    let root = block(&mut b, &[grant, first, useless, second, revoke, third]);
    b.program(0, root);
    b
}

/// A revoke takes nothing from the public set, which gives no write right.
fn public_stays() -> Builder {
    let mut b = office();
    let open = amount(&mut b, 7, 0, 0);
    let out = b.out(3, open);
    let revoke = b.revoke_read(3, OPEN);
    let change = b.grant_read(3, CELL_A);
    let open_branch = when(&mut b, open, change);
    let write = set(&mut b, 7, [0, 0], 1);
    let root = block(&mut b, &[out, revoke, out, open_branch, write]);
    b.program(0, root);
    b
}

/// Copies a trigger's variables 0 to 3 and a constant to cells of table 2.
pub(super) fn show_variables(b: &mut Builder) -> u16 {
    let mut body = set(b, 2, [0, 4], 50);
    for variable in 0..4 {
        let value = b.variable(variable);
        let show = put(b, 2, [0, variable.into()], value);
        body = b.then(body, show);
    }
    body
}

/// Cells of tables 1 and 2 whose labels hold those of A and B.
pub(super) fn ready(b: &mut Builder, keys: &[(u8, [i32; 2])]) -> u16 {
    let [first, second] = [A, B].map(|line| held(b, line));
    let both = b.operator(kind::ADD, first, second);
    let puts: Vec<u16> = keys
        .iter()
        .map(|&(table, key)| put(b, table, key, both))
        .collect();
    block(b, &puts)
}

/// Cells to get ready for a put or clear at owner 2, line 5, whose trigger shows
/// its variables.
pub(super) const SHOWN: [(u8, [i32; 2]); 6] = [
    (1, [2, 5]),
    (2, [0, 0]),
    (2, [0, 1]),
    (2, [0, 2]),
    (2, [0, 3]),
    (2, [0, 4]),
];

/// In A's context, a put at an owner labelled by B of an amount labelled by C.
fn put_variables() -> Builder {
    let mut b = office();
    let ready = ready(&mut b, &SHOWN);
    let owner = held(&mut b, B);
    let line = constant(&mut b, 5);
    let amount = held(&mut b, C);
    let write = b.put(1, owner, line, amount);
    let secret = held(&mut b, A);
    let last = when(&mut b, secret, write);
    let root = b.then(ready, last);
    b.program(0, root);
    let body = show_variables(&mut b);
    b.put_trigger(1, 5, body);
    b
}

/// The same for a clear.
fn clear_variables() -> Builder {
    let mut b = office();
    let ready = ready(&mut b, &SHOWN);
    let owner = held(&mut b, B);
    let line = constant(&mut b, 5);
    let write = b.clear(1, owner, line);
    let secret = held(&mut b, A);
    let last = when(&mut b, secret, write);
    let root = b.then(ready, last);
    b.program(0, root);
    let body = show_variables(&mut b);
    b.clear_trigger(1, 5, body);
    b
}

/// A trigger runs in the context of the key, and its own branch adds to it.
fn trigger_contexts() -> Builder {
    let mut b = office();
    let keys = [(1, [2, 0]), (2, [2, 0]), (2, [2, 1])];
    let ready = ready(&mut b, &keys);
    let owner = held(&mut b, B);
    let line = constant(&mut b, 0);
    let write = b.put(1, owner, line, line);
    let root = b.then(ready, write);
    b.program(0, root);
    let [posted, beside] = [0, 1].map(|variable| b.variable(variable));
    let same = b.put(2, posted, beside, posted);
    let secret = held(&mut b, A);
    let inner = set(&mut b, 2, [2, 1], 21);
    let branch = when(&mut b, secret, inner);
    let open = set(&mut b, 2, [3, 3], 3);
    let body = block(&mut b, &[same, branch, open]);
    b.put_trigger(1, 5, body);
    b
}

/// The first trigger overwrites or clears the cell that was put; the second
/// still runs, with the amount that was put.
fn overwritten() -> Builder {
    let mut b = office();
    let root = set(&mut b, 1, [1, 1], 11);
    b.program(0, root);
    let over = set(&mut b, 1, [1, 1], 12);
    let gone = clear(&mut b, 1, [1, 1]);
    let first = b.then(over, gone);
    b.put_trigger(1, 0, first);
    let put_amount = b.variable(2);
    let second = put(&mut b, 2, [2, 2], put_amount);
    b.put_trigger(1, 5, second);
    let now = amount(&mut b, 1, 1, 1);
    let third = put(&mut b, 2, [3, 3], now);
    b.clear_trigger(1, 5, third);
    b
}

/// A clear of an absent cell relabels it and sets off triggers.
fn clears() -> Builder {
    let mut b = office();
    let secret = held(&mut b, A);
    let label = put(&mut b, 1, [6, 6], secret);
    let open = clear(&mut b, 1, [6, 6]);
    let turns = amount(&mut b, 2, 0, 0);
    let one = constant(&mut b, 1);
    let more = b.operator(kind::ADD, turns, one);
    let count = put(&mut b, 2, [0, 0], more);
    b.clear_trigger(1, 5, count);
    let inner = when(&mut b, secret, open);
    let root = block(&mut b, &[open, label, inner, open, open]);
    b.program(0, root);
    b
}

/// Cells and rights go on from program to program, variables do not.
fn programs() -> Builder {
    let mut b = office();
    let secret = held(&mut b, B);
    let keep = b.assign(5, secret);
    let write = set(&mut b, 1, [1, 0], 10);
    let grant = b.grant_read(2, 1);
    let first = block(&mut b, &[keep, write, grant]);
    b.program(0, first);
    let value = b.variable(5);
    let fresh = b.out(2, value);
    let cell = amount(&mut b, 1, 1, 0);
    let shown = b.out(2, cell);
    let second = b.then(fresh, shown);
    b.program(4, second);
    let third = tell(&mut b, 0, i32::MIN);
    b.program(7, third);
    b.program(2, grant);
    b
}

/// A variable raised beforehand may be assigned in a branch.
fn raises() -> Builder {
    let mut b = office();
    let raise = b.raise(2, CELL_A);
    let secret = held(&mut b, A);
    let inner = assign(&mut b, 2, 77);
    let more = b.raise(2, 1);
    let both = b.then(inner, more);
    let branch = when(&mut b, secret, both);
    let value = b.variable(2);
    let keep = put(&mut b, 2, [0, 0], value);
    let out = b.out(1, value);
    let root = block(&mut b, &[raise, branch, keep, out]);
    b.program(0, root);
    b
}

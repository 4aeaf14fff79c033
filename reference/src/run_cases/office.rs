//! A book to write scripts in, and the short forms that scripts are made of.

use crate::book::{kind, Node};
use crate::builder::Builder;

// Lines of owner 0 in table 0 whose cells hold 1, 2 and 3.
pub(super) const A: u8 = 0;
pub(super) const B: u8 = 1;
pub(super) const C: u8 = 2;

// Regions; 0, 1 and 2 are the whole tables of these numbers.
pub(super) const CELL_A: u8 = 3;
pub(super) const CELL_B: u8 = 4;
pub(super) const OPEN: u8 = 5;
pub(super) const CORNER: u8 = 6;

/// User 0 writes tables 0 to 2, user 5 writes table 2, and user 6 a corner of
/// table 6. User 1 reads cell A. Table 7, where (7,0,0) holds 5, is public.
pub(super) fn office() -> Builder {
    let mut b = Builder::new();
    for line in [A, B, C] {
        b.cell(0, 0, line, i32::from(line) + 1);
    }
    b.cell(7, 0, 0, 5);
    for table in 0..3 {
        let region = b.region(table, 0..=7, 0..=7);
        b.write(0, region);
    }
    b.region(0, 0..=0, A..=A);
    b.region(0, 0..=0, B..=B);
    b.region(7, 0..=7, 0..=7);
    b.region(6, 2..=3, 4..=5);
    b.read(1, CELL_A);
    b.public(OPEN);
    b.write(5, 2);
    b.write(6, CORNER);
    b
}

/// A constant; the node of an earlier one if there is one.
pub(super) fn constant(b: &mut Builder, k: i32) -> u16 {
    let same = |node: &Node| node.kind == kind::CONSTANT && node.k == k;
    match b.book.nodes.iter().position(same) {
        Some(number) => number as u16,
        None => b.constant(k),
    }
}

/// A sum, difference or comparison of constants.
pub(super) fn operate(b: &mut Builder, kind: u8, left: i32, right: i32) -> u16 {
    let left = constant(b, left);
    let right = constant(b, right);
    b.operator(kind, left, right)
}

/// A sum that leaves 32 bits.
pub(super) fn too_large(b: &mut Builder) -> u16 {
    operate(b, kind::ADD, i32::MAX, 1)
}

/// A query over constant bounds: first and last owner, first and last line.
pub(super) fn query(b: &mut Builder, kind: u8, table: u8, bounds: [i32; 4]) -> u16 {
    let bounds = bounds.map(|bound| constant(b, bound));
    b.query(kind, table, bounds)
}

/// The amount of one cell.
pub(super) fn amount(b: &mut Builder, table: u8, owner: u8, line: u8) -> u16 {
    let [owner, line] = [owner, line].map(i32::from);
    query(b, kind::SUM, table, [owner, owner, line, line])
}

/// The amount of cell A, B or C.
pub(super) fn held(b: &mut Builder, line: u8) -> u16 {
    amount(b, 0, 0, line)
}

/// A put at a constant key.
pub(super) fn put(b: &mut Builder, table: u8, key: [i32; 2], amount: u16) -> u16 {
    let [owner, line] = key.map(|k| constant(b, k));
    b.put(table, owner, line, amount)
}

/// A put of a constant at a constant key.
pub(super) fn set(b: &mut Builder, table: u8, key: [i32; 2], k: i32) -> u16 {
    let amount = constant(b, k);
    put(b, table, key, amount)
}

/// A clear at a constant key.
pub(super) fn clear(b: &mut Builder, table: u8, key: [i32; 2]) -> u16 {
    let [owner, line] = key.map(|k| constant(b, k));
    b.clear(table, owner, line)
}

/// An assignment of a constant.
pub(super) fn assign(b: &mut Builder, variable: u8, k: i32) -> u16 {
    let value = constant(b, k);
    b.assign(variable, value)
}

/// An out of a constant.
pub(super) fn tell(b: &mut Builder, user: u8, k: i32) -> u16 {
    let value = constant(b, k);
    b.out(user, value)
}

/// A command run if the expression is not 0.
pub(super) fn when(b: &mut Builder, condition: u16, command: u16) -> u16 {
    let skip = b.skip();
    b.choose(condition, command, skip)
}

/// Commands one after the other.
pub(super) fn block(b: &mut Builder, commands: &[u16]) -> u16 {
    let mut commands = commands.iter().copied();
    let first = commands.next().unwrap_or_else(|| b.skip());
    commands.fold(first, |block, next| b.then(block, next))
}

/// A command run twice as often with each of so many nodes more.
pub(super) fn doubled(b: &mut Builder, command: u16, times: usize) -> u16 {
    (0..times).fold(command, |command, _| b.then(command, command))
}

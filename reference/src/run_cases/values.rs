//! Expressions at the ends of 32 bits and of the keys.

use super::office::{constant, office, operate, put, query};
use super::Case;
use crate::book::kind;
use crate::builder::Builder;

pub(super) fn cases() -> Vec<Case> {
    let mut files = operators();
    files.extend(queries());
    files.extend(sums());
    files.push(variables());
    files.into_iter().map(Case::ample).collect()
}

/// Every operator with every pair of these amounts.
fn operators() -> Vec<Vec<u8>> {
    let amounts = [i32::MIN, i32::MIN + 1, -1, 0, 1, i32::MAX - 1, i32::MAX];
    let mut files = Vec::new();
    for kind in kind::ADD..=kind::LESS {
        for left in amounts {
            for right in amounts {
                let mut b = Builder::new();
                let value = operate(&mut b, kind, left, right);
                let out = b.out(3, value);
                b.program(0, out);
                files.push(b.book.encode());
            }
        }
    }
    files
}

const QUERIES: [u8; 4] = [kind::COUNT, kind::SUM, kind::SMALLEST, kind::LARGEST];

/// All four queries, put into cells, with these ranges of owners and lines:
/// inside, at the ends, outside, and with first above last. Where no cell is
/// present, the third one stops the run.
fn queries() -> Vec<Vec<u8>> {
    let ranges = [
        [0, 7],
        [2, 5],
        [7, 7],
        [3, 2],
        [-1, 0],
        [7, 8],
        [8, 9],
        [i32::MIN, i32::MAX],
        [i32::MAX, i32::MIN],
    ];
    let mut files = Vec::new();
    for owners in ranges {
        for lines in ranges {
            let mut b = scattered();
            let bounds = [owners[0], owners[1], lines[0], lines[1]];
            for (number, kind) in QUERIES.into_iter().enumerate() {
                let value = query(&mut b, kind, 5, bounds);
                let put = put(&mut b, 1, [0, number as i32], value);
                b.program(0, put);
            }
            files.push(b.book.encode());
        }
    }
    files
}

/// Cells of table 5 at its corners and inside, with amounts of both signs.
fn scattered() -> Builder {
    let mut b = Builder::new();
    for (owner, line, amount) in [
        (0, 0, -7),
        (0, 7, 100),
        (2, 5, 0),
        (3, 2, 30),
        (3, 3, -400),
        (5, 2, 6),
        (7, 0, 9_000),
        (7, 7, -80_000),
    ] {
        b.cell(5, owner, line, amount);
    }
    let ledger = b.region(1, 0..=7, 0..=7);
    b.write(0, ledger);
    b
}

/// All four queries of a line of amounts: of one sign, and with an exact sum at
/// an end of 32 bits or past it, also where only a part of the sum is.
fn sums() -> Vec<Vec<u8>> {
    let (least, most) = (i32::MIN, i32::MAX);
    let lines: [&[i32]; 26] = [
        &[5],
        &[-5],
        &[4, 8, 6],
        &[-4, -8, -6],
        &[-1; 8],
        &[-70_000, -3, -3],
        &[most, 0],
        &[most, 1],
        &[1, most],
        &[least, 0],
        &[least, -1],
        &[-1, least],
        &[most, most, least, least],
        &[least, least, most, most, 1],
        &[most, 1, -1],
        &[least, -1, 1],
        &[6, most, -7],
        &[-6, least, 7],
        &[2, 3, most, -5],
        &[-2, -3, least, 5],
        &[most, 70_000, -70_000],
        &[least, -70_000, 70_000],
        &[most, most, most, least, least],
        &[least, least, least, most, most, 5],
        &[most; 8],
        &[least; 8],
    ];
    lines.map(sum_of).to_vec()
}

fn sum_of(amounts: &[i32]) -> Vec<u8> {
    let mut b = Builder::new();
    for (line, &amount) in amounts.iter().enumerate() {
        b.cell(4, 6, line as u8, amount);
    }
    let table = b.region(4, 6..=6, 0..=7);
    b.read(2, table);
    for kind in [kind::SMALLEST, kind::LARGEST, kind::COUNT, kind::SUM] {
        let value = query(&mut b, kind, 4, [6, 6, 0, 7]);
        let out = b.out(2, value);
        b.program(0, out);
    }
    b.book.encode()
}

/// Every variable is assigned its own amount and put into a cell; the next
/// program finds all of them 0.
fn variables() -> Vec<u8> {
    let mut b = office();
    for table in [1, 2] {
        let mut root = b.skip();
        for variable in 0..16 {
            let [owner, line] = [variable / 8, variable % 8].map(|key| constant(&mut b, key));
            let value = b.variable(variable as u8);
            let put = b.put(table, owner, line, value);
            root = b.then(root, put);
        }
        for variable in 0..16 {
            let amount = constant(&mut b, 100 + variable);
            let assign = b.assign(variable as u8, amount);
            root = b.then(assign, root);
        }
        b.program(0, root);
    }
    b.book.encode()
}

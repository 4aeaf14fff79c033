//! The label of an expression: each of its parts has a share in it. The label of
//! a raised variable: the region's places have.

use super::office::{amount, block, constant, held, office, put, A, B, C, CELL_A};
use super::Case;
use crate::book::kind;
use crate::builder::Builder;

pub(super) fn cases() -> Vec<Case> {
    let mut files = operators();
    files.extend(queries());
    files.extend(raises());
    files.into_iter().map(Case::ample).collect()
}

/// Parts with three labels: none, that of A and that of B.
const PARTS: [fn(&mut Builder) -> u16; 3] = [|b| constant(b, 0), |b| held(b, A), |b| held(b, B)];

/// Every operator, with parts of two labels.
fn operators() -> Vec<Vec<u8>> {
    let mut files = Vec::new();
    for kind in kind::ADD..=kind::LESS {
        for (left, right) in [(0, 1), (0, 2), (1, 0), (1, 2), (2, 0), (2, 1)] {
            let mut b = office();
            let [left, right] = [left, right].map(|part| PARTS[part](&mut b));
            let value = b.operator(kind, left, right);
            files.push(kept(b, value));
        }
    }
    files
}

/// Every query of public cells, with one bound that is not. There is a cell
/// between any of the bounds of a smallest or largest.
fn queries() -> Vec<Vec<u8>> {
    let mut files = Vec::new();
    for kind in kind::COUNT..=kind::LARGEST {
        let last = if kind <= kind::SUM { 0 } else { 2 };
        for bound in 0..4 {
            for part in [1, 2] {
                let mut b = office();
                b.cell(7, 2, 2, 6);
                let mut bounds = [0, last, 0, last].map(|k| constant(&mut b, k));
                bounds[bound] = PARTS[part](&mut b);
                let value = b.query(kind, 7, bounds);
                files.push(kept(b, value));
            }
        }
    }
    files
}

/// Raises by a region one of whose cells may have got the label of another cell.
fn raises() -> Vec<Vec<u8>> {
    let amounts: [fn(&mut Builder) -> u16; 3] =
        [|b| held(b, B), |b| held(b, C), |b| amount(b, 7, 0, 0)];
    let mut files = Vec::new();
    for make in amounts {
        for (table, line) in [(0, A), (2, 0)] {
            for region in [0, 2, CELL_A] {
                let mut b = office();
                let other = make(&mut b);
                let relabel = put(&mut b, table, [0, line.into()], other);
                let raise = b.raise(3, region);
                b.program(0, relabel);
                let value = b.variable(3);
                let keep = put(&mut b, 1, [0, 0], value);
                let root = block(&mut b, &[raise, keep]);
                b.program(0, root);
                files.push(b.book.encode());
            }
        }
    }
    files
}

/// The value is put into a cell, and then told to user 1, who reads A.
fn kept(mut b: Builder, value: u16) -> Vec<u8> {
    let keep = put(&mut b, 1, [0, 0], value);
    let out = b.out(1, value);
    let root = b.then(keep, out);
    b.program(0, root);
    b.book.encode()
}

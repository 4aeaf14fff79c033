//! Which triggers run, and in which order.

use super::office::{amount, clear, constant, office, set};
use super::Case;
use crate::book::kind;
use crate::builder::Builder;

pub(super) fn cases() -> Vec<Case> {
    let mut files = Vec::new();
    for first in 0..WAYS {
        for second in 0..WAYS {
            files.push(triggers(&[first, second]));
        }
    }
    // Of the ways of three triggers, one in 11.
    for number in (0..WAYS.pow(3)).step_by(11) {
        let ways = [1, WAYS, WAYS * WAYS].map(|step| number / step % WAYS);
        files.push(triggers(&ways));
    }
    files.push(triggers(&[0; 8]));
    files.push(triggers(&[11, 0, 1, 5, 7, 2, 8, 4]));
    files.extend((0..64).map(edges));
    files.into_iter().map(Case::ample).collect()
}

/// The ways that a trigger can be: two events, two regions, three bodies.
const WAYS: usize = 12;

/// A cell of table 1 is put, put again and cleared, then one of table 2, with
/// these triggers. Each trigger leaves its mark in a cell, and may then write a
/// cell that sets off others. Marks are added to twice the amount so far, so
/// that their order shows.
fn triggers(ways: &[usize]) -> Vec<u8> {
    let mut b = office();
    let writes = [
        set(&mut b, 1, [3, 4], 34),
        set(&mut b, 1, [3, 4], 35),
        clear(&mut b, 1, [3, 4]),
        set(&mut b, 2, [5, 6], 56),
    ];
    for write in writes {
        b.program(0, write);
    }
    for (number, way) in ways.iter().enumerate() {
        let mark = mark(&mut b, number as i32 + 1);
        let body = match way / 4 {
            0 => mark,
            1 => {
                let more = set(&mut b, 2, [5, 6], 57);
                b.then(mark, more)
            }
            _ => {
                let less = clear(&mut b, 1, [3, 4]);
                b.then(less, mark)
            }
        };
        let region = 1 + (way % 4 / 2) as u8;
        match way % 2 {
            0 => b.put_trigger(region, 0, body),
            _ => b.clear_trigger(region, 0, body),
        }
    }
    b.book.encode()
}

/// Doubles the amount of (0,7,7) and adds this much.
fn mark(b: &mut Builder, more: i32) -> u16 {
    let so_far = amount(b, 0, 7, 7);
    let twice = b.operator(kind::ADD, so_far, so_far);
    let more = constant(b, more);
    let marked = b.operator(kind::ADD, twice, more);
    let [owner, line] = [7, 7].map(|key| constant(b, key));
    b.put(0, owner, line, marked)
}

/// A write at one of 64 keys, with a trigger on a region whose corners some of
/// these are next to.
fn edges(key: u8) -> Vec<u8> {
    let mut b = office();
    let [owner, line] = [key / 8, key % 8].map(i32::from);
    let write = set(&mut b, 1, [owner, line], 1);
    b.program(0, write);
    let region = b.region(1, 2..=6, 1..=4);
    let body = mark(&mut b, 1);
    b.put_trigger(region, 0, body);
    b.clear_trigger(region, 0, body);
    b.book.encode()
}

//! Whether there is nothing, where that is hidden: a run stops or goes on by it,
//! and what it goes on with has the labels of all cells and bounds.

use super::super::office::{
    assign, constant, held, office, put, query, set, tell, A, B, CELL_A, CELL_B,
};
use super::{ending, Story, EXTREMES};
use crate::book::kind;
use crate::builder::Builder;

/// A command that uses a value, and the number that it stops with; 0 for none.
type Use = (u32, fn(&mut Builder, u16) -> u16);

const USES: [Use; 8] = [
    (0, |b, value| put(b, 1, [0, 0], value)),
    (27, |b, value| b.out(1, value)),
    (25, |b, value| {
        let command = assign(b, 8, 1);
        b.choose(value, command, command)
    }),
    (25, |b, value| {
        let command = b.raise(8, CELL_A);
        b.choose(value, command, command)
    }),
    (26, |b, value| {
        let command = set(b, 1, [5, 5], 1);
        b.choose(value, command, command)
    }),
    (26, |b, value| {
        let line = constant(b, 0);
        b.clear(2, value, line)
    }),
    (29, |b, value| {
        let command = b.grant_read(3, 1);
        b.choose(value, command, command)
    }),
    // A fresh variable that was raised before the branch.
    (0, |b, value| {
        let ready = b.raise(8, CELL_B);
        let command = assign(b, 8, 1);
        let branch = b.choose(value, command, command);
        b.then(ready, branch)
    }),
];

pub(super) fn stories() -> Vec<Story> {
    let mut stories = Vec::new();
    for extreme in EXTREMES {
        for present in [true, false] {
            stories.extend(USES.map(|next| followed(extreme, present, next)));
        }
        for absent in [&[][..], &[A], &[B], &[A, B]] {
            stories.push(beside_readable(extreme, absent));
        }
        for present in [true, false] {
            stories.push(readable(extreme, present));
        }
        stories.extend((0..4).map(|bound| secret_bound(extreme, bound)));
    }
    stories
}

/// The office without the cells at these lines of table 0.
fn office_without(lines: &[u8]) -> Builder {
    let mut b = office();
    let stays = |line: u8| !lines.contains(&line);
    b.book
        .cells
        .retain(|cell| cell.table != 0 || stays(cell.line));
    b
}

/// The smallest or largest of B is kept in a variable, and a command uses that.
fn followed(extreme: u8, present: bool, (number, next): Use) -> Story {
    let mut b = office_without(if present { &[] } else { &[B] });
    let before = tell(&mut b, 1, 3);
    let value = query(&mut b, extreme, 0, [0, 0, B.into(), B.into()]);
    let keep = b.assign(7, value);
    let kept = b.variable(7);
    let last = next(&mut b, kept);
    let node = stopping(&b, number, last);
    match present {
        true => ending(b, &[before, keep, last], number, node),
        false => ending(b, &[before, keep, last], 31, value),
    }
}

/// The command that stops: the last one itself, or a branch of it.
fn stopping(b: &Builder, number: u32, last: u16) -> u16 {
    let node = b.book.nodes[usize::from(last)];
    match node.kind {
        _ if number == 0 => 0,
        kind::IF => node.b,
        _ => last,
    }
}

/// User 1 may read A and not B. What he is told of both has the label of both,
/// whichever is present.
fn beside_readable(extreme: u8, absent: &[u8]) -> Story {
    let mut b = office_without(absent);
    let value = query(&mut b, extreme, 0, [0, 0, A.into(), B.into()]);
    let keep = put(&mut b, 1, [0, 0], value);
    let out = b.out(1, value);
    match absent.len() < 2 {
        true => ending(b, &[keep, out], 27, out),
        false => ending(b, &[keep, out], 31, value),
    }
}

/// User 1 is told the smallest or largest of A.
fn readable(extreme: u8, present: bool) -> Story {
    let mut b = office_without(if present { &[] } else { &[A] });
    let value = query(&mut b, extreme, 0, [0, 0, A.into(), A.into()]);
    let out = b.out(1, value);
    match present {
        true => ending(b, &[out], 0, 0),
        false => ending(b, &[out], 31, value),
    }
}

/// A bound is the amount of B, which is 2. As the last owner or line it leaves
/// the present cell in, as the first one it leaves none.
fn secret_bound(extreme: u8, bound: usize) -> Story {
    let mut b = office();
    let zero = constant(&mut b, 0);
    let mut bounds = [zero; 4];
    bounds[bound] = held(&mut b, B);
    let value = b.query(extreme, 7, bounds);
    let keep = put(&mut b, 1, [0, 0], value);
    let out = b.out(1, value);
    let commands = [keep, out];
    match bound % 2 == 1 {
        true => ending(b, &commands, 27, out),
        false => ending(b, &commands, 31, value),
    }
}

//! Where the smallest or largest of nothing may stand: in commands, and in other
//! expressions.

use super::super::office::{block, constant, held, office, put, query, tell, too_large, when, A};
use super::super::stops::{fault, in_settings, Fault};
use super::super::Case;
use super::{nothing, stops, Story, EXTREMES, NOTHINGS};
use crate::book::kind;
use crate::builder::Builder;
use std::cmp::Ordering;

/// The cases, each with the number that it stops with.
pub(super) fn in_commands() -> Vec<(u32, Case)> {
    in_settings(commands())
}

/// The smallest or largest of nothing. Each setting of a command has another
/// number of nodes before it, so that both come up in it.
fn either(b: &mut Builder, number: usize) -> u16 {
    let extreme = EXTREMES[(b.book.nodes.len() + number) % 2];
    query(b, extreme, 3, NOTHINGS[number % 3])
}

/// Every command that evaluates something, each of whose parts is nothing in
/// turn; what is wrong with the command itself comes later.
fn commands() -> Vec<Fault> {
    let mut faults = vec![
        fault(31, |b| {
            let value = either(b, 0);
            b.assign(6, value)
        }),
        fault(31, |b| {
            let (condition, skip) = (either(b, 1), b.skip());
            b.choose(condition, skip, skip)
        }),
        fault(31, |b| {
            let (test, skip) = (either(b, 2), b.skip());
            b.repeat(test, skip)
        }),
        // Not readable either, and there is no room in the trace.
        fault(31, |b| {
            let value = either(b, 3);
            b.out(2, value)
        })
        .with_trace(7),
    ];
    for makes in [&PUTS[..], &CLEARS, &IN_SECRET] {
        faults.extend(makes.iter().map(|&make| fault(31, make)));
    }
    faults
}

/// The key of the first is outside, and user 0 may not write the table of the
/// next two.
const PUTS: [fn(&mut Builder) -> u16; 4] = [
    |b| {
        let (amount, key) = (either(b, 4), constant(b, 9));
        b.put(1, key, key, amount)
    },
    |b| {
        let amount = either(b, 3);
        put(b, 4, [1, 1], amount)
    },
    |b| {
        let (owner, one) = (either(b, 5), constant(b, 1));
        b.put(4, owner, one, one)
    },
    |b| {
        let (line, one) = (either(b, 0), constant(b, 1));
        b.put(1, one, line, one)
    },
];

/// In the context of A, which neither a variable's label has nor a cell's.
const IN_SECRET: [fn(&mut Builder) -> u16; 2] = [
    |b| {
        let (value, secret) = (either(b, 4), held(b, A));
        let command = b.assign(6, value);
        when(b, secret, command)
    },
    |b| {
        let (value, secret) = (either(b, 5), held(b, A));
        let command = put(b, 1, [1, 1], value);
        when(b, secret, command)
    },
];

const CLEARS: [fn(&mut Builder) -> u16; 2] = [
    |b| {
        let (owner, line) = (either(b, 1), constant(b, 8));
        b.clear(1, owner, line)
    },
    |b| {
        let (owner, line) = (constant(b, 1), either(b, 2));
        b.clear(1, owner, line)
    },
];

/// Expressions of which a part stops: the first one that does, in the order of
/// the parts, and before the expression itself.
pub(super) fn in_expressions() -> Vec<Story> {
    let mut stories = Vec::new();
    for kind in kind::ADD..=kind::LESS {
        stories.extend((0..2).flat_map(|part| among_parts(kind, 2, part)));
    }
    for kind in kind::COUNT..=kind::LARGEST {
        stories.extend((0..4).flat_map(|part| among_parts(kind, 4, part)));
    }
    stories.extend(EXTREMES.map(far_below));
    stories
}

type Part = fn(&mut Builder) -> u16;

/// One part is nothing; then the later ones are faulty too, in two ways; then the
/// earlier ones are.
fn among_parts(kind: u8, count: usize, part: usize) -> Vec<Story> {
    let one: Part = |b| constant(b, 1);
    let smallest: Part = |b| nothing(b, 2);
    let largest: Part = |b| nothing(b, 3);
    let parts = |before: Part, own: Part, after: Part| -> Vec<Part> {
        let all = (0..count).map(|at| match at.cmp(&part) {
            Ordering::Less => before,
            Ordering::Equal => own,
            Ordering::Greater => after,
        });
        all.collect()
    };
    let mut stories = vec![
        of_parts(kind, &parts(one, smallest, one), (31, part)),
        of_parts(kind, &parts(one, largest, one), (31, part)),
    ];
    if part + 1 < count {
        stories.push(of_parts(kind, &parts(one, smallest, too_large), (31, part)));
        stories.push(of_parts(kind, &parts(one, largest, smallest), (31, part)));
    }
    if part > 0 {
        stories.push(of_parts(kind, &parts(too_large, smallest, one), (22, 0)));
    }
    stories
}

/// An expression with these parts, on one of which it stops with a number.
fn of_parts(kind: u8, parts: &[Part], (number, at): (u32, usize)) -> Story {
    let mut b = office();
    let first = tell(&mut b, 2, 4);
    let mut children = [0; 4];
    for (child, part) in children.iter_mut().zip(parts) {
        *child = part(&mut b);
    }
    let value = expression(&mut b, kind, children);
    let last = b.assign(0, value);
    let root = block(&mut b, &[first, last]);
    b.program(0, root);
    stops(number, children[at], Case::ample(b.book.encode()))
}

/// An operator has two parts, a query four.
fn expression(b: &mut Builder, kind: u8, parts: [u16; 4]) -> u16 {
    match kind {
        kind::ADD..=kind::LESS => b.operator(kind, parts[0], parts[1]),
        _ => b.query(kind, 0, parts),
    }
}

/// Nothing as a bound of a query that is a bound of another, and so on.
fn far_below(kind: u8) -> Story {
    let mut b = office();
    let faulty = query(&mut b, kind, 3, NOTHINGS[0]);
    let mut value = faulty;
    for _ in 0..20 {
        value = b.query(kind, 3, [value; 4]);
        value = b.operator(kind::SUBTRACT, value, value);
    }
    let last = b.assign(0, value);
    b.program(0, last);
    stops(31, faulty, Case::ample(b.book.encode()))
}

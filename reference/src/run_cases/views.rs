//! What a trigger sees: variables that tell of the write, each with its label,
//! and the cells as they are when it runs.

use super::office::{assign, block, clear, constant, held, office, put, query, set, when, A, B, C};
use super::scripts::{ready, show_variables, SHOWN};
use super::Case;
use crate::book::kind;
use crate::builder::Builder;

pub(super) fn cases() -> Vec<Case> {
    let mut files = Vec::new();
    for body in BODIES {
        for key in KEYS {
            for inside in [false, true] {
                files.extend(WRITES.map(|write| told(body, key, inside, write)));
            }
        }
    }
    for earlier in EARLIER {
        files.extend(WRITES.map(|write| told_after(earlier, write)));
    }
    for kind in [kind::COUNT, kind::SUM] {
        for change in CHANGES {
            files.extend(ORDERS.map(|order| seen(kind, change, order)));
        }
    }
    files.into_iter().map(Case::ample).collect()
}

type Make = fn(&mut Builder) -> u16;
type Write = fn(&mut Builder, [u16; 2]) -> u16;

/// Shows the first variables; writes where the variable of the amount is not 0;
/// and uses all variables.
const BODIES: [Make; 3] = [
    show_variables,
    |b| {
        let amount = b.variable(2);
        let write = set(b, 2, [0, 0], 6);
        when(b, amount, write)
    },
    use_variables,
];

/// Shows the sum of all variables, and assigns each, which needs the context in
/// its label.
fn use_variables(b: &mut Builder) -> u16 {
    let zero = constant(b, 0);
    let sum = (0..16).fold(zero, |sum, variable| {
        let value = b.variable(variable);
        b.operator(kind::ADD, sum, value)
    });
    let show = put(b, 2, [0, 3], sum);
    (0..16).fold(show, |before, variable| {
        let assign = assign(b, variable, 7);
        b.then(before, assign)
    })
}

/// Owner and line; B is 2.
const KEYS: [[Make; 2]; 3] = [
    [|b| constant(b, 2), |b| constant(b, 5)],
    [|b| held(b, B), |b| constant(b, 5)],
    [|b| constant(b, 5), |b| held(b, B)],
];

/// Writes of a cell with these keys.
const WRITES: [Write; 3] = [
    |b, [owner, line]| {
        let amount = constant(b, 8);
        b.put(1, owner, line, amount)
    },
    |b, [owner, line]| {
        let amount = held(b, C);
        b.put(1, owner, line, amount)
    },
    |b, [owner, line]| b.clear(1, owner, line),
];

/// The write, by itself or in A's context, with a trigger for it. The program's
/// own variable 3 is assigned beforehand and told afterwards. The last trigger labels all cells that are written by A and B
/// beforehand, so that this sets off no other.
fn told(body: Make, key: [Make; 2], inside: bool, write: Write) -> Vec<u8> {
    let mut b = office();
    let start = [set(&mut b, 2, [7, 7], 1), assign(&mut b, 3, 90)];
    let key = key.map(|part| part(&mut b));
    let mut last = write(&mut b, key);
    if inside {
        let secret = held(&mut b, A);
        last = when(&mut b, secret, last);
    }
    let own = b.variable(3);
    let after = b.out(2, own);
    let root = block(&mut b, &[start[0], start[1], last, after]);
    b.program(0, root);
    let command = body(&mut b);
    b.put_trigger(1, 5, command);
    b.clear_trigger(1, 5, command);
    let labelling = ready(&mut b, &[&SHOWN[..], &[(1, [5, 2])]].concat());
    let corner = b.region(2, 7..=7, 7..=7);
    b.put_trigger(corner, 0, labelling);
    b.book.encode()
}

/// What an earlier trigger of the same write does: to the cell that was written,
/// or to its own variables.
const EARLIER: [Make; 5] = [
    |b| set(b, 1, [2, 5], 12),
    |b| {
        let other = held(b, B);
        put(b, 1, [2, 5], other)
    },
    |b| clear(b, 1, [2, 5]),
    use_variables,
    |b| {
        let raises: Vec<u16> = (0..4).map(|variable| b.raise(variable, 0)).collect();
        block(b, &raises)
    },
];

/// The write, and a trigger that shows its variables after another one has run.
fn told_after(earlier: Make, write: Write) -> Vec<u8> {
    let mut b = office();
    let key = KEYS[0].map(|part| part(&mut b));
    let root = write(&mut b, key);
    b.program(0, root);
    for (user, body) in [(0, earlier), (5, show_variables)] {
        let command = body(&mut b);
        b.put_trigger(1, user, command);
        b.clear_trigger(1, user, command);
    }
    b.book.encode()
}

/// Changes of cell C.
const CHANGES: [Make; 2] = [
    |b| set(b, 0, [0, C.into()], 70),
    |b| clear(b, 0, [0, C.into()]),
];

/// Ways to have a trigger's look at cell C, the first command, come after the
/// change of C, the second: by the program before, and between two writes; by an
/// earlier trigger, and by a later one, of an earlier write; by the write that
/// fires it; and by what an earlier trigger fires.
const ORDERS: [fn(&mut Builder, u16, u16); 6] = [
    |b, look, change| {
        let post = post(b);
        let root = b.then(change, post);
        b.program(0, root);
        b.put_trigger(1, 0, look);
    },
    |b, look, change| {
        let post = post(b);
        let root = block(b, &[post, change, post]);
        b.program(0, root);
        b.put_trigger(1, 0, look);
    },
    |b, look, change| {
        let post = post(b);
        b.program(0, post);
        b.put_trigger(1, 0, change);
        b.put_trigger(1, 0, look);
    },
    |b, look, change| {
        let post = post(b);
        let root = b.then(post, post);
        b.program(0, root);
        b.put_trigger(1, 0, look);
        b.put_trigger(1, 0, change);
    },
    |b, look, change| {
        let post = post(b);
        b.program(0, post);
        b.put_trigger(1, 0, change);
        b.put_trigger(0, 0, look);
        b.clear_trigger(0, 0, look);
    },
    |b, look, change| {
        let post = post(b);
        b.program(0, post);
        let further = set(b, 2, [6, 6], 1);
        b.put_trigger(1, 0, further);
        b.put_trigger(2, 0, change);
        b.put_trigger(1, 0, look);
    },
];

fn post(b: &mut Builder) -> u16 {
    set(b, 1, [1, 1], 1)
}

/// A trigger puts what a query of cell C gives into a cell.
fn seen(kind: u8, change: Make, order: fn(&mut Builder, u16, u16)) -> Vec<u8> {
    let mut b = office();
    let line = C.into();
    let value = query(&mut b, kind, 0, [0, 0, line, line]);
    let look = put(&mut b, 2, [0, 0], value);
    let change = change(&mut b);
    order(&mut b, look, change);
    b.book.encode()
}

//! What books with a failing posting are made of.

use super::super::office::{
    amount, assign, clear, constant, put, query, set, tell, too_large, when,
};
use crate::book::kind;
use crate::builder::Builder;

/// A cell that holds 44 at the start.
pub(super) const OTHER: [i32; 2] = [4, 4];

/// User 0 may write everywhere but at owner 3 of table 6. Region n is the whole
/// of table n. Besides the secret, a cell of table 1 and one of table 2 are
/// present.
pub(super) fn ledger() -> Builder {
    let mut b = Builder::new();
    b.cell(0, 3, 4, 1);
    b.cell(1, 2, 3, 23);
    b.cell(2, 4, 4, 44);
    for table in 0..8 {
        let region = b.region(table, 0..=7, 0..=7);
        if table != 6 {
            b.write(0, region);
        }
    }
    for owners in [0..=2, 4..=7] {
        let region = b.region(6, owners, 0..=7);
        b.write(0, region);
    }
    b
}

/// The amount of a cell that holds 1, and whose place is in no other label.
pub(super) fn secret(b: &mut Builder) -> u16 {
    amount(b, 0, 3, 4)
}

/// A command that stops, and with which number.
#[derive(Clone, Copy)]
pub(super) struct Fault {
    pub(super) number: u32,
    pub(super) make: fn(&mut Builder) -> u16,
}

const fn fault(number: u32, make: fn(&mut Builder) -> u16) -> Fault {
    Fault { number, make }
}

/// Those that a trigger may have too.
pub(super) const FAULTS: [Fault; 13] = [
    fault(22, |b| {
        let value = too_large(b);
        b.assign(5, value)
    }),
    fault(23, |b| set(b, 5, [8, 0], 1)),
    fault(24, |b| set(b, 6, [3, 3], 1)),
    fault(25, |b| {
        let command = assign(b, 5, 1);
        in_secret(b, command)
    }),
    fault(26, |b| {
        let command = set(b, 5, [1, 1], 1);
        in_secret(b, command)
    }),
    fault(31, |b| {
        let value = query(b, kind::SMALLEST, 5, [3, 2, 0, 7]);
        b.assign(5, value)
    }),
    fault(22, |b| {
        let value = too_large(b);
        put(b, 5, [0, 0], value)
    }),
    fault(23, |b| clear(b, 5, [0, -1])),
    fault(24, |b| clear(b, 6, [3, 0])),
    fault(25, |b| {
        let command = b.raise(5, 1);
        in_secret(b, command)
    }),
    fault(26, |b| {
        let command = clear(b, 5, [1, 1]);
        in_secret(b, command)
    }),
    fault(26, |b| {
        let [owner, line] = [secret(b), constant(b, 1)];
        b.put(5, owner, line, line)
    }),
    fault(31, |b| {
        let amount = query(b, kind::LARGEST, 5, [0, 7, 8, 9]);
        put(b, 5, [0, 0], amount)
    }),
];

/// Those that only a program may have; 30 where the trace is full.
pub(super) const STOPS: [Fault; 3] = [
    fault(27, |b| {
        let secret = secret(b);
        b.out(3, secret)
    }),
    fault(29, |b| {
        let grant = b.grant_read(3, 1);
        in_secret(b, grant)
    }),
    fault(30, |b| tell(b, 3, 4)),
];

/// An absent cell of table 1.
const NONE: [i32; 4] = [6, 6, 5, 5];

/// Puts and clears in tables 1 and 6 that stop in their key, in their amount or
/// by their tests.
pub(super) const COMMANDS: [Fault; 12] = [
    fault(22, |b| {
        let [large, line] = [too_large(b), constant(b, 0)];
        b.put(1, large, line, line)
    }),
    fault(22, |b| {
        let [large, owner] = [too_large(b), constant(b, 0)];
        b.clear(1, owner, large)
    }),
    fault(22, |b| {
        let large = too_large(b);
        put(b, 1, [0, 0], large)
    }),
    fault(31, |b| {
        let [none, line] = [query(b, kind::LARGEST, 1, NONE), constant(b, 0)];
        b.put(1, none, line, line)
    }),
    fault(31, |b| {
        let [none, owner] = [query(b, kind::SMALLEST, 1, NONE), constant(b, 0)];
        b.clear(1, owner, none)
    }),
    fault(31, |b| {
        let none = query(b, kind::SMALLEST, 1, NONE);
        put(b, 1, [0, 0], none)
    }),
    fault(23, |b| set(b, 1, [8, 7], 1)),
    fault(23, |b| clear(b, 1, [0, -1])),
    fault(24, |b| set(b, 6, [3, 7], 1)),
    fault(24, |b| clear(b, 6, [3, 7])),
    fault(26, |b| {
        let [owner, line] = [secret(b), constant(b, 7)];
        b.put(1, owner, line, line)
    }),
    fault(26, |b| {
        let [owner, line] = [secret(b), constant(b, 7)];
        b.clear(1, owner, line)
    }),
];

/// One fault for each number.
pub(super) fn numbers() -> &'static [Fault] {
    &FAULTS[..6]
}

/// The command in the context of the secret.
fn in_secret(b: &mut Builder, command: u16) -> u16 {
    let secret = secret(b);
    when(b, secret, command)
}

/// The program's own command, on a cell of table 1.
#[derive(Clone, Copy)]
pub(super) struct Own {
    clears: bool,
    pub(super) key: [i32; 2],
}

const fn own(clears: bool, key: [i32; 2]) -> Own {
    Own { clears, key }
}

/// Put and clear, of a present and of an absent cell.
pub(super) const OWNS: [Own; 4] = [
    own(false, [2, 3]),
    own(false, [6, 5]),
    own(true, [2, 3]),
    own(true, [6, 5]),
];

impl Own {
    pub(super) fn command(&self, b: &mut Builder) -> u16 {
        self.at_key(b, 1, self.key)
    }

    /// The same at another cell.
    pub(super) fn at_key(&self, b: &mut Builder, table: u8, key: [i32; 2]) -> u16 {
        let key = key.map(|k| constant(b, k));
        self.at(b, table, key)
    }

    /// The same at an owner and a line that are worked out.
    pub(super) fn at(&self, b: &mut Builder, table: u8, [owner, line]: [u16; 2]) -> u16 {
        if self.clears {
            return b.clear(table, owner, line);
        }
        let amount = constant(b, 9);
        b.put(table, owner, line, amount)
    }

    /// A trigger that the command sets off.
    pub(super) fn trigger(&self, b: &mut Builder, body: u16) {
        self.trigger_in(b, 1, 0, body);
    }

    /// A trigger that the same command sets off in a region.
    pub(super) fn trigger_in(&self, b: &mut Builder, region: u8, user: u8, body: u16) {
        match self.clears {
            true => b.clear_trigger(region, user, body),
            false => b.put_trigger(region, user, body),
        }
    }
}

/// What a body does before it stops: the own cell written again, one cell
/// written twice, a present cell put, relabelled and cleared, an absent one put
/// and cleared.
pub(super) const WRITES: [fn(&mut Builder, &Own) -> Vec<u16>; 9] = [
    |b, own| vec![set(b, 1, own.key, 71)],
    |b, own| vec![clear(b, 1, own.key)],
    |b, own| vec![clear(b, 1, own.key), set(b, 1, own.key, 72)],
    |b, _| {
        let secret = secret(b);
        vec![put(b, 2, OTHER, secret)]
    },
    |b, _| vec![set(b, 2, OTHER, 73), set(b, 2, OTHER, 74)],
    |b, _| vec![clear(b, 2, OTHER)],
    |b, _| vec![set(b, 2, [5, 5], 75)],
    |b, _| vec![clear(b, 2, [5, 5])],
    |b, _| vec![set(b, 2, OTHER, 44)],
];

//! Commands that stop a run, given the sets of the test that they fail.

use super::super::office::{assign, block, clear, constant, put, set, tell, too_large};
use super::sets::{whole, Area, Sets};
use crate::book::kind;
use crate::builder::Builder;

/// The sets as numbers of regions.
pub(super) struct Regions {
    tested: Vec<u8>,
    bound: Vec<u8>,
}

// Regions of whole tables, which user 0 may write, and one more.
pub(super) const LEDGER: u8 = 0;
pub(super) const POSTS: u8 = 1;
pub(super) const ENTRIES: u8 = 2;
pub(super) const SHADE: u8 = 3;

pub(super) const SHADE_AREA: Area = [5, 2, 3, 0, 7];

/// A cell of the ledger.
pub(super) const CELL: [i32; 2] = [2, 3];

// Variables that are 0, with a label of their own each.
const TESTED: u8 = 5;
const BOUND: u8 = 6;
const MORE: u8 = 7;
pub(super) const SHADED: u8 = 8;

/// Who is told things.
pub(super) const READER: u8 = 3;

/// A book with the regions of the sets.
pub(super) fn start(sets: &Sets) -> (Builder, Regions) {
    let mut b = Builder::new();
    for table in 1..4 {
        let region = add_region(&mut b, &whole(table));
        b.write(0, region);
    }
    add_region(&mut b, &SHADE_AREA);
    let mut numbers =
        |areas: &[Area]| -> Vec<u8> { areas.iter().map(|area| add_region(&mut b, area)).collect() };
    let regions = Regions {
        tested: numbers(&sets.tested),
        bound: numbers(&sets.bound),
    };
    (b, regions)
}

fn add_region(
    b: &mut Builder,
    &[table, owner_first, owner_last, line_first, line_last]: &Area,
) -> u8 {
    b.region(table, owner_first..=owner_last, line_first..=line_last)
}

/// A command that stops with a number, given the sets of the test.
#[derive(Clone, Copy)]
pub(super) struct Way {
    pub(super) number: u32,
    pub(super) make: fn(&mut Builder, &Regions) -> u16,
}

const fn way(number: u32, make: fn(&mut Builder, &Regions) -> u16) -> Way {
    Way { number, make }
}

/// Adds the regions to the label of a variable.
fn raise(b: &mut Builder, variable: u8, regions: &[u8]) -> u16 {
    let raises: Vec<u16> = regions
        .iter()
        .map(|&region| b.raise(variable, region))
        .collect();
    block(b, &raises)
}

/// Gives the variables of the two sets their labels.
fn label_variables(b: &mut Builder, regions: &Regions) -> u16 {
    let tested = raise(b, TESTED, &regions.tested);
    let bound = raise(b, BOUND, &regions.bound);
    b.then(tested, bound)
}

/// The labels, and then a command in the context of the tested set.
pub(super) fn in_context(b: &mut Builder, regions: &Regions, command: u16) -> u16 {
    let labels = label_variables(b, regions);
    let inside = inside(b, TESTED, command);
    b.then(labels, inside)
}

/// The command in the context of a variable.
pub(super) fn inside(b: &mut Builder, variable: u8, command: u16) -> u16 {
    let zero = b.variable(variable);
    let skip = b.skip();
    b.choose(zero, skip, command)
}

/// The key with the label of a variable.
fn key(b: &mut Builder, k: i32, variable: u8) -> u16 {
    let k = constant(b, k);
    let zero = b.variable(variable);
    b.operator(kind::ADD, k, zero)
}

/// Gives the cell the label of a variable.
fn label_cell(b: &mut Builder, variable: u8) -> u16 {
    let value = b.variable(variable);
    put(b, 1, CELL, value)
}

const ASSIGN: Way = way(25, |b, regions| {
    let assign = assign(b, BOUND, 1);
    in_context(b, regions, assign)
});

const RAISE: Way = way(25, |b, regions| {
    let raise = b.raise(BOUND, LEDGER);
    in_context(b, regions, raise)
});

const PUT: Way = way(26, |b, regions| {
    let write = set(b, 1, CELL, 9);
    write_inside(b, regions, write)
});

const CLEAR: Way = way(26, |b, regions| {
    let write = clear(b, 1, CELL);
    write_inside(b, regions, write)
});

/// The key has the tested set as label.
const AT_KEY: Way = way(26, |b, regions| {
    let owner = key(b, CELL[0], TESTED);
    let line = constant(b, CELL[1]);
    let write = b.put(1, owner, line, line);
    write_outside(b, regions, write)
});

/// The key has one part of the tested set, and the context the other.
const INSIDE_AT_KEY: Way = way(26, |b, regions| {
    let owner = key(b, CELL[0], MORE);
    let line = constant(b, CELL[1]);
    let write = b.put(1, owner, line, line);
    let (more, rest) = split(regions);
    let raise = raise(b, MORE, &more);
    let last = write_inside(b, &rest, write);
    b.then(raise, last)
});

/// The write in the context of the tested set; the cell has the bound as label.
fn write_inside(b: &mut Builder, regions: &Regions, write: u16) -> u16 {
    let inside = inside(b, TESTED, write);
    write_outside(b, regions, inside)
}

/// The write in no context of its own.
fn write_outside(b: &mut Builder, regions: &Regions, write: u16) -> u16 {
    let labels = label_variables(b, regions);
    let label = label_cell(b, BOUND);
    block(b, &[labels, label, write])
}

/// The ways that a trigger may go.
pub(super) const TRIGGERED: [Way; 6] = [ASSIGN, RAISE, PUT, CLEAR, AT_KEY, INSIDE_AT_KEY];

/// The ways that are tried with all sets.
pub(super) const PLAIN: [Way; 8] = [
    ASSIGN,
    RAISE,
    PUT,
    CLEAR,
    way(27, |b, regions| {
        let out = tell_value(b, &regions.tested);
        records(b, &regions.bound, out)
    }),
    way(27, |b, regions| {
        let out = tell_inside(b, regions);
        records(b, &regions.bound, out)
    }),
    way(29, |b, regions| {
        let change = b.grant_read(READER, LEDGER);
        change_inside(b, regions, change)
    }),
    way(29, |b, regions| {
        let change = b.revoke_read(READER, LEDGER);
        change_inside(b, regions, change)
    }),
];

/// Tells a value of this label.
fn tell_value(b: &mut Builder, label: &[u8]) -> u16 {
    let raise = raise(b, TESTED, label);
    let value = b.variable(TESTED);
    let out = b.out(READER, value);
    b.then(raise, out)
}

/// Tells a constant in the context of the tested set.
fn tell_inside(b: &mut Builder, regions: &Regions) -> u16 {
    let out = tell(b, READER, 4);
    in_context(b, regions, out)
}

/// The reader may read the bound from the start. That another may read all that
/// is tested, and the reader write it, is beside the point.
fn records(b: &mut Builder, bound: &[u8], command: u16) -> u16 {
    for &region in bound {
        b.read(READER, region);
    }
    for region in SHADE + 1..b.book.regions.len() as u8 {
        b.read(READER + 1, region);
        b.write(READER, region);
    }
    command
}

/// A change of rights in the context of the tested set. That user 0 may read all
/// of it is beside the point.
fn change_inside(b: &mut Builder, regions: &Regions, change: u16) -> u16 {
    for &region in &regions.bound {
        b.public(region);
    }
    for &region in &regions.tested {
        b.read(0, region);
    }
    in_context(b, regions, change)
}

/// Further ways: in a loop; with a value of another label; by the key, alone and
/// with the context; with an amount of another label; at a cell that was
/// labelled by the tested set before; with a value and the context; by what is
/// public; after changes of the reader's rights; and for rights to write.
pub(super) const OTHER: [Way; 14] = [
    way(25, |b, regions| {
        let ready = assign(b, TESTED, 1);
        let labels = label_variables(b, regions);
        let turn = assign(b, BOUND, 1);
        let test = b.variable(TESTED);
        let turns = b.repeat(test, turn);
        block(b, &[ready, labels, turns])
    }),
    way(25, |b, regions| {
        let raise = b.raise(MORE, SHADE);
        let value = b.variable(MORE);
        let assign = b.assign(BOUND, value);
        let last = in_context(b, regions, assign);
        b.then(raise, last)
    }),
    AT_KEY,
    way(26, |b, regions| {
        let owner = constant(b, CELL[0]);
        let line = key(b, CELL[1], TESTED);
        let write = b.clear(1, owner, line);
        write_outside(b, regions, write)
    }),
    INSIDE_AT_KEY,
    way(26, |b, regions| {
        let raise = b.raise(MORE, SHADE);
        let amount = b.variable(MORE);
        let write = put(b, 1, CELL, amount);
        let last = write_inside(b, regions, write);
        b.then(raise, last)
    }),
    way(26, |b, regions| {
        let labels = label_variables(b, regions);
        let earlier = label_cell(b, TESTED);
        let write = clear(b, 1, CELL);
        let last = write_inside(b, regions, write);
        block(b, &[labels, earlier, last])
    }),
    way(27, |b, regions| {
        let (more, rest) = split(regions);
        let raise = raise(b, MORE, &more);
        let value = b.variable(MORE);
        let out = b.out(READER, value);
        let last = in_context(b, &rest, out);
        let command = b.then(raise, last);
        records(b, &regions.bound, command)
    }),
    way(27, |b, regions| {
        b.public(regions.bound[0]);
        let out = tell_inside(b, regions);
        records(b, &regions.bound[1..], out)
    }),
    way(27, |b, regions| {
        let out = tell_value(b, &regions.tested);
        let grants = grant(b, &regions.bound);
        b.then(grants, out)
    }),
    way(27, |b, regions| {
        for &region in regions.tested.iter().chain(&regions.bound) {
            b.read(READER, region);
        }
        let revokes = revoke(b, &regions.tested);
        let grants = grant(b, &regions.bound);
        let out = tell_inside(b, regions);
        block(b, &[revokes, grants, out])
    }),
    way(27, |b, regions| {
        for &region in &regions.bound {
            b.public(region);
        }
        let revokes = revoke(b, &regions.bound);
        let out = tell_value(b, &regions.tested);
        b.then(revokes, out)
    }),
    way(29, |b, regions| {
        let change = b.grant_write(READER, LEDGER);
        change_inside(b, regions, change)
    }),
    way(29, |b, regions| {
        let change = b.revoke_write(READER, LEDGER);
        change_inside(b, regions, change)
    }),
];

/// The first region of the tested set, and the sets without it.
fn split(regions: &Regions) -> (Vec<u8>, Regions) {
    let (first, rest) = regions.tested.split_at(1);
    let rest = Regions {
        tested: rest.to_vec(),
        bound: regions.bound.clone(),
    };
    (first.to_vec(), rest)
}

fn grant(b: &mut Builder, regions: &[u8]) -> u16 {
    let grants: Vec<u16> = regions
        .iter()
        .map(|&region| b.grant_read(READER, region))
        .collect();
    block(b, &grants)
}

fn revoke(b: &mut Builder, regions: &[u8]) -> u16 {
    let revokes: Vec<u16> = regions
        .iter()
        .map(|&region| b.revoke_read(READER, region))
        .collect();
    block(b, &revokes)
}

/// Writes of a cell that nothing has written before; the bound is its own place.
pub(super) const UNLABELLED: [Way; 2] = [
    way(26, |b, regions| {
        let write = set(b, 1, CELL, 9);
        in_context(b, regions, write)
    }),
    way(26, |b, regions| {
        let write = clear(b, 1, CELL);
        in_context(b, regions, write)
    }),
];

/// Commands that stop for something else before a test on labels that they would
/// fail too.
pub(super) const FAULTS: [Way; 6] = [
    way(22, |b, regions| {
        let value = too_large(b);
        let assign = b.assign(BOUND, value);
        in_context(b, regions, assign)
    }),
    way(22, |b, regions| {
        let value = too_large(b);
        let out = b.out(READER, value);
        in_context(b, regions, out)
    }),
    way(23, |b, regions| {
        let write = set(b, 1, [2, 8], 9);
        in_context(b, regions, write)
    }),
    way(23, |b, regions| {
        let owner = key(b, -1, TESTED);
        let write = b.clear(1, owner, owner);
        write_outside(b, regions, write)
    }),
    way(24, |b, regions| {
        let write = set(b, 0, [0, 0], 9);
        in_context(b, regions, write)
    }),
    way(24, |b, regions| {
        let line = key(b, 1, TESTED);
        let write = b.clear(4, line, line);
        write_outside(b, regions, write)
    }),
];

//! Stops by a test on labels, in which the tested set and the set that it has
//! to lie within are made of chosen areas. Then runs that end otherwise though
//! such sets are at hand.

mod sets;
mod ways;

use super::office::{block, clear, constant, put};
use super::Case;
use crate::book::Book;
use crate::builder::Builder;
use sets::{all_sets, few_sets, one, sets, whole, Sets};
use ways::{
    in_context, inside, start, Way, CELL, ENTRIES, FAULTS, LEDGER, OTHER, PLAIN, POSTS, READER,
    SHADE, SHADED, SHADE_AREA, TRIGGERED, UNLABELLED,
};

pub(super) fn cases() -> Vec<Case> {
    stories().into_iter().map(|(_, _, case)| case).collect()
}

/// The number that a case ends with, the sets of the test that stops it, and the
/// case. Without such a test the sets are empty.
type Story = (u32, Sets, Case);

fn stories() -> Vec<Story> {
    let mut stories = Vec::new();
    for sets in all_sets() {
        stories.extend(PLAIN.map(|way| explained(way, &sets)));
    }
    for sets in few_sets() {
        stories.extend(OTHER.map(|way| explained(way, &sets)));
        stories.extend(by_triggers(&sets));
        stories.extend(passing(&sets));
        stories.extend(stopped_otherwise(&sets));
    }
    stories.extend(own_places());
    stories.extend(refused());
    stories
}

/// The way as a program of user 0.
fn by_program(way: Way, sets: &Sets) -> Case {
    let (mut b, regions) = start(sets);
    let root = (way.make)(&mut b, &regions);
    b.program(0, root);
    Case::ample(b.book.encode())
}

fn explained(way: Way, sets: &Sets) -> Story {
    (way.number, sets.clone(), by_program(way, sets))
}

fn unexplained(number: u32, case: Case) -> Story {
    (number, Sets::default(), case)
}

/// What the write that sets off a trigger has the label of `SHADE` in.
#[derive(Clone, Copy, PartialEq, Eq)]
enum Shaded {
    Nothing,
    Context,
    Key,
}

/// Every way that a trigger may go, by one that the program sets off and by one
/// that a trigger sets off.
fn by_triggers(sets: &Sets) -> Vec<Story> {
    let mut stories = Vec::new();
    for shaded in [Shaded::Nothing, Shaded::Context, Shaded::Key] {
        for nested in [false, true] {
            stories.extend(TRIGGERED.map(|way| by_trigger(way, sets, shaded, nested)));
        }
    }
    stories
}

fn by_trigger(way: Way, sets: &Sets, shaded: Shaded, nested: bool) -> Story {
    let (mut b, regions) = start(sets);
    let root = post(&mut b, shaded);
    b.program(0, root);
    let body = (way.make)(&mut b, &regions);
    if nested {
        let further = clear(&mut b, 3, [0, 0]);
        b.clear_trigger(POSTS, 0, further);
        b.clear_trigger(ENTRIES, 0, body);
    } else {
        b.clear_trigger(POSTS, 0, body);
    }
    let mut sets = sets.clone();
    if shaded != Shaded::Nothing {
        sets.tested.push(SHADE_AREA);
        sets.bound.push(SHADE_AREA);
    }
    (way.number, sets, Case::ample(b.book.encode()))
}

/// Clears a cell of the posts. Beforehand the cells that are written later get
/// the label that this needs.
fn post(b: &mut Builder, shaded: Shaded) -> u16 {
    let raise = b.raise(SHADED, SHADE);
    let zero = b.variable(SHADED);
    let ready = [(1, CELL), (2, [0, 0]), (3, [0, 0])].map(|(table, key)| put(b, table, key, zero));
    let last = match shaded {
        Shaded::Nothing => return clear(b, 2, [0, 0]),
        Shaded::Context => {
            let clear = clear(b, 2, [0, 0]);
            inside(b, SHADED, clear)
        }
        Shaded::Key => {
            let line = constant(b, 0);
            b.clear(2, zero, line)
        }
    };
    block(b, &[raise, ready[0], ready[1], ready[2], last])
}

/// A cell that nothing has written has its own place as label.
fn own_places() -> Vec<Story> {
    let own = one(1, 2, 3);
    [whole(1), one(1, 2, 4), one(0, 7, 7)]
        .iter()
        .flat_map(|&tested| UNLABELLED.map(|way| explained(way, &sets(&[own, tested], &[own]))))
        .collect()
}

/// Equal sets, and nothing tested.
fn passing(given: &Sets) -> Vec<Story> {
    let equal = sets(&given.tested, &given.tested);
    let nothing = sets(&[], &given.bound);
    [equal, nothing]
        .iter()
        .flat_map(|sets| PLAIN.map(|way| unexplained(0, by_program(way, sets))))
        .collect()
}

/// Other stops, in the context of a tested set that does not lie within the
/// bound, or where it does.
fn stopped_otherwise(sets: &Sets) -> Vec<Story> {
    let mut stories: Vec<Story> = FAULTS
        .iter()
        .map(|way| unexplained(way.number, by_program(*way, sets)))
        .collect();
    for way in PLAIN {
        let case = by_program(way, sets);
        let (cost, _) = case.spent();
        stories.push(unexplained(21, case.with_budget(cost - 1)));
    }
    let (mut b, regions) = start(sets);
    let change = b.revoke_write(READER, LEDGER);
    let root = in_context(&mut b, &regions, change);
    b.program(READER, root);
    stories.push(unexplained(28, Case::ample(b.book.encode())));
    let readable = Sets {
        bound: sets.tested.clone(),
        ..sets.clone()
    };
    for way in &PLAIN[4..] {
        let case = by_program(*way, &readable);
        stories.push(unexplained(30, case.with_trace(7)));
    }
    stories
}

/// In each section, a record made bad.
const SPOILED: [fn(&mut Book); 6] = [
    |book| book.cells[0].table = 8,
    |book| book.regions[0].line_last = 8,
    |book| book.rights[0].kind = 3,
    |book| book.nodes[0].kind = 7,
    |book| book.programs[0].user = 8,
    |book| book.triggers[0].event = 3,
];

/// Every refusal of a book whose run would stop with a reason.
fn refused() -> Vec<Story> {
    let (mut b, regions) = start(&few_sets()[0]);
    b.cell(0, 0, 0, 1);
    let root = (PLAIN[4].make)(&mut b, &regions);
    b.program(0, root);
    let skip = b.skip();
    b.put_trigger(LEDGER, 0, skip);
    let good = b.book.encode();
    let costly = Case::ample(good.clone()).with_budget(1_000_001);
    let mut stories = vec![unexplained(1, costly)];
    // The length, the mark and the count of cells, from the trailer's start.
    for (number, at) in [(2, 32), (3, 0), (4, 10)] {
        let mut file = good.clone();
        file[good.len() - 36 + at] ^= 1;
        stories.push(unexplained(number, Case::ample(file)));
    }
    for (number, spoil) in (5..).zip(SPOILED) {
        let mut book = b.book.clone();
        spoil(&mut book);
        stories.push(unexplained(number, Case::ample(book.encode())));
    }
    stories
}

#[cfg(test)]
mod tests {
    use super::super::ExplainedOutcome;
    use super::sets::Area;
    use super::*;
    use std::collections::BTreeSet;

    fn places(areas: &[Area]) -> BTreeSet<usize> {
        let mut places = BTreeSet::new();
        for &[table, owner_first, owner_last, line_first, line_last] in areas {
            for owner in owner_first..=owner_last {
                for line in line_first..=line_last {
                    let [table, owner, line] = [table, owner, line].map(usize::from);
                    places.insert(64 * table + 8 * owner + line);
                }
            }
        }
        places
    }

    #[test]
    fn each_story_ends_with_its_number_and_reason() {
        for (number, sets, case) in stories() {
            let explained = ExplainedOutcome::of(&case).explained;
            let lacking = &places(&sets.tested) - &places(&sets.bound);
            assert_eq!(explained.answer.number(), number, "{explained:?}");
            assert_eq!(explained.place(), lacking.first().copied(), "{explained:?}");
            assert_eq!(explained.count(), lacking.len(), "{explained:?}");
        }
    }
}

//! The smallest and largest of nothing, which stop a run with 31; and what stands
//! beside them: counts and sums of nothing, and ranges in which a cell is present.

mod boxes;
mod elsewhere;
mod hidden;
mod positions;

use super::office::{assign, block, clear, constant, office, put, query, set, tell, when};
use super::Case;
use crate::book::kind;
use crate::builder::Builder;
use crate::notation::assemble;

const EXTREMES: [u8; 2] = [kind::SMALLEST, kind::LARGEST];

/// Bounds between which the office has no present cell in table 3: of absent
/// cells, with first above last, and outside.
const NOTHINGS: [[i32; 4]; 3] = [[2, 4, 2, 4], [3, 2, 0, 7], [0, 7, 8, 9]];

/// The smallest of nothing for an even number, the largest for an odd one.
fn nothing(b: &mut Builder, number: usize) -> u16 {
    query(b, EXTREMES[number % 2], 3, NOTHINGS[number % 3])
}

/// The number that a case ends with, the node, and the case.
type Story = (u32, u16, Case);

fn stops(number: u32, node: u16, case: Case) -> Story {
    (number, node, case)
}

fn finishes(case: Case) -> Story {
    (0, 0, case)
}

pub(super) fn cases() -> Vec<Case> {
    let mut cases: Vec<Case> = stories().into_iter().map(|(_, _, case)| case).collect();
    cases.extend(positions::in_commands().into_iter().map(|(_, case)| case));
    cases.extend(limited());
    cases
}

fn stories() -> Vec<Story> {
    [
        boxes::stories(),
        elsewhere::stories(),
        positions::in_expressions(),
        hidden::stories(),
        not_reached(),
        after_writes(),
        with_triggers(),
        in_turns(),
        at_nodes(),
    ]
    .concat()
}

/// A program of user 0 that runs these commands, and how it ends.
fn ending(mut b: Builder, commands: &[u16], number: u32, node: u16) -> Story {
    let root = block(&mut b, commands);
    b.program(0, root);
    stops(number, node, Case::ample(b.book.encode()))
}

/// Nothing is evaluated where a run does not come.
fn not_reached() -> Vec<Story> {
    let mut stories = Vec::new();
    for (number, way) in NOT_REACHED.into_iter().enumerate() {
        let mut b = office();
        let value = nothing(&mut b, number);
        let bad = b.assign(3, value);
        let command = way(&mut b, bad);
        let last = tell(&mut b, 2, 9);
        stories.push(ending(b, &[command, last], 0, 0));
    }
    stories
}

/// Ways not to run a command.
const NOT_REACHED: [fn(&mut Builder, u16) -> u16; 6] = [
    |b, bad| {
        let no = constant(b, 0);
        when(b, no, bad)
    },
    |b, bad| {
        let (yes, skip) = (constant(b, -1), b.skip());
        b.choose(yes, skip, bad)
    },
    |b, bad| {
        let no = constant(b, 0);
        b.repeat(no, bad)
    },
    |b, bad| {
        let present = query(b, kind::COUNT, 3, [0, 7, 0, 7]);
        when(b, present, bad)
    },
    |b, bad| {
        b.clear_trigger(1, 0, bad);
        set(b, 1, [0, 0], 7)
    },
    // The write of trigger 1 does not set trigger 0 off.
    |b, bad| {
        let further = set(b, 2, [0, 0], 8);
        b.put_trigger(2, 0, bad);
        b.put_trigger(1, 0, further);
        set(b, 1, [0, 0], 7)
    },
];

/// The run's own writes count: what it put is there, what it cleared is not.
fn after_writes() -> Vec<Story> {
    type Writes = fn(&mut Builder) -> Vec<u16>;
    let present: [Writes; 4] = [
        |b| vec![set(b, 0, [4, 4], -9)],
        |b| vec![clear(b, 0, [0, 0]), clear(b, 0, [0, 1])],
        |b| vec![set(b, 0, [4, 4], 0), cleared(b)],
        |b| vec![cleared(b), set(b, 0, [0, 2], i32::MIN)],
    ];
    let absent: [Writes; 3] = [
        |b| vec![cleared(b)],
        |b| vec![cleared(b), set(b, 0, [4, 4], 5), clear(b, 0, [4, 4])],
        |b| vec![set(b, 0, [0, 0], 6), cleared(b), clear(b, 0, [5, 5])],
    ];
    let mut stories = Vec::new();
    for extreme in EXTREMES {
        for (number, writes) in present.into_iter().chain(absent).enumerate() {
            let mut b = office();
            let mut commands = writes(&mut b);
            let value = query(&mut b, extreme, 0, [0, 7, 0, 7]);
            commands.push(put(&mut b, 1, [0, 0], value));
            stories.push(match number < present.len() {
                true => ending(b, &commands, 0, 0),
                false => ending(b, &commands, 31, value),
            });
        }
    }
    stories
}

/// Clears the three cells of table 0.
fn cleared(b: &mut Builder) -> u16 {
    let clears = [0, 1, 2].map(|line| clear(b, 0, [0, line]));
    block(b, &clears)
}

/// A trigger writes before the program asks, or asks itself. Then a stop takes
/// the posting back.
fn with_triggers() -> Vec<Story> {
    let mut stories = Vec::new();
    for extreme in EXTREMES {
        for posted in [false, true] {
            stories.extend([
                asked_by_program(extreme, posted),
                asked_by_trigger(extreme, posted),
                asked_further(extreme, posted),
            ]);
        }
        stories.push(last_cell(extreme));
    }
    stories
}

/// The trigger puts the only cell of table 2, or clears all of table 0.
fn asked_by_program(extreme: u8, posted: bool) -> Story {
    let mut b = office();
    let (table, body) = match posted {
        true => (2, set(&mut b, 2, [7, 7], -3)),
        false => (0, cleared(&mut b)),
    };
    b.put_trigger(1, 0, body);
    let posting = set(&mut b, 1, [0, 0], 7);
    let value = query(&mut b, extreme, table, [0, 7, 0, 7]);
    let keep = put(&mut b, 2, [0, 0], value);
    match posted {
        true => ending(b, &[posting, keep], 0, 0),
        false => ending(b, &[posting, keep], 31, value),
    }
}

/// The trigger asks for the row of the posting, which has that cell alone; or for
/// the row below.
fn asked_by_trigger(extreme: u8, posted: bool) -> Story {
    let mut b = office();
    let (owner, line) = (b.variable(0), b.variable(1));
    let other = if posted { 0 } else { 1 };
    let more = constant(&mut b, other);
    let row = b.operator(kind::ADD, owner, more);
    let value = b.query(extreme, 1, [row, row, line, line]);
    let note = set(&mut b, 2, [0, 0], 8);
    let keep = put(&mut b, 2, [0, 1], value);
    let body = block(&mut b, &[note, keep]);
    b.put_trigger(1, 0, body);
    let before = set(&mut b, 2, [3, 3], 4);
    let posting = set(&mut b, 1, [6, 7], -8);
    match posted {
        true => ending(b, &[before, posting], 0, 0),
        false => ending(b, &[before, posting], 31, value),
    }
}

/// A trigger that another sets off asks for the cell that the first one put, or
/// for one that it cleared.
fn asked_further(extreme: u8, posted: bool) -> Story {
    let mut b = office();
    let first = set(&mut b, 2, [1, 1], i32::MAX);
    let gone = clear(&mut b, 2, [1, 2]);
    let body = block(&mut b, &[gone, first]);
    b.put_trigger(1, 0, body);
    let line = if posted { 1 } else { 2 };
    let value = query(&mut b, extreme, 2, [1, 1, line, line]);
    let keep = b.assign(9, value);
    b.put_trigger(2, 0, keep);
    let before = clear(&mut b, 0, [0, 2]);
    let posting = set(&mut b, 1, [0, 0], 6);
    match posted {
        true => ending(b, &[before, posting], 0, 0),
        false => ending(b, &[before, posting], 31, value),
    }
}

/// After each clear a trigger asks for the rest of the row: the third clear leaves
/// none, and is taken back.
fn last_cell(extreme: u8) -> Story {
    let mut b = office();
    let owner = b.variable(0);
    let [first, last] = [0, 7].map(|k| constant(&mut b, k));
    let value = b.query(extreme, 0, [owner, owner, first, last]);
    let keep = put(&mut b, 1, [0, 0], value);
    b.clear_trigger(0, 0, keep);
    let clears = [1, 0, 2].map(|line| clear(&mut b, 0, [0, line]));
    ending(b, &clears, 31, value)
}

/// Loops that take cells away until none is left: a command of the fourth turn
/// finds that, or the second test.
fn in_turns() -> Vec<Story> {
    let loops = EXTREMES.map(|extreme| [asked_in_turns(extreme), asked_in_tests(extreme)]);
    loops.concat()
}

fn asked_in_turns(extreme: u8) -> Story {
    let mut b = office();
    let value = query(&mut b, extreme, 0, [0, 0, 0, 7]);
    let line = b.variable(5);
    let [zero, one] = [0, 1].map(|k| constant(&mut b, k));
    let keep = b.put(1, zero, line, value);
    let gone = b.clear(0, zero, line);
    let next = b.operator(kind::ADD, line, one);
    let step = b.assign(5, next);
    let turn = block(&mut b, &[keep, gone, step]);
    let turns = b.repeat(one, turn);
    ending(b, &[turns], 31, value)
}

/// The cells first get the label of the whole row, so that they may be cleared in
/// its context.
fn asked_in_tests(extreme: u8) -> Story {
    let mut b = office();
    let row = query(&mut b, kind::SUM, 0, [0, 0, 0, 7]);
    let mut commands = [0, 1, 2]
        .map(|line| put(&mut b, 0, [0, line], row))
        .to_vec();
    let test = query(&mut b, extreme, 0, [0, 0, 0, 7]);
    let turn = cleared(&mut b);
    commands.push(b.repeat(test, turn));
    ending(b, &commands, 31, test)
}

/// The query is the first node that it can be, one in the middle, and the last.
fn at_nodes() -> Vec<Story> {
    let mut stories = Vec::new();
    for (number, node) in [1, 2, 512, 1_022].into_iter().enumerate() {
        // The put that sets a trigger off takes node 1.
        for in_trigger in [false, true].into_iter().take(node) {
            let mut b = office();
            let zero = b.constant(0);
            let posting = in_trigger.then(|| b.put(1, zero, zero, zero));
            while b.book.nodes.len() < node {
                b.skip();
            }
            let value = b.query(EXTREMES[number % 2], 3, [zero; 4]);
            let keep = b.assign(0, value);
            if in_trigger {
                b.put_trigger(1, 0, keep);
            }
            b.program(0, posting.unwrap_or(keep));
            stories.push(stops(31, value, Case::ample(b.book.encode())));
        }
    }
    stories
}

const EXAMPLE: &str = include_str!("../../../examples/no_arrears.txt");

/// Books with every budget from 0 to what they cost and one more, and with many
/// lengths of trace.
fn limited() -> Vec<Case> {
    let example = assemble(EXAMPLE).expect("the text of an example has no fault");
    let mut cases = Vec::new();
    for book in [told(kind::LARGEST).book, example] {
        let case = Case::ample(book.encode());
        let (cost, bytes) = case.spent();
        cases.extend((0..=cost + 1).map(|budget| case.clone().with_budget(budget)));
        let traces = (0..=bytes + 8).filter(|trace| [0, 7].contains(&(trace % 8)));
        cases.extend(traces.map(|trace| case.clone().with_trace(trace)));
    }
    cases
}

/// Count, sum and extreme of a public range are told, then those of one with no
/// cell. A posting whose trigger asks goes well before that.
fn told(extreme: u8) -> Builder {
    let mut b = office();
    let amount = b.variable(2);
    let [zero, seven] = [0, 7].map(|k| constant(&mut b, k));
    let body = b.query(extreme, 7, [zero, amount, zero, seven]);
    let body = b.assign(3, body);
    b.put_trigger(1, 0, body);
    let mut commands = vec![assign(&mut b, 0, 4), set(&mut b, 1, [0, 0], 1)];
    for owner in [0, 1] {
        for kind in [kind::COUNT, kind::SUM, extreme] {
            let value = query(&mut b, kind, 7, [owner, owner, 0, 7]);
            commands.push(b.out(4, value));
        }
    }
    let root = block(&mut b, &commands);
    b.program(0, root);
    b
}

#[cfg(test)]
mod tests {
    use super::super::{ExplainedOutcome, Outcome};
    use super::*;
    use crate::run::Answer;

    #[test]
    fn each_story_ends_as_it_says_without_a_reason() {
        for (expected, at, case) in stories() {
            let answer = Outcome::of(&case).answer;
            let Answer::Ended { number, node, .. } = answer else {
                panic!("{answer:?}");
            };
            assert_eq!((number, node), (expected, at.into()), "{answer:?}");
            let explained = ExplainedOutcome::of(&case).explained;
            let for_labels = matches!(number, 25 | 26 | 27 | 29);
            assert_eq!(explained.place().is_some(), for_labels, "{explained:?}");
        }
    }

    #[test]
    fn each_command_stops_with_its_number() {
        for (expected, case) in positions::in_commands() {
            assert_eq!(Outcome::of(&case).answer.number(), expected);
        }
    }
}

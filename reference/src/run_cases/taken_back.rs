//! Stops inside the bodies of triggers, which take the program's own put or
//! clear back; and stops beside them, which take nothing back.

mod parts;

use super::office::{assign, block, clear, constant, put, set, tell, when};
use super::Case;
use crate::book::{kind, Cell};
use crate::builder::Builder;
use crate::notation::assemble;
use crate::places::place;
use parts::{ledger, numbers, secret, Fault, Own, COMMANDS, FAULTS, OTHER, OWNS, STOPS, WRITES};

pub(super) fn cases() -> Vec<Case> {
    let stories = [taking_back(), taking_nothing()].concat();
    let mut cases: Vec<Case> = stories.into_iter().map(|(_, case, _)| case).collect();
    cases.extend(relabelled().into_iter().map(|(_, case)| case));
    cases.extend(budgets());
    cases
}

/// The number that a case ends with, the case, and a file whose run finishes with
/// the cells that the case has to leave.
type Story = (u32, Case, Vec<u8>);

/// Postings that a trigger stops.
fn taking_back() -> Vec<Story> {
    let mut stories = Vec::new();
    for own in OWNS {
        stories.extend(FAULTS.iter().flat_map(|fault| by_position(fault, &own)));
        stories.extend(after_writes(&own));
    }
    for fault in numbers() {
        stories.extend(among_eight(fault));
        stories.extend(nested(fault));
        stories.extend(after_postings(fault));
    }
    stories.extend((0..8).flat_map(at_ends));
    stories.extend(in_loops());
    stories.extend(everywhere());
    stories
}

/// Commands that stop by themselves.
fn taking_nothing() -> Vec<Story> {
    [in_the_program(), on_the_command()].concat()
}

/// A program of commands that pass and of one that does not.
fn story(number: u32, mut b: Builder, before: &[u16], last: u16) -> Story {
    let mut left = b.clone();
    let root = block(&mut left, before);
    left.program(0, root);
    let root = block(&mut b, &[before, &[last]].concat());
    b.program(0, root);
    (number, Case::ample(b.book.encode()), left.book.encode())
}

/// The first, the second or the third of three triggers stops, each after it has
/// written cells of its own and one that all write.
fn by_position(fault: &Fault, own: &Own) -> Vec<Story> {
    let stopping = |position: usize| {
        let mut b = ledger();
        for number in 0..3 {
            let line = number as i32;
            let mut commands = vec![set(&mut b, 2, [0, line], 30), set(&mut b, 2, OTHER, line)];
            if number == position {
                commands.push((fault.make)(&mut b));
            }
            let body = block(&mut b, &commands);
            own.trigger(&mut b, body);
        }
        let posting = own.command(&mut b);
        story(fault.number, b, &[], posting)
    };
    (0..3).map(stopping).collect()
}

/// In a book with eight triggers, all of which the command sets off.
fn among_eight(fault: &Fault) -> Vec<Story> {
    let stopping = |position: usize| {
        let mut b = ledger();
        let own = OWNS[position % 4];
        for number in 0..8 {
            let body = match number == position {
                true => (fault.make)(&mut b),
                false => set(&mut b, number as u8, [7, 7], 50),
            };
            own.trigger(&mut b, body);
        }
        let posting = own.command(&mut b);
        story(fault.number, b, &[], posting)
    };
    [0, 3, 7].into_iter().map(stopping).collect()
}

/// Each of the writes that a body may do before it stops, with the fault at each
/// spot.
fn after_writes(own: &Own) -> Vec<Story> {
    let mut stories = Vec::new();
    for (number, writes) in WRITES.iter().enumerate() {
        for (step, place_fault) in SPOTS.iter().enumerate() {
            let fault = &FAULTS[(number + 4 * step) % FAULTS.len()];
            let mut b = ledger();
            let commands = writes(&mut b, own);
            let body = block(&mut b, &commands);
            let bad = (fault.make)(&mut b);
            place_fault(&mut b, own, body, bad);
            let posting = own.command(&mut b);
            stories.push(story(fault.number, b, &[], posting));
        }
    }
    stories
}

/// Where a fault stands: behind the writes, in the next trigger behind the same
/// writes, or in a trigger that the first one sets off.
const SPOTS: [fn(&mut Builder, &Own, u16, u16); 3] = [
    |b, own, writes, bad| {
        let body = b.then(writes, bad);
        own.trigger(b, body);
    },
    |b, own, writes, bad| {
        own.trigger(b, writes);
        let body = b.then(writes, bad);
        own.trigger(b, body);
    },
    |b, own, writes, bad| {
        let further = set(b, 3, [0, 0], 76);
        let body = b.then(writes, further);
        own.trigger(b, body);
        b.put_trigger(3, 0, bad);
    },
];

/// Triggers that set one another off, and a fault in the last of them; or in the
/// first, when all others have finished.
fn nested(fault: &Fault) -> Vec<Story> {
    let mut stories = Vec::new();
    for depth in [2, 3, 8] {
        for faulty in [depth - 1, 0] {
            let (b, posting) = chain(depth, Some((faulty, fault)));
            stories.push(story(fault.number, b, &[], posting));
        }
    }
    stories
}

/// A put in table 0 and so many triggers, each of which puts in the next table
/// and sets the next trigger off. A fault is behind the put of a trigger.
fn chain(depth: u8, fault: Option<(u8, &Fault)>) -> (Builder, u16) {
    let mut b = ledger();
    for table in 0..depth {
        let mut body = set(&mut b, (table + 1) % 8, [6, 6], 60);
        if let Some((faulty, fault)) = fault {
            if faulty == table {
                let bad = (fault.make)(&mut b);
                body = b.then(body, bad);
            }
        }
        b.put_trigger(table, 0, body);
    }
    let posting = set(&mut b, 0, [6, 6], 61);
    (b, posting)
}

/// A trigger on table 1 that notes the amount in table 2; then it stops if the
/// line is 7.
fn noting(fault: &Fault) -> Builder {
    let mut b = ledger();
    let [owner, line, amount] = [0, 1, 2].map(|variable| b.variable(variable));
    let note = b.put(2, owner, line, amount);
    let seven = constant(&mut b, 7);
    let last = b.operator(kind::EQUAL, line, seven);
    let bad = (fault.make)(&mut b);
    let test = when(&mut b, last, bad);
    let body = b.then(note, test);
    b.put_trigger(1, 0, body);
    b
}

/// Earlier postings stay, of the same program and of others, at other cells and
/// at the same, and so does all that was told.
fn after_postings(fault: &Fault) -> Vec<Story> {
    let before: [fn(&mut Builder) -> Vec<u16>; 4] = [
        |b| vec![set(b, 1, [0, 0], 20)],
        |b| {
            let secret = secret(b);
            vec![put(b, 1, [0, 6], secret), clear(b, 2, [0, 6])]
        },
        |b| vec![set(b, 2, [0, 7], 21), clear(b, 1, [0, 7])],
        |b| {
            let told = [tell(b, 3, 5), b.grant_read(3, 1), tell(b, 0, -6)];
            [&told[..], &[set(b, 1, [5, 5], 22)]].concat()
        },
    ];
    let mut stories = Vec::new();
    for before in before {
        let mut b = noting(fault);
        let before = before(&mut b);
        let posting = set(&mut b, 1, [0, 7], 70);
        stories.push(story(fault.number, b.clone(), &before, posting));
        let root = block(&mut b, &before);
        b.program(0, root);
        stories.push(story(fault.number, b, &[], posting));
    }
    stories
}

/// Both ends of a table's word, put and cleared, by a trigger and by the program
/// itself. The first is present at the start.
fn at_ends(table: u8) -> Vec<Story> {
    let mut stories = Vec::new();
    for (number, key) in [[0, 0], [7, 7]].into_iter().enumerate() {
        for own in [OWNS[0], OWNS[2]] {
            let fault = &FAULTS[(usize::from(table) + 5 * number) % FAULTS.len()];
            let mut b = ledger();
            b.cell(table, 0, 0, 80);
            let place = |cell: &Cell| place(cell.table, cell.owner, cell.line);
            b.book.cells.sort_by_key(place);
            let write = own.at_key(&mut b, table, key);
            let bad = (fault.make)(&mut b);
            let mut by_program = b.clone();
            let body = b.then(write, bad);
            own.trigger(&mut b, body);
            let posting = own.command(&mut b);
            stories.push(story(fault.number, b, &[], posting));
            own.trigger_in(&mut by_program, table, 0, bad);
            stories.push(story(fault.number, by_program, &[], write));
        }
    }
    stories
}

/// All 512 cells are put, or cleared, before the stop; each by its own command.
fn everywhere() -> Vec<Story> {
    let mut stories = Vec::new();
    // The secret is none any more, so it stops nothing.
    for fault in FAULTS
        .iter()
        .filter(|fault| !matches!(fault.number, 25 | 26))
    {
        for own in [OWNS[1], OWNS[2]] {
            let mut b = ledger();
            b.book.cells.extend(row(3).chain(row(7)));
            let mut commands = Vec::new();
            for owner in 0..8 {
                commands.push(own.at_key(&mut b, 0, [owner, 0]));
            }
            commands.push((fault.make)(&mut b));
            let body = block(&mut b, &commands);
            own.trigger(&mut b, body);
            spread(&mut b, &own);
            let posting = own.command(&mut b);
            let (number, case, left) = story(fault.number, b, &[], posting);
            stories.push((number, case.with_budget(10_000), left));
        }
    }
    stories
}

/// Owner 5's cells of a table.
fn row(table: u8) -> impl Iterator<Item = Cell> {
    (0..8).map(move |line| Cell {
        table,
        owner: 5,
        line,
        amount: 500 + i32::from(line),
    })
}

/// Triggers of user 7 by which a write at line 0 of table 0 goes to all lines,
/// and each of these writes to all tables.
fn spread(b: &mut Builder, own: &Own) {
    for region in 0..8 {
        b.write(7, region);
    }
    let [owner, line] = [0, 1].map(|variable| b.variable(variable));
    let first_lines = b.region(0, 0..=7, 0..=0);
    let lines: Vec<u16> = (1..8)
        .map(|line| {
            let line = constant(b, line);
            own.at(b, 0, [owner, line])
        })
        .collect();
    let tables: Vec<u16> = (1..8)
        .map(|table| own.at(b, table, [owner, line]))
        .collect();
    for (region, commands) in [(first_lines, lines), (0, tables)] {
        let body = block(b, &commands);
        own.trigger_in(b, region, 7, body);
    }
}

/// The lines count up to 7, where the posting fails: in the first, the third or
/// the eighth turn. Once more, with the posting in a branch.
fn in_loops() -> Vec<Story> {
    let mut stories = Vec::new();
    for (number, first) in [7, 5, 0].into_iter().enumerate() {
        for in_branch in [false, true] {
            let fault = &FAULTS[2 * number + usize::from(in_branch)];
            let mut b = noting(fault);
            let start = assign(&mut b, 9, first);
            let turn = turn(&mut b, in_branch);
            let [line, eight] = [b.variable(9), constant(&mut b, 8)];
            let test = b.operator(kind::LESS, line, eight);
            let turns = b.repeat(test, turn);
            let mut before = vec![start];
            before.extend((first..7).map(|_| turn));
            let (_, _, left) = story(fault.number, b.clone(), &before, turns);
            let (number, case, _) = story(fault.number, b, &[start], turns);
            stories.push((number, case, left));
        }
    }
    stories
}

/// Posts at the line in variable 9, and counts it up.
fn turn(b: &mut Builder, in_branch: bool) -> u16 {
    let line = b.variable(9);
    let [zero, one] = [0, 1].map(|k| constant(b, k));
    let mut posting = b.put(1, zero, line, line);
    if in_branch {
        posting = when(b, one, posting);
    }
    let next = b.operator(kind::ADD, line, one);
    let step = b.assign(9, next);
    b.then(posting, step)
}

/// Stops at the level of the program, when all triggers of a posting have
/// finished: nothing is taken back.
fn in_the_program() -> Vec<Story> {
    let mut stories = Vec::new();
    for &Fault { number, make } in FAULTS.iter().chain(&STOPS) {
        for key in [[0, 0], [2, 3]] {
            let mut b = noting(&FAULTS[0]);
            let before = [set(&mut b, 1, key, 20)];
            let last = make(&mut b);
            let trace = if number == 30 { 7 } else { 200 };
            let (number, case, left) = story(number, b, &before, last);
            stories.push((number, case.with_trace(trace), left));
        }
    }
    stories.extend(by_another_user());
    stories
}

/// A later program's user may not change rights.
fn by_another_user() -> Vec<Story> {
    let changes: [fn(&mut Builder) -> u16; 4] = [
        |b| b.revoke_write(0, 1),
        |b| b.revoke_read(0, 1),
        |b| b.grant_write(4, 1),
        |b| b.grant_read(4, 1),
    ];
    let stopping = |change: fn(&mut Builder) -> u16| {
        let mut b = noting(&FAULTS[0]);
        let before = set(&mut b, 1, [0, 0], 20);
        b.program(0, before);
        let left = b.book.encode();
        let root = change(&mut b);
        b.program(4, root);
        (28, Case::ample(b.book.encode()), left)
    };
    changes.map(stopping).to_vec()
}

/// Stops on a put or clear that would set triggers off, after a posting that has
/// finished.
fn on_the_command() -> Vec<Story> {
    let stopping = |command: &Fault| {
        let bad = &FAULTS[1];
        let mut b = noting(bad);
        let body = (bad.make)(&mut b);
        for table in [1, 6] {
            b.put_trigger(table, 0, body);
            b.clear_trigger(table, 0, body);
        }
        // In tables with no trigger.
        let before = [set(&mut b, 3, [0, 0], 20), clear(&mut b, 2, OTHER)];
        let last = (command.make)(&mut b);
        story(command.number, b, &before, last)
    };
    COMMANDS.iter().map(stopping).collect()
}

/// The lowest place that the cell's label lacked at the stop, and how many.
type Reason = (usize, usize);

/// Stops 26 at the first cell of a table, to which the cascade has given another
/// label than its own place, which it has before and afterwards.
fn relabelled() -> Vec<(Reason, Case)> {
    let mut cases = Vec::new();
    for table in 0..8 {
        let first = 64 * usize::from(table);
        cases.extend([
            ((first, 64), relabelling(table, true, false)),
            ((first, 63), relabelling(table, true, true)),
            ((first, 2), relabelling(table, false, false)),
            ((first, 1), relabelling(table, false, true)),
        ]);
    }
    cases
}

/// The cell gets the label of the table's last place, or none; the context is the
/// whole table, or its two ends.
fn relabelling(table: u8, whole: bool, shaded: bool) -> Case {
    let mut b = ledger();
    let ends = [0, 7].map(|key| b.region(table, key..=key, key..=key));
    let mut commands = Vec::new();
    if shaded {
        commands.push(b.raise(5, ends[1]));
    }
    let shade = b.variable(5);
    commands.push(put(&mut b, table, [0, 0], shade));
    match whole {
        true => commands.push(b.raise(6, table)),
        false => commands.extend(ends.map(|end| b.raise(6, end))),
    }
    let tested = b.variable(6);
    let write = set(&mut b, table, [0, 0], 90);
    commands.push(b.choose(tested, write, write));
    let body = block(&mut b, &commands);
    OWNS[0].trigger(&mut b, body);
    let posting = OWNS[0].command(&mut b);
    b.program(0, posting);
    Case::ample(b.book.encode())
}

const EXAMPLE: &str = include_str!("../../../examples/taken_back.txt");

/// Books with every budget from 0 to what they cost.
fn budgets() -> Vec<Case> {
    let (mut b, posting) = chain(8, None);
    b.program(0, posting);
    let example = assemble(EXAMPLE).expect("the text of an example has no fault");
    let books = [b, crossing(&OWNS[0]), crossing(&OWNS[3])].map(|b| b.book);
    books
        .into_iter()
        .chain([example])
        .flat_map(|book| {
            let case = Case::ample(book.encode());
            let (cost, _) = case.spent();
            (0..=cost).map(move |budget| case.clone().with_budget(budget))
        })
        .collect()
}

/// Two programs with one posting, and an out before and after the first. Of its
/// triggers the first sets off another, and both write the same cell; the first
/// and the last write the program's own.
fn crossing(own: &Own) -> Builder {
    let mut b = ledger();
    let again = set(&mut b, 1, own.key, 91);
    let gone = clear(&mut b, 2, OTHER);
    let further = set(&mut b, 3, [0, 0], 92);
    let first = block(&mut b, &[again, gone, further]);
    own.trigger(&mut b, first);
    let inner = set(&mut b, 2, OTHER, 93);
    b.put_trigger(3, 0, inner);
    let last = clear(&mut b, 1, own.key);
    own.trigger(&mut b, last);
    let out = tell(&mut b, 3, 94);
    let posting = own.command(&mut b);
    let root = block(&mut b, &[out, posting, out]);
    b.program(0, root);
    b.program(0, posting);
    b
}

#[cfg(test)]
mod tests {
    use super::*;
    use crate::places::Places;
    use crate::run::{explain, Explained, Memory};

    fn ran(case: &Case) -> (Explained, Memory) {
        let mut memory = Memory::new(case.lent.trace as usize);
        let explained = explain(&case.file, case.budget, &mut memory);
        (explained, memory)
    }

    /// Whether the stop changed a cell.
    fn check((number, case, left): Story) -> bool {
        let (explained, memory) = ran(&case);
        assert_eq!(explained.answer.number(), number, "{explained:?}");
        let (finished, left) = ran(&Case::ample(left));
        assert_eq!(finished.answer.number(), 0, "{finished:?}");
        assert_eq!(memory.amounts, left.amounts, "{explained:?}");
        assert_eq!(memory.presence, left.presence, "{explained:?}");
        assert_eq!(memory.labels, left.labels, "{explained:?}");
        explained.taken_back != Places::EMPTY
    }

    #[test]
    fn each_story_ends_with_its_number_and_cells() {
        assert!(taking_back().into_iter().all(check));
        assert!(!taking_nothing().into_iter().any(check));
    }

    #[test]
    fn each_relabelled_cell_is_read_before_it_is_taken_back() {
        for ((place, count), case) in relabelled() {
            let (explained, _) = ran(&case);
            assert_eq!(explained.answer.number(), 26, "{explained:?}");
            assert_eq!(explained.place(), Some(place), "{explained:?}");
            assert_eq!(explained.count(), count, "{explained:?}");
            assert!(explained.taken_back.holds(place), "{explained:?}");
        }
    }
}

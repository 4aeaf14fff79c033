//! Which place an explanation names, and how many there are, worked out by hand
//! on small books.

mod common;
#[path = "common/w.rs"]
mod w;

use common::{ended, run_with, UNTOUCHED};
use reference::book::{kind, Book};
use reference::builder::Builder;
use reference::run::{explain, Memory};
use reference::run_list::explain_list;
use w::book_w;

/// The number that the run ends with, and the explanation: table, owner and line
/// of the place, and the count.
fn reason_with(book: &Book, budget: u32, trace: usize) -> (u32, Option<[usize; 3]>, usize) {
    let explained = explain(&book.encode(), budget, &mut Memory::new(trace));
    let key = |place: usize| [place / 64, place / 8 % 8, place % 8];
    let number = explained.answer.number();
    (number, explained.place().map(key), explained.count())
}

fn reason(book: &Book) -> (u32, Option<[usize; 3]>, usize) {
    reason_with(book, 10_000, 4_096)
}

/// Region n is the whole of table n. User 0 may write everywhere.
fn eight_tables() -> Builder {
    let mut b = Builder::new();
    for table in 0..8 {
        let region = b.region(table, 0..=7, 0..=7);
        b.write(0, region);
    }
    b
}

/// How many cells of these owners and lines are present.
fn count(b: &mut Builder, table: u8, owners: [i32; 2], lines: [i32; 2]) -> u16 {
    let bounds = [owners[0], owners[1], lines[0], lines[1]].map(|bound| b.constant(bound));
    b.query(kind::COUNT, table, bounds)
}

/// Whether one cell is present.
fn one(b: &mut Builder, table: u8, owner: i32, line: i32) -> u16 {
    count(b, table, [owner, owner], [line, line])
}

/// A put of 1, or a clear, at a constant key.
fn put(b: &mut Builder, table: u8, owner: i32, line: i32) -> u16 {
    let [owner, line, amount] = [owner, line, 1].map(|k| b.constant(k));
    b.put(table, owner, line, amount)
}

fn clear(b: &mut Builder, table: u8, owner: i32, line: i32) -> u16 {
    let [owner, line] = [owner, line].map(|k| b.constant(k));
    b.clear(table, owner, line)
}

/// The command in the context of an expression, whatever its value.
fn inside(b: &mut Builder, condition: u16, command: u16) -> u16 {
    b.choose(condition, command, command)
}

/// A program of user 0 that runs these commands one after another.
fn program(mut b: Builder, commands: &[u16]) -> Book {
    let (&first, rest) = commands.split_first().unwrap();
    let root = rest.iter().fold(first, |root, &next| b.then(root, next));
    b.program(0, root);
    b.book
}

/// User 1 may read owner 1's lines, and is told a total with the eight lines of
/// owner 2.
#[test]
fn book_w_names_owner_2() {
    assert_eq!(
        explain_list(&book_w().encode()),
        "out 1 250\nstop 27 7 19\nplace 0 2 0 count 8\n"
    );
}

#[test]
fn a_finished_run_names_none() {
    let mut book = book_w();
    book.programs.clear();
    let text = explain_list(&book.encode());
    assert_eq!(text, "done 0\nplace none count 0\n");
}

#[test]
fn a_refused_file_names_none() {
    let mut book = book_w();
    book.regions[1].table = 8;
    let text = explain_list(&book.encode());
    assert_eq!(text, "refused 6 1\nplace none count 0\n");
}

/// The trace has the one out record and no more, and the cells are the book's.
#[test]
fn memory_is_as_after_the_run() {
    let (answer, left) = run_with(&book_w(), 100_000, 4_096);
    let mut memory = Memory {
        amounts: vec![5; 512],
        presence: vec![6; 8],
        labels: vec![7; 4_096],
        trace: vec![UNTOUCHED; 4_096],
    };
    let explained = explain(&book_w().encode(), 100_000, &mut memory);
    assert_eq!(explained.answer, answer);
    assert_eq!(explained.answer, ended(27, 7, 19, 8));
    assert_eq!(memory, left);
}

/// Owner 3's lines are in the context. The variable has lines 0 to 2 of them,
/// and all of owner 5's, so lines 3 to 7 are lacking.
#[test]
fn a_variable_lacks_the_rest_of_the_context() {
    let lines = |command: fn(&mut Builder, u16) -> u16| {
        let mut b = eight_tables();
        let some = b.region(4, 3..=3, 0..=2);
        let other = b.region(4, 5..=5, 0..=7);
        let raises = [b.raise(9, some), b.raise(9, other)];
        let condition = count(&mut b, 4, [3, 3], [0, 7]);
        let command = command(&mut b, condition);
        let last = inside(&mut b, condition, command);
        reason(&program(b, &[raises[0], raises[1], last]))
    };
    let expected = (25, Some([4, 3, 3]), 5);
    assert_eq!(lines(|b, value| b.assign(9, value)), expected);
    // That the region has all that is lacking does not help.
    assert_eq!(lines(|b, _| b.raise(9, 4)), expected);
}

/// The tests of a loop so far are (0,0,0) and (0,0,1), then also (6,6,6). At the
/// first turn the variable holds the context, at the second it has all but the
/// last.
#[test]
fn a_loop_gathers_its_tests() {
    let mut b = eight_tables();
    let first = b.region(0, 0..=0, 0..=1);
    let later = b.region(6, 6..=6, 6..=6);
    let one = b.constant(1);
    let start = b.assign(0, one);
    let raises = [b.raise(0, first), b.raise(1, first)];
    let test = b.variable(0);
    let raise_test = b.raise(0, later);
    let assign = b.assign(1, one);
    let body = b.then(assign, raise_test);
    let turns = b.repeat(test, body);
    let book = program(b, &[start, raises[0], raises[1], turns]);
    assert_eq!(reason(&book), (25, Some([6, 6, 6]), 1));
}

/// The cell (0,0,0) has its own place alone as label. The context is that cell
/// and (7,7,7).
#[test]
fn a_cell_lacks_what_is_not_its_own() {
    for write in [put, clear] {
        let mut b = eight_tables();
        let parts = [one(&mut b, 0, 0, 0), one(&mut b, 7, 7, 7)];
        let condition = b.operator(kind::ADD, parts[0], parts[1]);
        let write = write(&mut b, 0, 0, 0);
        let last = inside(&mut b, condition, write);
        assert_eq!(reason(&program(b, &[last])), (26, Some([7, 7, 7]), 1));
    }
}

/// The owner is read from (3,0,0), which holds 2, and the line from (5,0,7),
/// which is absent. The cell (1,2,0) has neither in its label, but itself.
#[test]
fn the_labels_of_a_key_are_tested() {
    let keys = |with_amount: bool| {
        let mut b = eight_tables();
        b.cell(3, 0, 0, 2);
        let zero = b.constant(0);
        let owner = b.query(kind::SUM, 3, [zero; 4]);
        let line = one(&mut b, 5, 0, 7);
        // The amount's own label, lower than the others, is not tested.
        let amount = one(&mut b, 0, 0, 0);
        let write = match with_amount {
            true => b.put(1, owner, line, amount),
            false => b.clear(1, owner, line),
        };
        reason(&program(b, &[write]))
    };
    assert_eq!(keys(true), (26, Some([3, 0, 0]), 2));
    assert_eq!(keys(false), (26, Some([3, 0, 0]), 2));
}

/// A put has given (1,0,0) the label of (2,4,4) in place of its own. The context
/// is all eight lines of that owner, so the other seven are lacking.
#[test]
fn a_written_cell_has_its_new_label() {
    let mut b = eight_tables();
    let amount = one(&mut b, 2, 4, 4);
    let key = b.constant(0);
    let first = b.put(1, key, key, amount);
    let condition = count(&mut b, 2, [4, 4], [0, 7]);
    let write = clear(&mut b, 1, 0, 0);
    let last = inside(&mut b, condition, write);
    let book = program(b, &[first, last]);
    assert_eq!(reason(&book), (26, Some([2, 4, 0]), 7));
}

/// User 1 starts with owner 1's lines, is granted owner 2's, and loses lines 0
/// to 3 of owner 1. He is then told a total of both owners.
#[test]
fn an_out_is_tested_against_the_rights_of_that_moment() {
    let mut b = Builder::new();
    let own = b.region(0, 1..=1, 0..=7);
    let granted = b.region(0, 2..=2, 0..=7);
    let taken = b.region(0, 1..=1, 0..=3);
    b.read(1, own);
    let total = count(&mut b, 0, [1, 2], [0, 7]);
    let out = b.out(1, total);
    let changes = [b.grant_read(1, granted), b.revoke_read(1, taken)];
    let before = program(b.clone(), &[out]);
    assert_eq!(reason(&before), (27, Some([0, 2, 0]), 8));
    let granted = program(b.clone(), &[changes[0], out]);
    assert_eq!(reason(&granted), (0, None, 0));
    let revoked = program(b.clone(), &[changes[0], out, changes[1], out]);
    assert_eq!(reason(&revoked), (27, Some([0, 1, 0]), 4));
}

/// The value is of (2,0,0), in the context of (5,5,5). What others may read, and
/// what the user may write, does not count; what is public does.
#[test]
fn an_out_has_value_and_context() {
    let told = |rights: fn(&mut Builder, u8)| {
        let mut b = Builder::new();
        let region = b.region(2, 0..=0, 0..=0);
        rights(&mut b, region);
        let value = one(&mut b, 2, 0, 0);
        let condition = one(&mut b, 5, 5, 5);
        let out = b.out(6, value);
        let last = inside(&mut b, condition, out);
        reason(&program(b, &[last]))
    };
    assert_eq!(told(|_, _| ()), (27, Some([2, 0, 0]), 2));
    assert_eq!(told(|b, region| b.read(5, region)).1, Some([2, 0, 0]));
    assert_eq!(told(|b, region| b.write(6, region)).1, Some([2, 0, 0]));
    let one_left = (27, Some([5, 5, 5]), 1);
    assert_eq!(told(|b, region| b.read(6, region)), one_left);
    assert_eq!(told(|b, region| b.public(region)), one_left);
}

/// A count over all tables has every place in its label.
#[test]
fn all_places_can_be_lacking() {
    let mut b = Builder::new();
    let mut total = count(&mut b, 0, [0, 7], [0, 7]);
    for table in 1..8 {
        let more = count(&mut b, table, [0, 7], [0, 7]);
        total = b.operator(kind::ADD, total, more);
    }
    let out = b.out(3, total);
    let last = b.region(7, 7..=7, 7..=7);
    let all = program(b.clone(), &[out]);
    assert_eq!(reason(&all), (27, Some([0, 0, 0]), 512));
    b.read(3, last);
    let but_one = program(b, &[out]);
    assert_eq!(reason(&but_one), (27, Some([0, 0, 0]), 511));
}

/// Table 7 is public. The context is owner 0's lines there and (6,7,7), which
/// user 0 may read.
#[test]
fn a_change_of_rights_is_tested_against_the_public_set() {
    let changes: [fn(&mut Builder) -> u16; 4] = [
        |b| b.grant_read(0, 6),
        |b| b.grant_write(0, 6),
        |b| b.revoke_read(0, 6),
        |b| b.revoke_write(0, 6),
    ];
    for change in changes {
        let mut b = eight_tables();
        b.public(7);
        b.read(0, 6);
        let parts = [count(&mut b, 7, [0, 0], [0, 7]), one(&mut b, 6, 7, 7)];
        let condition = b.operator(kind::LESS, parts[0], parts[1]);
        let change = change(&mut b);
        let last = inside(&mut b, condition, change);
        assert_eq!(reason(&program(b, &[last])), (29, Some([6, 7, 7]), 1));
    }
}

/// A put has labelled (1,2,5) by (3,0,0), which holds 2. A clear at an owner that
/// is read from there runs this body, in that context.
fn triggered(body: fn(&mut Builder) -> u16) -> (u32, Option<[usize; 3]>, usize) {
    let mut b = eight_tables();
    b.cell(3, 0, 0, 2);
    let [zero, two, five] = [0, 2, 5].map(|k| b.constant(k));
    let owner = b.query(kind::SUM, 3, [zero; 4]);
    let label = b.put(1, two, five, owner);
    let clear = b.clear(1, owner, five);
    let body = body(&mut b);
    b.clear_trigger(1, 0, body);
    reason(&program(b, &[label, clear]))
}

#[test]
fn a_trigger_has_its_own_context() {
    // The variable has the trigger's context, and lacks the branch's (4,1,1).
    let assigned = triggered(|b| {
        let condition = one(b, 4, 1, 1);
        let assign = b.assign(3, condition);
        inside(b, condition, assign)
    });
    assert_eq!(assigned, (25, Some([4, 1, 1]), 1));
    // The cell has itself, and lacks the trigger's context.
    let written = triggered(|b| put(b, 2, 0, 0));
    assert_eq!(written, (26, Some([3, 0, 0]), 1));
}

/// The first trigger clears (1,2,5) again, which sets off the second in the same
/// context. There the cell (0,6,0) lacks it, and the branch's own (0,5,0).
#[test]
fn a_trigger_of_a_trigger_has_its_own_context() {
    let nested = triggered(|b| {
        let first = clear(b, 1, 2, 5);
        b.clear_trigger(1, 0, first);
        let condition = one(b, 0, 5, 0);
        let write = put(b, 0, 6, 0);
        inside(b, condition, write)
    });
    assert_eq!(nested, (26, Some([0, 5, 0]), 2));
}

/// Stops for another reason, in the context of (0,0,0), which is in no label and
/// not public.
#[test]
fn other_stops_name_none() {
    let stopped = |user: u8, command: fn(&mut Builder) -> u16| {
        let mut b = eight_tables();
        let condition = one(&mut b, 0, 0, 0);
        let command = command(&mut b);
        let root = inside(&mut b, condition, command);
        b.program(user, root);
        b.book
    };
    let too_large = stopped(0, |b| {
        let most = b.constant(i32::MAX);
        let sum = b.operator(kind::ADD, most, most);
        b.assign(0, sum)
    });
    assert_eq!(reason(&too_large), (22, None, 0));
    let of_nothing = stopped(0, |b| {
        let zero = b.constant(0);
        let smallest = b.query(kind::SMALLEST, 0, [zero; 4]);
        b.assign(0, smallest)
    });
    assert_eq!(reason(&of_nothing), (31, None, 0));
    let no_key = stopped(0, |b| put(b, 1, 8, 0));
    assert_eq!(reason(&no_key), (23, None, 0));
    let no_right = stopped(1, |b| clear(b, 1, 0, 0));
    assert_eq!(reason(&no_right), (24, None, 0));
    let not_user_0 = stopped(1, |b| b.grant_read(1, 1));
    assert_eq!(reason(&not_user_0), (28, None, 0));
    // The condition costs 8 with its bounds, the branch 1, the assignment 2.
    let assigned = stopped(0, |b| {
        let one = b.constant(1);
        b.assign(0, one)
    });
    assert_eq!(reason_with(&assigned, 11, 0), (25, Some([0, 0, 0]), 1));
    assert_eq!(reason_with(&assigned, 10, 0), (21, None, 0));
}

/// The context is public, and the trace has no room.
#[test]
fn a_full_trace_names_none() {
    let commands: [fn(&mut Builder) -> u16; 2] = [|b| b.grant_read(1, 1), |b| b.out(1, 0)];
    for command in commands {
        let mut b = eight_tables();
        b.public(0);
        let condition = one(&mut b, 0, 0, 0);
        let command = command(&mut b);
        let last = inside(&mut b, condition, command);
        let book = program(b, &[last]);
        assert_eq!(reason_with(&book, 100, 7), (30, None, 0));
        assert_eq!(reason_with(&book, 100, 8), (0, None, 0));
    }
}

/// In each place the smallest or largest of nothing would be used against a label
/// too: by an out, a put and a branch. It stops before that.
#[test]
fn nothing_names_none() {
    let uses: [fn(&mut Builder, u16) -> u16; 3] = [
        |b, value| b.out(1, value),
        |b, value| {
            let line = b.constant(0);
            b.put(1, value, line, line)
        },
        |b, value| {
            let assign = b.assign(0, value);
            inside(b, value, assign)
        },
    ];
    for (extreme, number) in [(kind::SMALLEST, 31), (kind::LARGEST, 31), (kind::SUM, 0)] {
        for (at, make) in uses.into_iter().enumerate() {
            let mut b = eight_tables();
            let zero = b.constant(0);
            let value = b.query(extreme, 3, [zero; 4]);
            let command = make(&mut b, value);
            let book = program(b, &[command]);
            if number == 0 {
                let stop = [27, 26, 25][at];
                assert_eq!(reason(&book), (stop, Some([3, 0, 0]), 1));
            } else {
                assert_eq!(reason(&book), (31, None, 0));
            }
        }
    }
}

/// The trigger gives the cell (2,0,0) the label of C alone, and then writes it in
/// the context of table 2. All 64 places of the table are lacking then; as the
/// cell is before and after, its own would not be.
#[test]
fn a_cell_is_read_before_it_is_taken_back() {
    let mut b = eight_tables();
    let relabelled = one(&mut b, 0, 0, 2);
    let [owner, line] = [0, 0].map(|k| b.constant(k));
    let relabel = b.put(2, owner, line, relabelled);
    let raise = b.raise(3, 2);
    let raised = b.variable(3);
    let write = put(&mut b, 2, 0, 0);
    let stopped = inside(&mut b, raised, write);
    let first = b.then(relabel, raise);
    let body = b.then(first, stopped);
    b.put_trigger(1, 0, body);
    let posting = put(&mut b, 1, 0, 0);
    let book = program(b, &[posting]);
    assert_eq!(reason(&book), (26, Some([2, 0, 0]), 64));
    let (_, memory) = run_with(&book, 10_000, 0);
    let own = [0, 0, 1, 0, 0, 0, 0, 0];
    assert_eq!(memory.labels[8 * 128..8 * 129], own);
}

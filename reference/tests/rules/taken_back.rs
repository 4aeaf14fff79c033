//! A stop inside a trigger's body takes the program's own put or clear back.

use crate::common::{ended, run_with, UNTOUCHED};
use crate::{
    amount_of, cell, clear_at, finish, program, put_at, run_amply, stop_of, three_cells, when, A,
    B, C,
};
use reference::book::kind;
use reference::builder::Builder;
use reference::run::{run, Answer, Memory, Tests};

/// A command that stops with 23; costs 4 until then.
fn fault(b: &mut Builder) -> u16 {
    let zero = b.constant(0);
    put_at(b, 2, 8, 0, zero)
}

/// A put of a constant; costs 4.
fn set(b: &mut Builder, table: u8, owner: u8, line: u8, k: i32) -> u16 {
    let amount = b.constant(k);
    put_at(b, table, owner, line, amount)
}

/// Commands one after the other.
fn block(b: &mut Builder, commands: &[u16]) -> u16 {
    let (&first, rest) = commands.split_first().unwrap();
    rest.iter().fold(first, |block, &next| b.then(block, next))
}

/// Runs these commands as a program that has to stop at a fault of a trigger.
fn fail(mut b: Builder, commands: &[u16]) -> Memory {
    program(&mut b, commands);
    let (answer, memory) = run_amply(&b.book);
    assert_eq!(answer.number(), 23);
    memory
}

/// A trigger on every put and clear in table 0 or 1, which only stops.
fn faulty_tables() -> Builder {
    let mut b = three_cells();
    let body = fault(&mut b);
    for table in [0, 1] {
        b.put_trigger(table, 0, body);
        b.clear_trigger(table, 0, body);
    }
    b
}

#[test]
fn a_put_over_a_present_cell_is_taken_back() {
    let mut b = faulty_tables();
    let secret = amount_of(&mut b, 0, 0, C);
    let put = put_at(&mut b, 0, 0, A, secret);
    let memory = fail(b, &[put]);
    assert_eq!(cell(&memory, 0, 0, A), (Some(1), vec![0]));
}

#[test]
fn a_put_of_an_absent_cell_is_taken_back() {
    let mut b = faulty_tables();
    let put = set(&mut b, 1, 3, 3, 9);
    let memory = fail(b, &[put]);
    assert_eq!(cell(&memory, 1, 3, 3), (None, vec![91]));
}

#[test]
fn a_clear_of_a_present_cell_is_taken_back() {
    let mut b = faulty_tables();
    let clear = clear_at(&mut b, 0, 0, C);
    let memory = fail(b, &[clear]);
    assert_eq!(cell(&memory, 0, 0, C), (Some(33), vec![2]));
}

/// Only the label has changed, to the empty one.
#[test]
fn a_clear_of_an_absent_cell_is_taken_back() {
    let mut b = faulty_tables();
    let clear = clear_at(&mut b, 1, 3, 3);
    let memory = fail(b, &[clear]);
    assert_eq!(cell(&memory, 1, 3, 3), (None, vec![91]));
}

/// The body puts an absent cell, relabels and clears present ones, and stops.
#[test]
fn what_the_trigger_wrote_is_taken_back() {
    let mut b = three_cells();
    let secret = amount_of(&mut b, 0, 0, C);
    let commands = [
        set(&mut b, 2, 1, 1, 5),
        put_at(&mut b, 0, 0, B, secret),
        clear_at(&mut b, 0, 0, A),
        clear_at(&mut b, 7, 7, 7),
        fault(&mut b),
    ];
    let body = block(&mut b, &commands);
    b.put_trigger(1, 0, body);
    let put = set(&mut b, 1, 0, 0, 9);
    let memory = fail(b, &[put]);
    assert_eq!(cell(&memory, 1, 0, 0), (None, vec![64]));
    assert_eq!(cell(&memory, 2, 1, 1), (None, vec![137]));
    assert_eq!(cell(&memory, 0, 0, B), (Some(2), vec![1]));
    assert_eq!(cell(&memory, 0, 0, A), (Some(1), vec![0]));
    assert_eq!(cell(&memory, 7, 7, 7), (None, vec![511]));
}

/// An earlier posting left 50 with the label of C in (2,0,0). The one that fails
/// writes it three times, and its own cell twice.
#[test]
fn a_cell_written_again_is_as_before_the_first_write() {
    let mut b = three_cells();
    let label = amount_of(&mut b, 0, 0, C);
    let seventeen = b.constant(17);
    let fifty = b.operator(kind::ADD, label, seventeen);
    let before = put_at(&mut b, 2, 0, 0, fifty);
    let commands = [
        set(&mut b, 2, 0, 0, 1),
        set(&mut b, 1, 0, 0, 10),
        clear_at(&mut b, 2, 0, 0),
        set(&mut b, 2, 0, 0, 2),
        fault(&mut b),
    ];
    let body = block(&mut b, &commands);
    b.put_trigger(1, 0, body);
    let put = set(&mut b, 1, 0, 0, 9);
    let memory = fail(b, &[before, put]);
    assert_eq!(cell(&memory, 2, 0, 0), (Some(50), vec![2]));
    assert_eq!(cell(&memory, 1, 0, 0), (None, vec![64]));
}

/// Triggers 0 and 1 both write (2,0,0); trigger 2 stops.
#[test]
fn what_earlier_triggers_wrote_is_taken_back() {
    let mut b = three_cells();
    for k in [70, 71] {
        let body = set(&mut b, 2, 0, 0, k);
        b.put_trigger(1, 0, body);
    }
    let body = fault(&mut b);
    b.put_trigger(1, 0, body);
    let put = set(&mut b, 1, 0, 0, 9);
    let memory = fail(b, &[put]);
    assert_eq!(cell(&memory, 1, 0, 0), (None, vec![64]));
    assert_eq!(cell(&memory, 2, 0, 0), (None, vec![128]));
}

/// A put in table n fires a put in table n + 1, from 0 to `last`; there the
/// trigger stops.
fn chain(last: u8) -> Builder {
    let mut b = three_cells();
    for table in 0..last {
        let body = set(&mut b, table + 1, 5, 5, i32::from(table) + 100);
        b.put_trigger(table, 0, body);
    }
    let body = fault(&mut b);
    b.put_trigger(last, 0, body);
    b
}

/// The place of owner 5, line 5 is 45 in its table.
#[test]
fn a_stop_at_any_depth_takes_back_the_programs_command() {
    for last in 0..8 {
        let mut b = chain(last);
        let put = set(&mut b, 0, 5, 5, 9);
        let memory = fail(b, &[put]);
        for table in 0..8 {
            let own = 64 * usize::from(table) + 45;
            assert_eq!(cell(&memory, table, 5, 5), (None, vec![own]));
        }
    }
}

/// In the body a put with a trigger of its own has finished before the stop.
#[test]
fn a_posting_finished_inside_the_body_is_taken_back() {
    let mut b = three_cells();
    let inner = set(&mut b, 3, 0, 0, 4);
    let bad = fault(&mut b);
    let body = b.then(inner, bad);
    b.put_trigger(1, 0, body);
    let further = set(&mut b, 4, 0, 0, 5);
    b.put_trigger(3, 0, further);
    let put = set(&mut b, 1, 0, 0, 9);
    let memory = fail(b, &[put]);
    assert_eq!(cell(&memory, 3, 0, 0), (None, vec![192]));
    assert_eq!(cell(&memory, 4, 0, 0), (None, vec![256]));
}

/// A put in table 1 notes its line in (2,0,line); at line 1 the trigger then
/// stops.
fn notes() -> Builder {
    let mut b = three_cells();
    let zero = b.constant(0);
    let line = b.variable(1);
    let note = b.put(2, zero, line, line);
    let bad = fault(&mut b);
    let first = b.constant(1);
    let at_1 = b.operator(kind::EQUAL, line, first);
    let test = when(&mut b, at_1, bad);
    let body = b.then(note, test);
    b.put_trigger(1, 0, body);
    b
}

#[test]
fn an_earlier_posting_stays() {
    let mut b = notes();
    let puts = [set(&mut b, 1, 4, 6, 60), set(&mut b, 1, 4, 1, 10)];
    let memory = fail(b, &puts);
    assert_eq!(cell(&memory, 1, 4, 6), (Some(60), vec![]));
    assert_eq!(cell(&memory, 2, 0, 6), (Some(6), vec![]));
    assert_eq!(cell(&memory, 1, 4, 1), (None, vec![97]));
    assert_eq!(cell(&memory, 2, 0, 1), (None, vec![129]));
}

/// The second posting is at the cells of the first, and gives them back.
#[test]
fn an_earlier_posting_of_the_same_cells_stays() {
    let mut b = notes();
    let secret = amount_of(&mut b, 0, 0, B);
    let earlier = [
        put_at(&mut b, 3, 0, 0, secret),
        put_at(&mut b, 2, 0, 1, secret),
    ];
    let put = set(&mut b, 1, 4, 1, 10);
    let memory = fail(b, &[earlier[0], earlier[1], put]);
    assert_eq!(cell(&memory, 3, 0, 0), (Some(2), vec![1]));
    assert_eq!(cell(&memory, 2, 0, 1), (Some(2), vec![1]));
    assert_eq!(cell(&memory, 1, 4, 1), (None, vec![97]));
}

#[test]
fn an_earlier_programs_posting_stays() {
    let mut b = notes();
    let first = set(&mut b, 1, 4, 6, 60);
    b.program(0, first);
    let second = set(&mut b, 1, 4, 1, 10);
    let memory = fail(b, &[second]);
    assert_eq!(cell(&memory, 1, 4, 6), (Some(60), vec![]));
    assert_eq!(cell(&memory, 2, 0, 6), (Some(6), vec![]));
    assert_eq!(cell(&memory, 1, 4, 1), (None, vec![97]));
}

/// The lines count down: 3 and 2 are posted, then 1 fails.
#[test]
fn a_loops_earlier_turns_stay() {
    let mut b = notes();
    let three = b.constant(3);
    let start = b.assign(9, three);
    let counter = b.variable(9);
    let [owner, one] = [0, 1].map(|k| b.constant(k));
    let put = b.put(1, owner, counter, counter);
    let less = b.operator(kind::SUBTRACT, counter, one);
    let step = b.assign(9, less);
    let body = b.then(put, step);
    let turns = b.repeat(counter, body);
    let memory = fail(b, &[start, turns]);
    for (line, place) in [(0, 64), (1, 65)] {
        assert_eq!(cell(&memory, 1, 0, line), (None, vec![place]));
        assert_eq!(cell(&memory, 2, 0, line), (None, vec![place + 64]));
    }
    for line in [2, 3] {
        let posted = Some(i32::from(line));
        assert_eq!(cell(&memory, 1, 0, line), (posted, vec![]));
        assert_eq!(cell(&memory, 2, 0, line), (posted, vec![]));
    }
}

#[test]
fn a_posting_inside_a_branch_is_taken_back() {
    let mut b = notes();
    let secret = amount_of(&mut b, 0, 0, C);
    let before = put_at(&mut b, 1, 4, 0, secret);
    let put = set(&mut b, 1, 4, 1, 10);
    let one = b.constant(1);
    let branch = when(&mut b, one, put);
    let memory = fail(b, &[before, branch]);
    assert_eq!(cell(&memory, 1, 4, 0), (Some(33), vec![2]));
    assert_eq!(cell(&memory, 1, 4, 1), (None, vec![97]));
}

/// The posting's trigger has finished; the stop is in the program.
#[test]
fn a_stop_in_the_program_takes_nothing_back() {
    let mut b = notes();
    let commands = [set(&mut b, 1, 4, 6, 60), fault(&mut b)];
    let memory = fail(b, &commands);
    assert_eq!(cell(&memory, 1, 4, 6), (Some(60), vec![]));
    assert_eq!(cell(&memory, 2, 0, 6), (Some(6), vec![]));
}

/// Puts in table 1, which has a trigger, that stop before they write: with 22 in
/// the key, 22 in the amount, 23, 24 and 26.
#[test]
fn a_stop_on_the_command_itself_takes_nothing_back() {
    for (way, number) in [(0, 22), (1, 22), (2, 23), (3, 24), (4, 26)] {
        let mut b = notes();
        let posting = set(&mut b, 1, 4, 6, 60);
        b.program(0, posting);
        let [zero, one, most] = [0, 1, i32::MAX].map(|k| b.constant(k));
        let large = b.operator(kind::ADD, most, one);
        let secret = amount_of(&mut b, 0, 0, A);
        let root = match way {
            0 => b.put(1, zero, large, zero),
            1 => b.put(1, zero, zero, large),
            2 => set(&mut b, 1, 0, 8, 0),
            4 => b.put(1, secret, zero, zero),
            _ => b.put(1, zero, zero, zero),
        };
        b.program(if way == 3 { 5 } else { 0 }, root);
        let (answer, memory) = run_amply(&b.book);
        assert_eq!(answer.number(), number);
        assert_eq!(cell(&memory, 1, 4, 6), (Some(60), vec![]));
        assert_eq!(cell(&memory, 2, 0, 6), (Some(6), vec![]));
    }
}

/// The put costs 4, its body's root 1, and each skip there 1. The put's amount
/// is the first of its four nodes, and the last to be entered.
#[test]
fn the_body_begins_with_its_root() {
    let mut b = three_cells();
    let skip = b.skip();
    let body = b.then(skip, skip);
    b.put_trigger(1, 0, body);
    let put = set(&mut b, 1, 0, 0, 9);
    program(&mut b, &[put]);
    let absent = (None, vec![64]);
    let stops = [(0, put), (3, put - 3), (4, body), (5, skip), (6, skip)];
    for (budget, node) in stops {
        let (answer, memory) = run_with(&b.book, budget, 0);
        assert_eq!(answer, ended(21, node, budget, 0));
        assert_eq!(cell(&memory, 1, 0, 0), absent, "budget {budget}");
    }
    let (answer, memory) = run_with(&b.book, 7, 0);
    assert_eq!(answer, ended(0, 0, 7, 0));
    assert_eq!(cell(&memory, 1, 0, 0), (Some(9), vec![]));
}

/// The put is whole when the next command is entered: the trigger is for clears.
#[test]
fn a_budget_used_up_by_a_put_takes_nothing_back() {
    let mut b = three_cells();
    let skip = b.skip();
    b.clear_trigger(1, 0, skip);
    let put = set(&mut b, 1, 0, 0, 9);
    program(&mut b, &[put, skip]);
    let (answer, memory) = run_with(&b.book, 5, 0);
    assert_eq!(answer, ended(21, skip, 5, 0));
    assert_eq!(cell(&memory, 1, 0, 0), (Some(9), vec![]));
}

/// The sequence costs 1, the out 2, the put 4 and the fault 4.
#[test]
fn cost_and_trace_stay() {
    let mut b = faulty_tables();
    let bad = b.book.triggers[0].body;
    let five = b.constant(5);
    let out = b.out(1, five);
    let put = put_at(&mut b, 1, 0, 0, five);
    program(&mut b, &[out, put]);
    let (answer, memory) = run_with(&b.book, 100, 20);
    assert_eq!(answer, ended(23, bad, 11, 8));
    assert_eq!(memory.trace[..8], [1, 1, 0, 0, 5, 0, 0, 0]);
    assert_eq!(memory.trace[8..], [UNTOUCHED; 12]);
}

/// The trigger tries a command that stops with this number. User 5 may write
/// nothing.
fn stopped_with(number: u32) -> (Answer, Memory) {
    let mut b = three_cells();
    let [zero, one, eight, most] = [0, 1, 8, i32::MAX].map(|k| b.constant(k));
    let large = b.operator(kind::ADD, most, one);
    let secret = amount_of(&mut b, 0, 0, A);
    let assign = b.assign(3, one);
    let (user, body) = match number {
        22 => (0, b.assign(3, large)),
        23 => (0, b.clear(2, eight, zero)),
        24 => (5, b.put(2, zero, zero, one)),
        25 => (0, when(&mut b, secret, assign)),
        _ => (0, b.put(2, secret, zero, one)),
    };
    b.put_trigger(1, user, body);
    let put = set(&mut b, 1, 0, 0, 9);
    program(&mut b, &[put]);
    run_amply(&b.book)
}

#[test]
fn every_stop_of_a_body_takes_back() {
    for number in 22..=26 {
        let (answer, memory) = stopped_with(number);
        assert_eq!(stop_of(answer).0, number);
        assert_eq!(cell(&memory, 1, 0, 0), (None, vec![64]), "{number}");
    }
}

/// The first put passes, as its secret key is not tested without labels. The
/// second fails.
#[test]
fn the_run_with_no_labels_takes_back_too() {
    let mut b = notes();
    let secret = amount_of(&mut b, 0, 0, C);
    let less = b.constant(31);
    let owner = b.operator(kind::SUBTRACT, secret, less);
    let line = b.constant(5);
    let puts = [b.put(1, owner, line, line), set(&mut b, 1, 4, 1, 10)];
    program(&mut b, &puts);
    let mut memory = Memory::new(0);
    let answer = run(&b.book.encode(), 1_000, &mut memory, Tests::Unlabelled);
    assert_eq!(answer.number(), 23);
    assert_eq!(cell(&memory, 1, 2, 5).0, Some(5));
    assert_eq!(cell(&memory, 2, 0, 5).0, Some(5));
    assert_eq!(cell(&memory, 1, 4, 1).0, None);
    assert_eq!(cell(&memory, 2, 0, 1).0, None);
}

#[test]
fn a_finished_posting_takes_nothing_back() {
    let mut b = notes();
    let put = set(&mut b, 1, 4, 6, 60);
    program(&mut b, &[put]);
    let memory = finish(&b.book);
    assert_eq!(cell(&memory, 1, 4, 6), (Some(60), vec![]));
    assert_eq!(cell(&memory, 2, 0, 6), (Some(6), vec![]));
}

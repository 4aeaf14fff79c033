//! Stop 31: the smallest or largest of a range in which no cell is present.

use crate::common::{ended, run_with, UNTOUCHED};
use crate::{
    amount_of, cell, clear_at, finish, program, put_at, run_amply, stop, three_cells, when, A, B, C,
};
use reference::book::kind;
use reference::builder::Builder;
use reference::run::{carry_out, Answer, Failed, Memory, Tests};

const EXTREMES: [u8; 2] = [kind::SMALLEST, kind::LARGEST];

/// A query over constant bounds; costs 8.
fn query(b: &mut Builder, kind: u8, table: u8, bounds: [i32; 4]) -> u16 {
    let bounds = bounds.map(|k| b.constant(k));
    b.query(kind, table, bounds)
}

/// The smallest of an absent cell; costs 8.
fn nothing(b: &mut Builder) -> u16 {
    query(b, kind::SMALLEST, 4, [2, 2, 3, 3])
}

/// An expression that stops with 22; costs 3.
fn too_large(b: &mut Builder) -> u16 {
    let most = b.constant(i32::MAX);
    b.operator(kind::ADD, most, most)
}

/// What the queries answer over the whole of table 1, which has this cell.
fn of_one(kinds: &[u8], owner: u8, line: u8, amount: i32) -> Vec<Option<i32>> {
    let answer = |kind: &u8| {
        let mut b = three_cells();
        b.cell(1, owner, line, amount);
        let value = query(&mut b, *kind, 1, [0, 7, 0, 7]);
        let put = put_at(&mut b, 2, 0, 0, value);
        program(&mut b, &[put]);
        cell(&finish(&b.book), 2, 0, 0).0
    };
    kinds.iter().map(answer).collect()
}

#[test]
fn one_present_cell_is_the_smallest_and_the_largest() {
    for (owner, line) in [(0, 0), (3, 4), (7, 7)] {
        for amount in [0, 1, -1, i32::MIN, i32::MAX] {
            let answers = of_one(&EXTREMES, owner, line, amount);
            assert_eq!(answers, [Some(amount), Some(amount)]);
        }
    }
}

/// Table 1 has no cell but (1,7,7); table 2 has cells in each of the ranges.
#[test]
fn cells_outside_the_range_and_in_other_tables_do_not_count() {
    for extreme in EXTREMES {
        for bounds in [[0, 6, 0, 7], [0, 7, 0, 6], [7, 7, 6, 6], [6, 6, 7, 7]] {
            let mut b = three_cells();
            b.cell(1, 7, 7, 5);
            b.cell(2, 6, 6, 6);
            b.cell(2, 6, 7, 6);
            b.cell(2, 7, 6, 6);
            let value = query(&mut b, extreme, 1, bounds);
            let assign = b.assign(0, value);
            program(&mut b, &[assign]);
            assert_eq!(stop(&b.book), (31, value));
        }
    }
}

/// The stop is on the query, and count and sum have been told as 0.
#[test]
fn counts_and_sums_are_told_before_the_stop() {
    let mut b = three_cells();
    b.public(5);
    let counted = query(&mut b, kind::COUNT, 5, [0, 7, 0, 7]);
    let summed = query(&mut b, kind::SUM, 5, [0, 7, 0, 7]);
    let largest = query(&mut b, kind::LARGEST, 5, [0, 7, 0, 7]);
    let outs = [counted, summed, largest].map(|value| b.out(6, value));
    program(&mut b, &outs);
    // Two times then, and three times an out of 9.
    let (answer, memory) = run_with(&b.book, 100, 24);
    assert_eq!(answer, ended(31, largest, 29, 16));
    let record = [1, 6, 0, 0, 0, 0, 0, 0];
    let told = [record, record, [UNTOUCHED; 8]].concat();
    assert_eq!(memory.trace, told);
}

/// The query is paid on entry and its bounds after it, before it stops.
#[test]
fn it_stops_after_all_is_paid() {
    let mut b = three_cells();
    let bounds = [3, 3, 4, 5].map(|k| b.constant(k));
    let largest = b.query(kind::LARGEST, 0, bounds);
    let assign = b.assign(0, largest);
    b.program(0, assign);
    let answer = |budget| run_with(&b.book, budget, 0).0;
    for budget in 1..5 {
        assert_eq!(answer(budget), ended(21, largest, 1, 0));
    }
    for (spent, bound) in (5..).zip(bounds) {
        assert_eq!(answer(spent), ended(21, bound, spent, 0));
    }
    assert_eq!(answer(9), ended(31, largest, 9, 0));
    assert_eq!(answer(10), ended(31, largest, 9, 0));
}

/// Each command is entered for 1, and the query costs 8. The parts before it are
/// constants.
#[test]
fn it_stops_every_command_that_evaluates_it() {
    type Make = fn(&mut Builder, u16) -> u16;
    let commands: [(Make, u32); 9] = [
        (|b, value| b.assign(0, value), 9),
        (|b, value| b.out(3, value), 9),
        (|b, value| when(b, value, value + 1), 9),
        (|b, value| b.repeat(value, value + 1), 9),
        (|b, value| b.put(1, value, 0, 0), 9),
        (|b, value| b.put(1, 0, value, 0), 10),
        (|b, value| b.put(1, 0, 0, value), 11),
        (|b, value| b.clear(1, value, 0), 9),
        (|b, value| b.clear(1, 0, value), 10),
    ];
    for (make, cost) in commands {
        let mut b = three_cells();
        assert_eq!(b.constant(1), 0);
        let value = nothing(&mut b);
        assert_eq!(b.skip(), value + 1);
        let command = make(&mut b, value);
        b.program(0, command);
        let (answer, _) = run_with(&b.book, 100, 0);
        assert_eq!(answer, ended(31, value, cost, 0));
    }
}

/// A put or clear whose key, right or label is wrong too, an out that is not
/// readable, and an assignment in a secret context: the part comes first.
#[test]
fn a_part_stops_before_the_command_is_tested() {
    let mut b = three_cells();
    let value = nothing(&mut b);
    let (eight, secret) = (b.constant(8), amount_of(&mut b, 0, 0, A));
    let assign = b.assign(0, value);
    let commands = [
        b.put(1, eight, eight, value),
        b.clear(1, eight, value),
        b.put(1, secret, secret, value),
        b.out(3, value),
        when(&mut b, secret, assign),
    ];
    for (user, command) in commands.into_iter().flat_map(|c| [(0, c), (1, c)]) {
        let mut b = b.clone();
        b.program(user, command);
        assert_eq!(stop(&b.book), (31, value));
    }
}

#[test]
fn the_left_operand_stops_before_the_right_one() {
    for operator in [kind::ADD, kind::SUBTRACT, kind::EQUAL, kind::LESS] {
        let mut b = three_cells();
        let (none, other) = (nothing(&mut b), nothing(&mut b));
        let (large, one) = (too_large(&mut b), b.constant(1));
        for (left, right, expected, cost) in [
            (none, one, (31, none), 10),
            (one, none, (31, none), 11),
            (none, large, (31, none), 10),
            (large, none, (22, large), 5),
            (none, other, (31, none), 10),
            (other, none, (31, other), 10),
        ] {
            let mut b = b.clone();
            let value = b.operator(operator, left, right);
            let assign = b.assign(0, value);
            b.program(0, assign);
            let (answer, _) = run_with(&b.book, 100, 0);
            assert_eq!(answer, ended(expected.0, expected.1, cost, 0));
        }
    }
}

/// A bound that stops comes before the query itself, which has no cell either. A
/// constant costs 1, nothing 8, and the query and its command 5.
#[test]
fn a_bound_stops_before_its_query() {
    for kind in kind::COUNT..=kind::LARGEST {
        for bound in 0..4 {
            let mut b = three_cells();
            let (none, large, one) = (nothing(&mut b), too_large(&mut b), b.constant(1));
            for (part, number, cost) in [(none, 31, 8), (large, 22, 3)] {
                let mut b = b.clone();
                let mut bounds = [one; 4];
                bounds[bound] = part;
                let value = b.query(kind, 4, bounds);
                let assign = b.assign(0, value);
                b.program(0, assign);
                let (answer, _) = run_with(&b.book, 100, 0);
                assert_eq!(answer, ended(number, part, 5 + bound as u32 + cost, 0));
            }
        }
    }
}

/// The first of two faulty bounds stops, whatever the other would stop with.
#[test]
fn the_first_faulty_bound_stops() {
    for kind in EXTREMES {
        let mut b = three_cells();
        let (none, large, one) = (nothing(&mut b), too_large(&mut b), b.constant(1));
        for (bounds, expected) in [
            ([none, large, one, one], (31, none)),
            ([large, none, one, one], (22, large)),
            ([one, none, one, large], (31, none)),
            ([one, one, large, none], (22, large)),
        ] {
            let mut b = b.clone();
            let value = b.query(kind, 4, bounds);
            let assign = b.assign(0, value);
            program(&mut b, &[assign]);
            assert_eq!(stop(&b.book), expected);
        }
    }
}

#[test]
fn what_is_not_reached_does_not_stop() {
    let mut b = three_cells();
    let value = nothing(&mut b);
    let bad = b.assign(0, value);
    let [zero, one] = [0, 1].map(|k| b.constant(k));
    let skip = b.skip();
    let count = query(&mut b, kind::COUNT, 4, [2, 2, 3, 3]);
    let commands = [
        b.choose(zero, bad, skip),
        b.choose(one, skip, bad),
        b.repeat(zero, bad),
        b.choose(count, bad, skip),
    ];
    b.put_trigger(2, 0, bad);
    b.clear_trigger(1, 0, bad);
    let put = b.put(1, zero, zero, one);
    program(&mut b, &commands);
    b.program(0, put);
    finish(&b.book);
}

#[test]
fn the_runs_own_writes_count() {
    for extreme in EXTREMES {
        let mut b = three_cells();
        let minus = b.constant(-9);
        let put = put_at(&mut b, 4, 2, 3, minus);
        let clear = clear_at(&mut b, 4, 2, 3);
        let value = query(&mut b, extreme, 4, [0, 7, 0, 7]);
        let show = put_at(&mut b, 1, 0, 0, value);
        let mut left = b.clone();
        program(&mut left, &[put, show]);
        assert_eq!(cell(&finish(&left.book), 1, 0, 0).0, Some(-9));
        program(&mut b, &[put, clear, show]);
        assert_eq!(stop(&b.book), (31, value));
    }
}

/// A, B and C are cleared one by one, in this order. The smallest is 1, 2 and
/// then 33; the fourth turn finds none.
#[test]
fn the_last_cell_taken_away_leaves_nothing() {
    let mut b = three_cells();
    let line = b.variable(3);
    let [zero, one] = [0, 1].map(|k| b.constant(k));
    let value = query(&mut b, kind::SMALLEST, 0, [0, 0, 0, 7]);
    let keep = b.put(1, zero, line, value);
    let clear = b.clear(0, zero, line);
    let next = b.operator(kind::ADD, line, one);
    let step = b.assign(3, next);
    let first = b.then(keep, clear);
    let turn = b.then(first, step);
    let turns = b.repeat(one, turn);
    program(&mut b, &[turns]);
    let (answer, memory) = run_amply(&b.book);
    // A turn: while and test 2, two thens 2, put 11, clear 3, assignment 4. The
    // fourth stops after while, test, thens, put, its key and the query.
    assert_eq!(answer, ended(31, value, 3 * 22 + 15, 0));
    for (line, amount) in [(0, Some(1)), (1, Some(2)), (2, Some(33)), (3, None)] {
        assert_eq!(cell(&memory, 1, 0, line).0, amount);
        assert_eq!(cell(&memory, 0, 0, line).0, None);
    }
}

/// The trigger on table 1 notes 5 in (2,0,0) and then asks: for the row of the
/// posting, which has it, or for the row of owner 7, which is empty.
fn asking_trigger(extreme: u8, own: bool) -> (Builder, u16) {
    let mut b = three_cells();
    let five = b.constant(5);
    let note = put_at(&mut b, 2, 0, 0, five);
    let owner = if own { b.variable(0) } else { b.constant(7) };
    let [zero, seven] = [0, 7].map(|k| b.constant(k));
    let value = b.query(extreme, 1, [owner, owner, zero, seven]);
    let keep = put_at(&mut b, 2, 0, 1, value);
    let body = b.then(note, keep);
    b.put_trigger(1, 0, body);
    (b, value)
}

#[test]
fn a_trigger_sees_the_posting_that_it_runs_for() {
    for extreme in EXTREMES {
        let (mut b, _) = asking_trigger(extreme, true);
        let amount = b.constant(-6);
        let put = put_at(&mut b, 1, 3, 3, amount);
        program(&mut b, &[put]);
        assert_eq!(cell(&finish(&b.book), 2, 0, 1).0, Some(-6));
    }
}

/// The first posting's cell is in table 3, which has no trigger. The one that
/// fails leaves nothing, and its cost and what was told before stay.
#[test]
fn inside_a_trigger_it_takes_the_posting_back() {
    for extreme in EXTREMES {
        let (mut b, value) = asking_trigger(extreme, false);
        let one = b.constant(1);
        let earlier = put_at(&mut b, 3, 0, 0, one);
        let told = b.out(3, one);
        let put = put_at(&mut b, 1, 3, 3, one);
        program(&mut b, &[earlier, told, put]);
        let (answer, memory) = run_amply(&b.book);
        // Two thens, a put, an out, a put; then, in the body, a then, a put, and
        // a put with two of its parts and the query.
        let cost = 2 + 4 + 2 + 4 + 1 + 4 + 1 + 2 + 8;
        assert_eq!(answer, ended(31, value, cost, 8));
        assert_eq!(cell(&memory, 3, 0, 0), (Some(1), vec![]));
        assert_eq!(cell(&memory, 1, 3, 3), (None, vec![91]));
        assert_eq!(cell(&memory, 2, 0, 0), (None, vec![128]));
        assert_eq!(memory.trace[..8], [1, 3, 0, 0, 1, 0, 0, 0]);
    }
}

/// Trigger 0 puts in table 3, and trigger 1, which that sets off, asks.
#[test]
fn a_trigger_that_a_trigger_sets_off_takes_the_posting_back() {
    let mut b = three_cells();
    let one = b.constant(1);
    let further = put_at(&mut b, 3, 1, 1, one);
    b.put_trigger(1, 0, further);
    let value = query(&mut b, kind::LARGEST, 3, [0, 0, 0, 7]);
    let ask = b.assign(9, value);
    b.put_trigger(3, 0, ask);
    let put = put_at(&mut b, 1, 3, 3, one);
    program(&mut b, &[put]);
    let (answer, memory) = run_amply(&b.book);
    // The two puts, and the assignment with the query.
    assert_eq!(answer, ended(31, value, 17, 0));
    assert_eq!(cell(&memory, 1, 3, 3), (None, vec![91]));
    assert_eq!(cell(&memory, 3, 1, 1), (None, vec![201]));
}

/// The trigger clears what the program asks for next: that stop is the program's
/// own, and the posting stays.
#[test]
fn a_later_stop_of_the_program_takes_nothing_back() {
    let mut b = three_cells();
    let clear = clear_at(&mut b, 0, 0, C);
    b.put_trigger(1, 0, clear);
    let one = b.constant(1);
    let put = put_at(&mut b, 1, 3, 3, one);
    let value = query(&mut b, kind::SMALLEST, 0, [0, 0, 2, 2]);
    let ask = b.assign(0, value);
    program(&mut b, &[put, ask]);
    let (answer, memory) = run_amply(&b.book);
    assert_eq!(answer, ended(31, value, 1 + 4 + 3 + 9, 0));
    assert_eq!(cell(&memory, 1, 3, 3), (Some(1), vec![]));
    assert_eq!(cell(&memory, 0, 0, C).0, None);
}

/// Lines 1 to 3 of owner 0, of which only B at line 1 is present. The label has
/// the absent cells too.
#[test]
fn what_goes_on_has_the_labels_of_absent_cells() {
    for extreme in EXTREMES {
        let mut b = three_cells();
        b.book.cells.remove(usize::from(C));
        let value = query(&mut b, extreme, 0, [0, 0, 1, 3]);
        let show = put_at(&mut b, 1, 0, 0, value);
        program(&mut b, &[show]);
        let shown = cell(&finish(&b.book), 1, 0, 0);
        assert_eq!(shown, (Some(2), vec![1, 2, 3]));
    }
}

/// A is 1, and as the last owner it leaves (7,1,0) in. Its place is in the label,
/// with those of the two cells, 448 and 456.
#[test]
fn what_goes_on_has_the_labels_of_its_bounds() {
    for extreme in EXTREMES {
        let mut b = three_cells();
        b.cell(7, 1, 0, -4);
        let (zero, secret) = (b.constant(0), amount_of(&mut b, 0, 0, A));
        let value = b.query(extreme, 7, [zero, secret, zero, zero]);
        let show = put_at(&mut b, 1, 0, 0, value);
        program(&mut b, &[show]);
        let shown = cell(&finish(&b.book), 1, 0, 0);
        assert_eq!(shown, (Some(-4), vec![0, 448, 456]));
    }
}

/// B is hidden from user 3, who reads A. With B present the run goes on until it
/// would tell of it; with B absent it stops before.
#[test]
fn whether_a_hidden_cell_is_there_decides() {
    for (present, extreme) in [true, false].into_iter().zip(EXTREMES) {
        let mut b = three_cells();
        let readable = b.region(0, 0..=0, A..=A);
        b.read(3, readable);
        if !present {
            b.book.cells.remove(usize::from(B));
        }
        let hidden = query(&mut b, extreme, 0, [0, 0, 1, 1]);
        let keep = b.assign(5, hidden);
        let open = query(&mut b, extreme, 0, [0, 0, 0, 0]);
        let tell = b.out(3, open);
        let kept = b.variable(5);
        let leak = b.out(3, kept);
        program(&mut b, &[keep, tell, leak]);
        let (answer, _) = run_amply(&b.book);
        match present {
            true => assert_eq!(answer, ended(27, leak, 2 + 9 + 9 + 2, 8)),
            false => assert_eq!(answer, ended(31, hidden, 2 + 9, 0)),
        }
    }
}

/// Node 0 is all bounds. A command follows the query, so of 1,024 nodes the last
/// but one is the last that it can be.
#[test]
fn it_stops_on_the_first_and_on_the_last_node_that_a_query_can_be() {
    for number in [1, 2, 600, 1_022] {
        let mut b = three_cells();
        let zero = b.constant(0);
        while b.book.nodes.len() < usize::from(number) {
            b.skip();
        }
        assert_eq!(b.query(kind::SMALLEST, 7, [zero; 4]), number);
        let root = b.assign(0, number);
        b.program(0, root);
        assert_eq!(run_with(&b.book, 100, 0).0, ended(31, number, 9, 0));
    }
}

/// In every mode: with and without the tests on labels, and whether or not a
/// failed posting is taken back.
#[test]
fn the_run_with_no_labels_stops_in_the_same_way() {
    let (mut b, value) = asking_trigger(kind::SMALLEST, false);
    let one = b.constant(1);
    let put = put_at(&mut b, 1, 3, 3, one);
    program(&mut b, &[put]);
    let file = b.book.encode();
    for (failed, posted) in [(Failed::TakenBack, None), (Failed::Left, Some(1))] {
        let ran = [Tests::Labelled, Tests::Unlabelled].map(|tests| {
            let mut memory = Memory::new(8);
            let explained = carry_out(&file, 100, &mut memory, tests, failed);
            assert_eq!(explained.place(), None);
            assert_eq!(explained.count(), 0);
            (explained.answer, memory)
        });
        let expected = ended(31, value, 4 + 1 + 4 + 1 + 2 + 8, 0);
        assert!(ran.iter().all(|(answer, _)| *answer == expected));
        assert_eq!(ran[0].1, ran[1].1);
        assert_eq!(cell(&ran[0].1, 1, 3, 3).0, posted);
    }
}

/// Without labels a run goes on past test 27, and comes to nothing.
#[test]
fn without_labels_a_run_may_come_to_nothing() {
    let mut b = three_cells();
    let secret = amount_of(&mut b, 0, 0, B);
    let leak = b.out(3, secret);
    let value = nothing(&mut b);
    let last = b.assign(0, value);
    program(&mut b, &[leak, last]);
    let answer = |tests| {
        let mut memory = Memory::new(8);
        carry_out(&b.book.encode(), 100, &mut memory, tests, Failed::TakenBack).answer
    };
    let stopped: [Answer; 2] = [ended(27, leak, 10, 0), ended(31, value, 19, 8)];
    assert_eq!(answer(Tests::Labelled), stopped[0]);
    assert_eq!(answer(Tests::Unlabelled), stopped[1]);
}

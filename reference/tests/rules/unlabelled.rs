//! The run with no labels: four tests fewer and otherwise the same.

use crate::common::ended;
use crate::{amount_of, cell, program, put_at, run_amply, three_cells, when, A, B, C};
use reference::book::{kind, Book};
use reference::run::{run, Answer, Memory, Tests};

fn run_unlabelled(book: &Book, budget: u32, trace: usize) -> (Answer, Memory) {
    let mut memory = Memory::new(trace);
    let answer = run(&book.encode(), budget, &mut memory, Tests::Unlabelled);
    (answer, memory)
}

/// Five commands in A's context, each of which the usual run stops: assign,
/// raise, put, out and grant.
#[test]
fn tests_25_26_27_and_29_are_omitted() {
    let mut b = three_cells();
    let secret = amount_of(&mut b, 0, 0, C);
    let commands = [
        (25, b.assign(0, secret)),
        (25, b.raise(1, 0)),
        (26, put_at(&mut b, 1, 0, 0, secret)),
        (27, b.out(3, secret)),
        (29, b.grant_read(3, 0)),
    ];
    let condition = amount_of(&mut b, 0, 0, A);
    for (number, command) in commands {
        let mut b = b.clone();
        let branch = when(&mut b, condition, command);
        program(&mut b, &[branch]);
        let (answer, _) = run_amply(&b.book);
        let Answer::Ended { cost, .. } = answer else {
            panic!("{answer:?}");
        };
        assert_eq!(answer, ended(number, command, cost, 0));
        let (answer, memory) = run_unlabelled(&b.book, 1_000, 8);
        let bytes = if number >= 27 { 8 } else { 0 };
        assert_eq!(answer, ended(0, 0, cost, bytes));
        if number == 27 {
            assert_eq!(memory.trace, [1, 3, 0, 0, 33, 0, 0, 0]);
        }
        if number == 29 {
            assert_eq!(memory.trace, [2, 3, 0, 0, 0, 0, 0, 0]);
        }
    }
}

#[test]
fn labels_are_kept_all_the_same() {
    let mut b = three_cells();
    let secret = amount_of(&mut b, 0, 0, C);
    let assign = b.assign(0, secret);
    let put = put_at(&mut b, 1, 0, 0, secret);
    let both = b.then(assign, put);
    let condition = amount_of(&mut b, 0, 0, A);
    let branch = when(&mut b, condition, both);
    let variable = b.variable(0);
    let one = b.constant(1);
    let line = amount_of(&mut b, 0, 0, B);
    let show = b.put(1, one, line, variable);
    program(&mut b, &[branch, show]);
    let (answer, memory) = run_unlabelled(&b.book, 1_000, 0);
    assert!(matches!(answer, Answer::Ended { number: 0, .. }));
    assert_eq!(cell(&memory, 1, 0, 0), (Some(33), vec![0, 2]));
    // Key B, and the variable's context A and amount C.
    assert_eq!(cell(&memory, 1, 1, 2), (Some(33), vec![0, 1, 2]));
}

#[test]
fn triggers_run_all_the_same() {
    let mut b = three_cells();
    let [line, amount] = [1, 2].map(|p| b.variable(p));
    let zero = b.constant(0);
    let body = b.put(2, zero, line, amount);
    b.put_trigger(1, 0, body);
    let key = amount_of(&mut b, 0, 0, B);
    let secret = amount_of(&mut b, 0, 0, C);
    let put = b.put(1, zero, key, secret);
    program(&mut b, &[put]);
    let (_, memory) = run_unlabelled(&b.book, 1_000, 0);
    assert_eq!(cell(&memory, 2, 0, 2), (Some(33), vec![1, 2]));
}

#[test]
fn the_other_tests_are_made() {
    let mut b = three_cells();
    let [one, eight, most] = [1, 8, i32::MAX].map(|k| b.constant(k));
    let past = b.operator(kind::ADD, most, one);
    let assign = b.assign(0, past);
    let bad_key = b.put(1, one, eight, one);
    let put = b.put(1, one, one, one);
    let grant = b.grant_read(1, 0);
    let out = b.out(1, one);
    let answer = |user, root, budget| {
        let mut b = b.clone();
        b.program(user, root);
        run_unlabelled(&b.book, budget, 7).0
    };
    assert_eq!(answer(0, put, 3), ended(21, one, 3, 0));
    assert_eq!(answer(0, assign, 100), ended(22, past, 4, 0));
    assert_eq!(answer(0, bad_key, 100), ended(23, bad_key, 4, 0));
    assert_eq!(answer(1, put, 100), ended(24, put, 4, 0));
    assert_eq!(answer(1, grant, 100), ended(28, grant, 1, 0));
    assert_eq!(answer(0, grant, 100), ended(30, grant, 1, 0));
    assert_eq!(answer(0, out, 100), ended(30, out, 2, 0));
}

//! What each node costs, in which order nodes are entered, and stop 21.

use crate::common::{ended, run_with};
use crate::{run_amply, three_cells};
use reference::book::kind;
use reference::builder::Builder;
use reference::run::{on_deep_stack, Answer};

/// The cost of a program with this root.
fn cost_of(build: impl FnOnce(&mut Builder) -> u16) -> u32 {
    let mut b = three_cells();
    let root = build(&mut b);
    b.program(0, root);
    match run_amply(&b.book).0 {
        Answer::Ended {
            number: 0, cost, ..
        } => cost,
        answer => panic!("{answer:?}"),
    }
}

#[test]
fn each_expression_has_its_cost() {
    let of_constant = |b: &mut Builder| {
        let one = b.constant(1);
        b.assign(0, one)
    };
    assert_eq!(cost_of(of_constant), 2);
    let of_variable = |b: &mut Builder| {
        let variable = b.variable(0);
        b.assign(0, variable)
    };
    assert_eq!(cost_of(of_variable), 2);
    for operator in [kind::ADD, kind::SUBTRACT, kind::EQUAL, kind::LESS] {
        let of_operator = |b: &mut Builder| {
            let one = b.constant(1);
            let result = b.operator(operator, one, one);
            b.assign(0, result)
        };
        assert_eq!(cost_of(of_operator), 4);
    }
    for query in [kind::COUNT, kind::SUM, kind::SMALLEST, kind::LARGEST] {
        let of_query = |b: &mut Builder| {
            let zero = b.constant(0);
            let result = b.query(query, 0, [zero, zero, zero, zero]);
            b.assign(0, result)
        };
        assert_eq!(cost_of(of_query), 9);
    }
}

#[test]
fn each_command_has_its_cost() {
    let mut b = three_cells();
    let zero = b.constant(0);
    let skip = b.skip();
    let commands = [
        (skip, 1),
        (b.assign(0, zero), 2),
        (b.then(skip, skip), 3),
        (b.choose(zero, skip, skip), 3),
        (b.repeat(zero, skip), 2),
        (b.put(0, zero, zero, zero), 4),
        (b.clear(0, zero, zero), 3),
        (b.out(0, zero), 2),
        (b.grant_read(1, 0), 1),
        (b.revoke_write(1, 0), 1),
        (b.raise(0, 0), 1),
    ];
    for (root, cost) in commands {
        let mut b = b.clone();
        b.program(0, root);
        let (answer, _) = run_amply(&b.book);
        let Answer::Ended {
            number: 0,
            cost: spent,
            ..
        } = answer
        else {
            panic!("{answer:?}");
        };
        assert_eq!(spent, cost, "node {root}");
    }
}

/// Counts down from 2. With a budget of n the run stops on the entry after the
/// first n, each of which costs 1.
#[test]
fn while_is_entered_for_each_test() {
    let mut b = Builder::new();
    let two = b.constant(2);
    let one = b.constant(1);
    let variable = b.variable(0);
    let less = b.operator(kind::SUBTRACT, variable, one);
    let set = b.assign(0, two);
    let body = b.assign(0, less);
    let repeat = b.repeat(variable, body);
    let root = b.then(set, repeat);
    b.program(0, root);
    let entries = [
        root, set, two, //
        repeat, variable, body, less, variable, one, //
        repeat, variable, body, less, variable, one, //
        repeat, variable,
    ];
    for (spent, node) in entries.into_iter().enumerate() {
        let (answer, _) = run_with(&b.book, spent as u32, 0);
        assert_eq!(answer, ended(21, node, spent as u32, 0));
    }
    assert_eq!(run_with(&b.book, 17, 0).0, ended(0, 0, 17, 0));
}

#[test]
fn query_is_paid_whole_and_before_its_bounds() {
    let mut b = Builder::new();
    let bounds = [0, 1, 2, 3].map(|k| b.constant(k));
    let query = b.query(kind::COUNT, 0, bounds);
    let root = b.assign(0, query);
    b.program(0, root);
    let answer = |budget| run_with(&b.book, budget, 0).0;
    assert_eq!(answer(0), ended(21, root, 0, 0));
    for budget in 1..5 {
        assert_eq!(answer(budget), ended(21, query, 1, 0));
    }
    assert_eq!(answer(5), ended(21, bounds[0], 5, 0));
    assert_eq!(answer(6), ended(21, bounds[1], 6, 0));
    assert_eq!(answer(7), ended(21, bounds[2], 7, 0));
    assert_eq!(answer(8), ended(21, bounds[3], 8, 0));
    assert_eq!(answer(9), ended(0, 0, 9, 0));
}

#[test]
fn put_takes_owner_then_line_then_amount() {
    let mut b = three_cells();
    let [owner, line, amount] = [3, 4, 5].map(|k| b.constant(k));
    let put = b.put(0, owner, line, amount);
    b.program(0, put);
    let answer = |budget| run_with(&b.book, budget, 0).0;
    assert_eq!(answer(0), ended(21, put, 0, 0));
    assert_eq!(answer(1), ended(21, owner, 1, 0));
    assert_eq!(answer(2), ended(21, line, 2, 0));
    assert_eq!(answer(3), ended(21, amount, 3, 0));
    assert_eq!(answer(4), ended(0, 0, 4, 0));
}

#[test]
fn only_the_chosen_branch_is_entered() {
    let mut b = Builder::new();
    let [zero, minus] = [0, -1].map(|k| b.constant(k));
    let [nonzero, other] = [0, 1].map(|_| b.skip());
    let on_minus = b.choose(minus, nonzero, other);
    let on_zero = b.choose(zero, nonzero, other);
    b.program(0, on_minus);
    assert_eq!(run_with(&b.book, 2, 0).0, ended(21, nonzero, 2, 0));
    assert_eq!(run_with(&b.book, 3, 0).0, ended(0, 0, 3, 0));
    b.book.programs[0].root = on_zero;
    assert_eq!(run_with(&b.book, 2, 0).0, ended(21, other, 2, 0));
}

#[test]
fn the_budget_is_for_all_programs() {
    let mut b = Builder::new();
    let [first, second] = [0, 1].map(|_| b.skip());
    b.program(0, first);
    b.program(0, second);
    assert_eq!(run_with(&b.book, 1, 0).0, ended(21, second, 1, 0));
    assert_eq!(run_with(&b.book, 2, 0).0, ended(0, 0, 2, 0));
}

#[test]
fn triggers_spend_the_same_budget() {
    let mut b = three_cells();
    let zero = b.constant(0);
    let put = b.put(1, zero, zero, zero);
    let body = b.skip();
    b.put_trigger(1, 0, body);
    b.program(0, put);
    assert_eq!(run_with(&b.book, 4, 0).0, ended(21, body, 4, 0));
    assert_eq!(run_with(&b.book, 5, 0).0, ended(0, 0, 5, 0));
}

/// Node n runs node n - 1 twice, down to the skip at 0, so a run of node n takes
/// 2 to the n + 1, less 1, entries. After 1,005 entries down to node 18 its run
/// ends at 1,005 + 524,287 = 525,292; the missing 474,708 end inside its second
/// run, just before one of the skips.
#[test]
fn largest_budget_is_spent_to_the_end() {
    let mut b = Builder::new();
    let mut root = b.skip();
    for _ in 0..1_023 {
        root = b.then(root, root);
    }
    b.program(0, root);
    let (answer, _) = run_with(&b.book, 1_000_000, 0);
    assert_eq!(answer, ended(21, 0, 1_000_000, 0));
}

/// A chain of 1,021 ifs around a put is the program and the body of all eight
/// triggers. Each write runs every higher trigger, so the chain runs 256 times
/// at 2 · 1,021 + 4 each, nested up to nine deep.
#[test]
fn deepest_nesting_runs() {
    let mut b = three_cells();
    let zero = b.constant(0);
    let put = b.put(1, zero, zero, zero);
    let skip = b.skip();
    let mut root = put;
    for _ in 0..1_021 {
        root = b.choose(zero, skip, root);
    }
    assert_eq!(root, 1_023);
    b.program(0, root);
    for _ in 0..8 {
        b.put_trigger(1, 0, root);
    }
    let (answer, _) = on_deep_stack(|| run_with(&b.book, 1_000_000, 0));
    assert_eq!(answer, ended(0, 0, 523_776, 0));
}

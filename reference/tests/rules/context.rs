//! The context of if and while, and stop 25.

use crate::common::ended;
use crate::{amount_of, cell, finish, program, put_at, run_amply, stop, three_cells, when, A, B};
use reference::book::kind;
use reference::builder::Builder;

/// Commands that give variable 0 the label of A alone, with value 5.
fn labelled_by_a(b: &mut Builder) -> u16 {
    let region = b.region(0, 0..=0, A..=A);
    let raise = b.raise(0, region);
    let five = b.constant(5);
    let assign = b.assign(0, five);
    b.then(assign, raise)
}

#[test]
fn both_branches_are_in_the_conditions_context() {
    for nonzero in [true, false] {
        let mut b = three_cells();
        let one = b.constant(1);
        let secret = amount_of(&mut b, 0, 0, A);
        let condition = if nonzero {
            secret
        } else {
            b.operator(kind::SUBTRACT, secret, one)
        };
        let skip = b.skip();
        let assign = b.assign(0, one);
        let branch = if nonzero {
            b.choose(condition, assign, skip)
        } else {
            b.choose(condition, skip, assign)
        };
        program(&mut b, &[branch]);
        assert_eq!(stop(&b.book), (25, assign));
    }
}

#[test]
fn a_public_condition_leaves_the_context_empty() {
    let mut b = three_cells();
    let one = b.constant(1);
    let assign = b.assign(0, one);
    let branch = when(&mut b, one, assign);
    program(&mut b, &[branch]);
    finish(&b.book);
}

#[test]
fn nested_conditions_add_up() {
    let mut b = three_cells();
    let prepare = labelled_by_a(&mut b);
    let one = b.constant(1);
    let assign = b.assign(0, one);
    let inner_condition = amount_of(&mut b, 0, 0, B);
    let inner = when(&mut b, inner_condition, assign);
    let outer_condition = amount_of(&mut b, 0, 0, A);
    let outer = when(&mut b, outer_condition, inner);
    program(&mut b, &[prepare, outer]);
    assert_eq!(stop(&b.book), (25, assign));
}

#[test]
fn the_outer_context_still_holds_inside() {
    let mut b = three_cells();
    let prepare = labelled_by_a(&mut b);
    let one = b.constant(1);
    let assign = b.assign(0, one);
    let inner = when(&mut b, one, assign);
    let condition = amount_of(&mut b, 0, 0, B);
    let outer = when(&mut b, condition, inner);
    program(&mut b, &[prepare, outer]);
    assert_eq!(stop(&b.book), (25, assign));
}

#[test]
fn the_context_is_put_back_after_if() {
    let mut b = three_cells();
    let prepare = labelled_by_a(&mut b);
    let skip = b.skip();
    let inner_condition = amount_of(&mut b, 0, 0, B);
    let inner = when(&mut b, inner_condition, skip);
    let one = b.constant(1);
    let assign = b.assign(0, one);
    let both = b.then(inner, assign);
    let outer_condition = amount_of(&mut b, 0, 0, A);
    let outer = when(&mut b, outer_condition, both);
    let variable = b.variable(0);
    let show = put_at(&mut b, 1, 0, 0, variable);
    let fresh = b.assign(1, one);
    program(&mut b, &[prepare, outer, show, fresh]);
    let memory = finish(&b.book);
    // B's context is gone where the variable is assigned, A's after the outer if.
    assert_eq!(cell(&memory, 1, 0, 0), (Some(1), vec![0]));
}

#[test]
fn an_assignment_in_an_empty_context_passes_any_label() {
    let mut b = three_cells();
    let prepare = labelled_by_a(&mut b);
    let one = b.constant(1);
    let assign = b.assign(0, one);
    program(&mut b, &[prepare, assign]);
    finish(&b.book);
}

#[test]
fn raise_is_no_way_out_of_the_context() {
    let mut b = three_cells();
    let region = b.region(0, 0..=7, 0..=7);
    let raise = b.raise(0, region);
    let condition = amount_of(&mut b, 0, 0, A);
    let branch = when(&mut b, condition, raise);
    program(&mut b, &[branch]);
    assert_eq!(stop(&b.book), (25, raise));
}

#[test]
fn raise_within_the_context_passes() {
    let mut b = three_cells();
    let prepare = labelled_by_a(&mut b);
    let region = b.region(0, 0..=0, B..=B);
    let raise = b.raise(0, region);
    let condition = amount_of(&mut b, 0, 0, A);
    let branch = when(&mut b, condition, raise);
    let variable = b.variable(0);
    let show = put_at(&mut b, 1, 0, 0, variable);
    program(&mut b, &[prepare, branch, show]);
    assert_eq!(cell(&finish(&b.book), 1, 0, 0), (Some(5), vec![0, 1]));
}

#[test]
fn the_expression_stops_before_the_assignment() {
    let mut b = three_cells();
    let most = b.constant(i32::MAX);
    let past = b.operator(kind::ADD, most, most);
    let assign = b.assign(0, past);
    let condition = amount_of(&mut b, 0, 0, A);
    let branch = when(&mut b, condition, assign);
    program(&mut b, &[branch]);
    assert_eq!(stop(&b.book), (22, past));
}

#[test]
fn the_body_of_a_while_is_in_its_tests_context() {
    let mut b = three_cells();
    let one = b.constant(1);
    let assign = b.assign(0, one);
    let test = amount_of(&mut b, 0, 0, A);
    let repeat = b.repeat(test, assign);
    program(&mut b, &[repeat]);
    assert_eq!(stop(&b.book), (25, assign));
}

/// Variable 1 counts down from B, which is 2, and variable 0 counts the rounds.
/// Each test depends on B; so does, in the end, how often the body ran.
#[test]
fn every_round_is_in_the_context_of_all_tests_so_far() {
    let mut b = three_cells();
    let region = b.region(0, 0..=0, B..=B);
    let raise = b.raise(0, region);
    let secret = amount_of(&mut b, 0, 0, B);
    let set = b.assign(1, secret);
    let one = b.constant(1);
    let [rounds, left] = [0, 1].map(|p| b.variable(p));
    let more = b.operator(kind::ADD, rounds, one);
    let less = b.operator(kind::SUBTRACT, left, one);
    let count = b.assign(0, more);
    let step = b.assign(1, less);
    let body = b.then(count, step);
    let repeat = b.repeat(left, body);
    let show = put_at(&mut b, 1, 0, 0, rounds);
    program(&mut b, &[raise, set, repeat, show]);
    assert_eq!(cell(&finish(&b.book), 1, 0, 0), (Some(2), vec![1]));
}

/// The body moves the last line of the test's sum from A to B. So the first
/// test reads A and the second A and B, and the variable, labelled by A, can be
/// assigned in the first round only. A round costs 13.
#[test]
fn a_later_test_adds_to_the_context() {
    let mut b = three_cells();
    let region = b.region(0, 0..=0, A..=A);
    let raise = b.raise(0, region);
    let [zero, one, four] = [0, 1, 4].map(|k| b.constant(k));
    let last = b.variable(0);
    let sum = b.query(kind::SUM, 0, [zero, zero, zero, last]);
    let test = b.operator(kind::LESS, sum, four);
    let body = b.assign(0, one);
    let repeat = b.repeat(test, body);
    program(&mut b, &[raise, repeat]);
    assert_eq!(run_amply(&b.book).0, ended(25, body, 28, 0));
}

#[test]
fn the_context_is_put_back_after_while() {
    let mut b = three_cells();
    let region = b.region(0, 0..=0, B..=B);
    let secret = amount_of(&mut b, 0, 0, B);
    let set = b.assign(1, secret);
    let one = b.constant(1);
    let left = b.variable(1);
    let less = b.operator(kind::SUBTRACT, left, one);
    let step = b.assign(1, less);
    let repeat = b.repeat(left, step);
    let fresh = b.assign(0, one);
    let raise = b.raise(2, region);
    let variable = b.variable(0);
    let show = put_at(&mut b, 1, 0, 0, variable);
    program(&mut b, &[set, repeat, fresh, raise, show]);
    assert_eq!(cell(&finish(&b.book), 1, 0, 0), (Some(1), vec![]));
}

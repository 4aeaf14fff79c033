//! Labels of expressions and variables, read off a cell they are put in.

use crate::{amount_of, cell, finish, program, put_at, three_cells, when, A, B, C};
use reference::book::kind;
use reference::builder::Builder;

/// What the cell (1,0,0) holds after it is given this expression.
fn shown(mut b: Builder, before: &[u16], expression: u16) -> (Option<i32>, Vec<usize>) {
    let put = put_at(&mut b, 1, 0, 0, expression);
    let commands: Vec<u16> = before.iter().copied().chain([put]).collect();
    program(&mut b, &commands);
    cell(&finish(&b.book), 1, 0, 0)
}

#[test]
fn at_the_start_each_cell_is_labelled_by_itself() {
    let b = three_cells();
    let memory = finish(&b.book);
    for place in 0..512 {
        let (table, key) = ((place / 64) as u8, (place % 64) as u8);
        assert_eq!(cell(&memory, table, key / 8, key % 8).1, [place]);
    }
}

#[test]
fn constants_have_no_label() {
    let mut b = three_cells();
    let five = b.constant(5);
    assert_eq!(shown(b, &[], five), (Some(5), vec![]));
}

#[test]
fn operators_join_labels() {
    for (operator, value) in [
        (kind::ADD, 3),
        (kind::SUBTRACT, -1),
        (kind::EQUAL, 0),
        (kind::LESS, 1),
    ] {
        let mut b = three_cells();
        let left = amount_of(&mut b, 0, 0, A);
        let right = amount_of(&mut b, 0, 0, B);
        let result = b.operator(operator, left, right);
        assert_eq!(shown(b, &[], result), (Some(value), vec![0, 1]));
    }
}

#[test]
fn queries_add_the_labels_of_absent_cells() {
    for (query, value) in [
        (kind::COUNT, 1),
        (kind::SUM, 33),
        (kind::SMALLEST, 33),
        (kind::LARGEST, 33),
    ] {
        let mut b = three_cells();
        let bounds = [0, 1, 2, 3].map(|k| b.constant(k));
        let query = b.query(query, 0, bounds);
        // Of lines 2 and 3 of owners 0 and 1 only C is present.
        assert_eq!(shown(b, &[], query), (Some(value), vec![2, 3, 10, 11]));
    }
}

#[test]
fn a_query_of_absent_cells_alone_is_labelled() {
    let mut b = three_cells();
    let query = amount_of(&mut b, 5, 7, 7);
    assert_eq!(shown(b, &[], query), (Some(0), vec![383]));
}

#[test]
fn queries_add_the_labels_of_their_bounds() {
    // A is 1. As an owner bound it selects (0,1,0), place 8; as a line bound
    // it selects (0,0,1), place 1.
    for (bound, label) in [
        (0, vec![0, 8]),
        (1, vec![0, 8]),
        (2, vec![0, 1]),
        (3, vec![0, 1]),
    ] {
        let mut b = three_cells();
        let zero = b.constant(0);
        let one = b.constant(1);
        let secret = amount_of(&mut b, 0, 0, A);
        let mut bounds = if bound < 2 {
            [one, one, zero, zero]
        } else {
            [zero, zero, one, one]
        };
        bounds[bound] = secret;
        let query = b.query(kind::SUM, 0, bounds);
        assert_eq!(shown(b, &[], query).1, label, "bound {bound}");
    }
}

#[test]
fn a_query_that_matches_none_has_only_its_bounds_labels() {
    let mut b = three_cells();
    let zero = b.constant(0);
    let secret = amount_of(&mut b, 0, 0, A);
    let query = b.query(kind::SUM, 0, [secret, zero, zero, zero]);
    assert_eq!(shown(b, &[], query), (Some(0), vec![0]));
}

#[test]
fn bounds_outside_add_no_labels() {
    let mut b = three_cells();
    let [low, high, three] = [-9, 9, 3].map(|k| b.constant(k));
    let query = b.query(kind::COUNT, 0, [low, high, three, three]);
    let lines_3 = vec![3, 11, 19, 27, 35, 43, 51, 59];
    assert_eq!(shown(b, &[], query), (Some(0), lines_3));
}

#[test]
fn queries_use_the_labels_cells_have_now() {
    let mut b = three_cells();
    let secret = amount_of(&mut b, 0, 0, B);
    let copy = put_at(&mut b, 1, 5, 5, secret);
    let query = amount_of(&mut b, 1, 5, 5);
    assert_eq!(shown(b, &[copy], query), (Some(2), vec![1]));
}

#[test]
fn a_cells_new_label_does_not_join_its_old_one() {
    let mut b = three_cells();
    let secret = amount_of(&mut b, 0, 0, B);
    let copy = put_at(&mut b, 1, 0, 0, secret);
    let nine = b.constant(9);
    assert_eq!(shown(b, &[copy], nine), (Some(9), vec![]));
}

#[test]
fn assignment_keeps_the_expressions_label() {
    let mut b = three_cells();
    let secret = amount_of(&mut b, 0, 0, C);
    let first = b.assign(4, secret);
    let fourth = b.variable(4);
    let second = b.assign(15, fourth);
    let last = b.variable(15);
    assert_eq!(shown(b, &[first, second], last), (Some(33), vec![2]));
}

#[test]
fn a_variables_new_label_does_not_join_its_old_one() {
    let mut b = three_cells();
    let secret = amount_of(&mut b, 0, 0, A);
    let hide = b.assign(0, secret);
    let seven = b.constant(7);
    let reset = b.assign(0, seven);
    let variable = b.variable(0);
    assert_eq!(shown(b, &[hide, reset], variable), (Some(7), vec![]));
}

#[test]
fn an_assigned_variable_has_context_and_expression() {
    let mut b = three_cells();
    let three = b.region(0, 0..=0, 0..=2);
    let raise = b.raise(0, three);
    let value = amount_of(&mut b, 0, 0, B);
    let assign = b.assign(0, value);
    let condition = amount_of(&mut b, 0, 0, A);
    let branch = when(&mut b, condition, assign);
    let variable = b.variable(0);
    // Place 2, which the raise added, is gone.
    assert_eq!(shown(b, &[raise, branch], variable), (Some(2), vec![0, 1]));
}

#[test]
fn raise_adds_places_and_keeps_the_value() {
    let mut b = three_cells();
    let region = b.region(0, 1..=1, 1..=2);
    let secret = amount_of(&mut b, 0, 0, A);
    let assign = b.assign(0, secret);
    let raise = b.raise(0, region);
    let variable = b.variable(0);
    assert_eq!(
        shown(b, &[assign, raise], variable),
        (Some(1), vec![0, 9, 10])
    );
}

#[test]
fn raise_adds_places_and_not_their_labels() {
    let mut b = three_cells();
    let region = b.region(0, 1..=1, 1..=1);
    let secret = amount_of(&mut b, 0, 0, B);
    let relabel = put_at(&mut b, 0, 1, 1, secret);
    let raise = b.raise(0, region);
    let variable = b.variable(0);
    assert_eq!(shown(b, &[relabel, raise], variable), (Some(0), vec![9]));
}

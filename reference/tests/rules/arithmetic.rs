//! Values of expressions, and stop 22. (Stop 31 has tests of its own.)

use crate::{cell, finish, program, put_at, run_amply, stop_of, three_cells};
use reference::book::kind;
use reference::builder::Builder;

const MIN: i32 = i32::MIN;
const MAX: i32 = i32::MAX;

/// The value of an operator on two constants, or the number of its stop.
fn operate(operator: u8, left: i32, right: i32) -> Result<i32, u32> {
    let mut b = three_cells();
    let left = b.constant(left);
    let right = b.constant(right);
    let result = b.operator(operator, left, right);
    value(b, result)
}

/// The value of an expression, or the number of its stop, which has to be on
/// that expression.
fn value(mut b: Builder, expression: u16) -> Result<i32, u32> {
    let put = put_at(&mut b, 7, 7, 7, expression);
    program(&mut b, &[put]);
    let (answer, memory) = run_amply(&b.book);
    if let Some(amount) = cell(&memory, 7, 7, 7).0 {
        return Ok(amount);
    }
    let (number, node) = stop_of(answer);
    assert_eq!(node, expression);
    Err(number)
}

#[test]
fn sums_and_differences() {
    for (left, right, sum) in [
        (2, 3, Ok(5)),
        (MAX, 0, Ok(MAX)),
        (MAX, MIN, Ok(-1)),
        (MIN, 0, Ok(MIN)),
        (MAX, 1, Err(22)),
        (MAX, MAX, Err(22)),
        (MIN, -1, Err(22)),
        (MIN, MIN, Err(22)),
    ] {
        assert_eq!(operate(kind::ADD, left, right), sum, "{left} + {right}");
    }
    for (left, right, difference) in [
        (2, 3, Ok(-1)),
        (-1, MAX, Ok(MIN)),
        (MIN, MIN, Ok(0)),
        (-1, MIN, Ok(MAX)),
        (MIN, 1, Err(22)),
        (0, MIN, Err(22)),
        (MAX, -1, Err(22)),
        (MIN, MAX, Err(22)),
    ] {
        let result = operate(kind::SUBTRACT, left, right);
        assert_eq!(result, difference, "{left} - {right}");
    }
}

#[test]
fn comparisons_are_signed() {
    for (left, right, equal, less) in [
        (4, 4, 1, 0),
        (4, 5, 0, 1),
        (5, 4, 0, 0),
        (-1, 0, 0, 1),
        (0, -1, 0, 0),
        (MIN, MAX, 0, 1),
        (MAX, MIN, 0, 0),
        (MIN, MIN, 1, 0),
    ] {
        assert_eq!(operate(kind::EQUAL, left, right), Ok(equal));
        assert_eq!(operate(kind::LESS, left, right), Ok(less));
    }
}

#[test]
fn every_expression_on_the_way_is_in_32_bits() {
    let mut b = Builder::new();
    let most = b.constant(MAX);
    let one = b.constant(1);
    let past = b.operator(kind::ADD, most, one);
    let back = b.operator(kind::SUBTRACT, past, one);
    let assign = b.assign(0, back);
    program(&mut b, &[assign]);
    assert_eq!(stop_of(run_amply(&b.book).0), (22, past));
}

/// The value of a query over owners 0–7 and lines 0–7 of table 1, which has
/// these amounts at its first places.
fn over_amounts(query: u8, amounts: &[i32]) -> Result<i32, u32> {
    let mut b = three_cells();
    for (at, &amount) in amounts.iter().enumerate() {
        b.cell(1, (at / 8) as u8, (at % 8) as u8, amount);
    }
    let first = b.constant(0);
    let last = b.constant(7);
    let query = b.query(query, 1, [first, last, first, last]);
    value(b, query)
}

#[test]
fn query_sums_are_exact() {
    let sum = |amounts: &[i32]| over_amounts(kind::SUM, amounts);
    assert_eq!(sum(&[MAX, MAX, MIN, MIN]), Ok(-2));
    assert_eq!(sum(&[MIN, MIN, MAX, MAX, 1, 1]), Ok(0));
    assert_eq!(sum(&[MAX - 1, 1]), Ok(MAX));
    assert_eq!(sum(&[MAX, 1]), Err(22));
    assert_eq!(sum(&[MIN + 1, -1]), Ok(MIN));
    assert_eq!(sum(&[MIN, -1]), Err(22));
    assert_eq!(sum(&[MIN; 64]), Err(22));
    assert_eq!(sum(&[MAX; 64]), Err(22));
    // Both are 0 if only the lowest 32 bits are kept.
    assert_eq!(sum(&[MIN, MIN]), Err(22));
    assert_eq!(sum(&[MAX, MAX, 2]), Err(22));
}

#[test]
fn other_queries_never_leave_32_bits() {
    assert_eq!(over_amounts(kind::COUNT, &[MAX; 64]), Ok(64));
    assert_eq!(over_amounts(kind::SMALLEST, &[MAX, MIN, 0]), Ok(MIN));
    assert_eq!(over_amounts(kind::LARGEST, &[MIN, MAX, 0]), Ok(MAX));
}

#[test]
fn extremes_do_not_start_from_zero() {
    assert_eq!(over_amounts(kind::SMALLEST, &[5, 9, 7]), Ok(5));
    assert_eq!(over_amounts(kind::LARGEST, &[-5, -9, -7]), Ok(-5));
}

#[test]
fn a_present_zero_counts() {
    assert_eq!(over_amounts(kind::COUNT, &[0, 0]), Ok(2));
    assert_eq!(over_amounts(kind::SMALLEST, &[4, 0]), Ok(0));
    assert_eq!(over_amounts(kind::LARGEST, &[-4, 0]), Ok(0));
}

#[test]
fn only_counts_and_sums_of_nothing_are_zero() {
    assert_eq!(over_amounts(kind::COUNT, &[]), Ok(0));
    assert_eq!(over_amounts(kind::SUM, &[]), Ok(0));
    assert_eq!(over_amounts(kind::SMALLEST, &[]), Err(31));
    assert_eq!(over_amounts(kind::LARGEST, &[]), Err(31));
}

/// Count, sum, smallest and largest with these bounds over cells
/// (1,1,1) = 5, (1,1,2) = -3, (1,2,1) = 9, (1,7,7) = 4 and (2,1,1) = 100.
fn over(owners: (i32, i32), lines: (i32, i32)) -> [Result<i32, u32>; 4] {
    [kind::COUNT, kind::SUM, kind::SMALLEST, kind::LARGEST].map(|query| {
        let mut b = three_cells();
        b.cell(1, 1, 1, 5);
        b.cell(1, 1, 2, -3);
        b.cell(1, 2, 1, 9);
        b.cell(1, 7, 7, 4);
        b.cell(2, 1, 1, 100);
        let bounds = [owners.0, owners.1, lines.0, lines.1].map(|k| b.constant(k));
        let query = b.query(query, 1, bounds);
        value(b, query)
    })
}

/// What the four answer where no cell is present.
const OF_NOTHING: [Result<i32, u32>; 4] = [Ok(0), Ok(0), Err(31), Err(31)];

#[test]
fn queries_match_the_cells_between_their_bounds() {
    assert_eq!(over((1, 2), (1, 2)), [3, 11, -3, 9].map(Ok));
    assert_eq!(over((1, 1), (1, 2)), [2, 2, -3, 5].map(Ok));
    assert_eq!(over((1, 2), (1, 1)), [2, 14, 5, 9].map(Ok));
    assert_eq!(over((1, 1), (2, 2)), [1, -3, -3, -3].map(Ok));
    assert_eq!(over((2, 2), (2, 2)), OF_NOTHING);
    assert_eq!(over((0, 7), (0, 7)), [4, 15, -3, 9].map(Ok));
}

#[test]
fn bounds_may_lie_far_outside() {
    assert_eq!(over((MIN, MAX), (MIN, MAX)), [4, 15, -3, 9].map(Ok));
    assert_eq!(over((-1, 1), (1, 1)), [1, 5, 5, 5].map(Ok));
    assert_eq!(over((2, 1_000), (0, 1)), [1, 9, 9, 9].map(Ok));
    assert_eq!(over((7, 8), (7, MAX)), [1, 4, 4, 4].map(Ok));
    assert_eq!(over((8, MAX), (0, 7)), OF_NOTHING);
    assert_eq!(over((MIN, -1), (0, 7)), OF_NOTHING);
    assert_eq!(over((0, 7), (8, 9)), OF_NOTHING);
    assert_eq!(over((0, 7), (-9, -1)), OF_NOTHING);
    // 257 is 1 in its lowest 8 bits.
    assert_eq!(over((257, 257), (1, 1)), OF_NOTHING);
}

#[test]
fn first_above_last_matches_none() {
    assert_eq!(over((2, 1), (0, 7)), OF_NOTHING);
    assert_eq!(over((0, 7), (2, 1)), OF_NOTHING);
    assert_eq!(over((MAX, MIN), (MAX, MIN)), OF_NOTHING);
    assert_eq!(over((8, -1), (0, 7)), OF_NOTHING);
}

#[test]
fn queries_see_earlier_writes() {
    let mut b = three_cells();
    let five = b.constant(5);
    let put = put_at(&mut b, 1, 3, 3, five);
    let zero = b.constant(0);
    let seven = b.constant(7);
    let sum = b.query(kind::SUM, 1, [zero, seven, zero, seven]);
    let show = put_at(&mut b, 2, 0, 0, sum);
    program(&mut b, &[put, show]);
    assert_eq!(cell(&finish(&b.book), 2, 0, 0).0, Some(5));
}

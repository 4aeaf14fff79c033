//! The marked cases, with answers and memory worked out by hand.

mod common;
#[path = "common/w.rs"]
mod w;

use common::{ended, run_with, UNTOUCHED};
use reference::book::{kind, Book};
use reference::builder::Builder;
use reference::run::Memory;
use w::book_w;

const BUDGET: u32 = 100_000;

/// Each cell labelled by its own place.
fn starting_labels() -> Vec<u64> {
    let mut labels = vec![0; 4_096];
    for place in 0..512 {
        labels[8 * place + place / 64] = 1 << (place % 64);
    }
    labels
}

/// Only cells (0,1,0) = 250 and (0,2,0) = 900, with the labels of the start.
fn assert_cells_of_w(memory: &Memory) {
    let mut amounts = vec![0; 512];
    amounts[8] = 250;
    amounts[16] = 900;
    assert_eq!(memory.amounts, amounts);
    assert_eq!(memory.presence, [0x0001_0100, 0, 0, 0, 0, 0, 0, 0]);
    assert_eq!(memory.labels, starting_labels());
}

/// The trace begins with these bytes and is untouched after them.
fn assert_trace(memory: &Memory, written: &[u8]) {
    let (record, rest) = memory.trace.split_at(written.len());
    assert_eq!(record, written);
    assert!(rest.iter().all(|&byte| byte == UNTOUCHED));
}

#[test]
fn w_stops_at_the_second_out() {
    let (answer, memory) = run_with(&book_w(), BUDGET, 4_096);
    assert_eq!(answer, ended(27, 7, 19, 8));
    assert_cells_of_w(&memory);
    assert_trace(&memory, &[1, 1, 0, 0, 250, 0, 0, 0]);
}

#[test]
fn budget_18_stops_on_the_last_bound() {
    let (answer, memory) = run_with(&book_w(), 18, 4_096);
    assert_eq!(answer, ended(21, 3, 18, 8));
    assert_cells_of_w(&memory);
    assert_trace(&memory, &[1, 1, 0, 0, 250, 0, 0, 0]);
}

#[test]
fn budget_14_stops_on_the_second_query() {
    let (answer, memory) = run_with(&book_w(), 14, 4_096);
    assert_eq!(answer, ended(21, 5, 11, 8));
    assert_cells_of_w(&memory);
    assert_trace(&memory, &[1, 1, 0, 0, 250, 0, 0, 0]);
}

#[test]
fn trace_of_7_bytes_has_no_room() {
    let (answer, memory) = run_with(&book_w(), BUDGET, 7);
    assert_eq!(answer, ended(30, 6, 10, 0));
    assert_cells_of_w(&memory);
    assert_trace(&memory, &[]);
}

#[test]
fn without_a_right_user_1_reads_nothing() {
    let mut book = book_w();
    book.rights.retain(|right| right.user != 1);
    let (answer, memory) = run_with(&book, BUDGET, 4_096);
    assert_eq!(answer, ended(27, 6, 10, 0));
    assert_cells_of_w(&memory);
    assert_trace(&memory, &[]);
}

#[test]
fn without_programs_the_run_is_done_at_once() {
    let mut book = book_w();
    book.programs.clear();
    let (answer, memory) = run_with(&book, BUDGET, 4_096);
    assert_eq!(answer, ended(0, 0, 0, 0));
    assert_cells_of_w(&memory);
    assert_trace(&memory, &[]);
}

#[test]
fn largest_amount_plus_one_leaves_32_bits() {
    let mut b = Builder::new();
    let largest = b.constant(2_147_483_647);
    let one = b.constant(1);
    let sum = b.operator(kind::ADD, largest, one);
    let root = b.assign(0, sum);
    b.program(0, root);
    let (answer, memory) = run_with(&b.book, BUDGET, 4_096);
    assert_eq!(answer, ended(22, 2, 4, 0));
    assert_eq!(memory.amounts, [0; 512]);
    assert_eq!(memory.presence, [0; 8]);
    assert_eq!(memory.labels, starting_labels());
    assert_trace(&memory, &[]);
}

#[test]
fn first_3_last_2_sums_nothing() {
    let mut b = Builder::new();
    b.cell(0, 2, 0, 20);
    b.cell(0, 3, 0, 30);
    let zero = b.constant(0);
    let two = b.constant(2);
    let three = b.constant(3);
    let seven = b.constant(7);
    let sum = b.query(kind::SUM, 0, [three, two, zero, seven]);
    let root = b.out(1, sum);
    b.program(0, root);
    let (answer, memory) = run_with(&b.book, BUDGET, 4_096);
    assert_eq!(answer, ended(0, 0, 9, 8));
    assert_trace(&memory, &[1, 1, 0, 0, 0, 0, 0, 0]);
}

/// The same range has no smallest and no largest: the query is node 4, the cost
/// is that of the sum, and nothing is told.
#[test]
fn first_3_last_2_has_no_smallest_or_largest() {
    for query in [kind::SMALLEST, kind::LARGEST] {
        let mut b = Builder::new();
        b.cell(0, 2, 0, 20);
        b.cell(0, 3, 0, 30);
        let [zero, two, three, seven] = [0, 2, 3, 7].map(|k| b.constant(k));
        let nothing = b.query(query, 0, [three, two, zero, seven]);
        let root = b.out(1, nothing);
        b.program(0, root);
        let (answer, memory) = run_with(&b.book, BUDGET, 4_096);
        assert_eq!(answer, ended(31, 4, 9, 0));
        assert_eq!(memory.amounts[16], 20);
        assert_eq!(memory.amounts[24], 30);
        assert_eq!(memory.presence, [0x0101_0000, 0, 0, 0, 0, 0, 0, 0]);
        assert_eq!(memory.labels, starting_labels());
        assert_trace(&memory, &[]);
    }
}

/// W's cells, regions and rights; node 6 is: if the sum of owner 2 is nonzero,
/// variable 0 becomes 2.
fn branch_on_owner_2() -> Builder {
    let w = book_w();
    let mut b = Builder::new();
    b.book = Book {
        nodes: Vec::new(),
        programs: Vec::new(),
        ..w
    };
    let zero = b.constant(0);
    let two = b.constant(2);
    let seven = b.constant(7);
    let sum = b.query(kind::SUM, 0, [two, two, zero, seven]);
    let assign = b.assign(0, two);
    let skip = b.skip();
    assert_eq!(b.choose(sum, assign, skip), 6);
    b
}

#[test]
fn assigning_a_fresh_variable_under_a_secret_stops() {
    let mut b = branch_on_owner_2();
    b.program(0, 6);
    let (answer, memory) = run_with(&b.book, BUDGET, 4_096);
    assert_eq!(answer, ended(25, 4, 11, 0));
    assert_cells_of_w(&memory);
    assert_trace(&memory, &[]);
}

#[test]
fn raised_first_the_assignment_passes() {
    let mut b = branch_on_owner_2();
    let raise = b.raise(0, 1);
    let root = b.then(raise, 6);
    b.program(0, root);
    let (answer, memory) = run_with(&b.book, BUDGET, 4_096);
    assert_eq!(answer, ended(0, 0, 13, 0));
    assert_cells_of_w(&memory);
    assert_trace(&memory, &[]);
}

#[test]
fn raised_first_the_variable_is_not_for_user_1() {
    let mut b = branch_on_owner_2();
    let raise = b.raise(0, 1);
    let branch = b.then(raise, 6);
    let variable = b.variable(0);
    let out = b.out(1, variable);
    let root = b.then(branch, out);
    b.program(0, root);
    let (answer, memory) = run_with(&b.book, BUDGET, 4_096);
    assert_eq!(answer, ended(27, 10, 16, 0));
    assert_cells_of_w(&memory);
    assert_trace(&memory, &[]);
}

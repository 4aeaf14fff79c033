//! Programs after one another, and memory at the start.

use crate::common::{ended, UNTOUCHED};
use crate::{amount_of, cell, finish, put_at, run_amply, stop_of, three_cells, when, A};
use reference::book::Book;

#[test]
fn an_empty_book_clears_lent_memory() {
    let (answer, memory) = run_amply(&Book::default());
    assert_eq!(answer, ended(0, 0, 0, 0));
    assert_eq!(memory.amounts, [0; 512]);
    assert_eq!(memory.presence, [0; 8]);
    assert_eq!(memory.labels[..9], [1, 0, 0, 0, 0, 0, 0, 0, 2]);
    assert_eq!(
        memory.labels[4_087..],
        [1 << 62, 0, 0, 0, 0, 0, 0, 0, 1 << 63]
    );
    assert!(memory.trace.iter().all(|&byte| byte == UNTOUCHED));
}

#[test]
fn the_books_cells_are_loaded() {
    let mut b = reference::builder::Builder::new();
    b.cell(0, 0, 0, 0);
    b.cell(3, 4, 5, i32::MIN);
    b.cell(7, 7, 7, -1);
    let memory = finish(&b.book);
    assert_eq!(cell(&memory, 0, 0, 0), (Some(0), vec![0]));
    assert_eq!(cell(&memory, 3, 4, 5), (Some(i32::MIN), vec![229]));
    assert_eq!(cell(&memory, 7, 7, 7), (Some(-1), vec![511]));
    assert_eq!(memory.presence, [1, 0, 0, 1 << 37, 0, 0, 0, 1 << 63]);
}

#[test]
fn programs_run_in_order_and_share_cells() {
    let mut b = three_cells();
    let [one, two] = [1, 2].map(|k| b.constant(k));
    let first = put_at(&mut b, 1, 0, 0, one);
    let second = put_at(&mut b, 1, 0, 0, two);
    let seen = amount_of(&mut b, 1, 0, 0);
    let third = put_at(&mut b, 1, 0, 1, seen);
    b.program(0, first);
    b.program(0, second);
    b.program(0, third);
    let memory = finish(&b.book);
    assert_eq!(cell(&memory, 1, 0, 0).0, Some(2));
    assert_eq!(cell(&memory, 1, 0, 1).0, Some(2));
}

#[test]
fn all_eight_programs_run() {
    let mut b = three_cells();
    let one = b.constant(1);
    for line in 0..8 {
        let put = put_at(&mut b, 1, 0, line, one);
        b.program(0, put);
    }
    assert_eq!(finish(&b.book).presence[1], 0xFF);
}

#[test]
fn one_root_may_serve_two_programs() {
    let mut b = three_cells();
    let one = b.constant(1);
    let out = b.out(4, one);
    b.program(0, out);
    b.program(6, out);
    assert_eq!(run_amply(&b.book).0, ended(0, 0, 4, 16));
}

#[test]
fn each_program_has_fresh_variables() {
    let mut b = three_cells();
    let secret = amount_of(&mut b, 0, 0, A);
    let region = b.region(0, 0..=7, 0..=7);
    let hide = b.assign(0, secret);
    let raise = b.raise(15, region);
    let first = b.then(hide, raise);
    let shows = [0, 15].map(|p| {
        let variable = b.variable(p);
        put_at(&mut b, 1, 0, p / 15, variable)
    });
    let second = b.then(shows[0], shows[1]);
    b.program(0, first);
    b.program(0, second);
    let memory = finish(&b.book);
    assert_eq!(cell(&memory, 1, 0, 0), (Some(0), vec![]));
    assert_eq!(cell(&memory, 1, 0, 1), (Some(0), vec![]));
}

#[test]
fn each_program_starts_in_an_empty_context() {
    let mut b = three_cells();
    let skip = b.skip();
    let secret = amount_of(&mut b, 0, 0, A);
    let first = when(&mut b, secret, skip);
    let one = b.constant(1);
    let second = b.assign(0, one);
    b.program(0, first);
    b.program(0, second);
    finish(&b.book);
}

#[test]
fn each_program_has_its_own_user() {
    let mut b = three_cells();
    let one = b.constant(1);
    let put = put_at(&mut b, 1, 0, 0, one);
    b.program(0, put);
    b.program(1, put);
    let (answer, memory) = run_amply(&b.book);
    assert_eq!(answer, ended(24, put, 8, 0));
    assert_eq!(cell(&memory, 1, 0, 0).0, Some(1));
}

#[test]
fn a_stop_ends_the_whole_run() {
    let mut b = three_cells();
    let one = b.constant(1);
    let secret = amount_of(&mut b, 0, 0, A);
    let bad = b.out(1, secret);
    let put = put_at(&mut b, 1, 0, 0, one);
    b.program(0, bad);
    b.program(0, put);
    let (answer, memory) = run_amply(&b.book);
    assert_eq!(stop_of(answer), (27, bad));
    assert_eq!(cell(&memory, 1, 0, 0), (None, vec![64]));
}

//! Out, the trace, and stops 27 and 30.

use crate::common::{ended, run_with, UNTOUCHED};
use crate::{amount_of, finish, program, run_amply, stop, stop_of, three_cells, when, A, B};
use reference::book::Book;
use reference::builder::Builder;
use reference::run_list::run_list;

#[test]
fn an_out_record_has_user_and_amount() {
    let mut b = three_cells();
    let minus_two = b.constant(-2);
    let most = b.constant(i32::MAX);
    let outs = [b.out(7, minus_two), b.out(0, most)];
    program(&mut b, &outs);
    let (answer, memory) = run_amply(&b.book);
    assert_eq!(answer, ended(0, 0, 5, 16));
    assert_eq!(memory.trace[..8], [1, 7, 0, 0, 0xFE, 0xFF, 0xFF, 0xFF]);
    assert_eq!(memory.trace[8..16], [1, 0, 0, 0, 0xFF, 0xFF, 0xFF, 0x7F]);
    assert!(memory.trace[16..].iter().all(|&byte| byte == UNTOUCHED));
}

/// User 0 sends A to user 3, with these rights records on the cell A.
fn with_rights(rights: impl FnOnce(&mut Builder, u8)) -> Book {
    let mut b = Builder::new();
    b.cell(0, 0, A, 1);
    let region = b.region(0, 0..=0, A..=A);
    let secret = amount_of(&mut b, 0, 0, A);
    let out = b.out(3, secret);
    rights(&mut b, region);
    program(&mut b, &[out]);
    b.book
}

#[test]
fn out_needs_the_receivers_read_right() {
    let out = 3;
    assert_eq!(stop(&with_rights(|_, _| ())), (27, out));
    assert_eq!(
        stop(&with_rights(|b, region| b.write(3, region))),
        (27, out)
    );
    assert_eq!(stop(&with_rights(|b, region| b.read(0, region))), (27, out));
    let passes = [
        with_rights(|b, region| b.read(3, region)),
        with_rights(|b, region| b.public(region)),
    ];
    for book in passes {
        let memory = finish(&book);
        assert_eq!(memory.trace[..8], [1, 3, 0, 0, 1, 0, 0, 0]);
    }
}

#[test]
fn user_0_reads_no_more_than_others() {
    let mut b = three_cells();
    let secret = amount_of(&mut b, 0, 0, A);
    let out = b.out(0, secret);
    program(&mut b, &[out]);
    assert_eq!(stop(&b.book), (27, out));
}

#[test]
fn public_and_own_places_count_together() {
    let mut b = three_cells();
    let first = b.region(0, 0..=0, A..=A);
    let second = b.region(0, 0..=0, B..=B);
    b.public(first);
    b.read(4, second);
    let left = amount_of(&mut b, 0, 0, A);
    let right = amount_of(&mut b, 0, 0, B);
    let sum = b.operator(reference::book::kind::ADD, left, right);
    let out = b.out(4, sum);
    program(&mut b, &[out]);
    let memory = finish(&b.book);
    assert_eq!(memory.trace[..8], [1, 4, 0, 0, 3, 0, 0, 0]);
}

#[test]
fn out_needs_the_context_to_be_readable() {
    let mut b = three_cells();
    let region = b.region(0, 0..=0, A..=A);
    let five = b.constant(5);
    let out = b.out(3, five);
    let condition = amount_of(&mut b, 0, 0, A);
    let branch = when(&mut b, condition, out);
    program(&mut b, &[branch]);
    assert_eq!(stop(&b.book), (27, out));
    b.read(3, region);
    assert_eq!(finish(&b.book).trace[..8], [1, 3, 0, 0, 5, 0, 0, 0]);
}

#[test]
fn an_absent_cell_is_not_told_to_those_who_cannot_read_it() {
    let mut b = three_cells();
    let readable = b.region(6, 0..=0, 0..=6);
    b.read(3, readable);
    let [zero, six, seven] = [0, 6, 7].map(|k| b.constant(k));
    let count = reference::book::kind::COUNT;
    let own = b.query(count, 6, [zero, zero, zero, six]);
    let more = b.query(count, 6, [zero, zero, zero, seven]);
    let out_own = b.out(3, own);
    let out_more = b.out(3, more);
    program(&mut b, &[out_own, out_more]);
    let (answer, memory) = run_amply(&b.book);
    assert_eq!(answer, ended(27, out_more, 19, 8));
    assert_eq!(memory.trace[..8], [1, 3, 0, 0, 0, 0, 0, 0]);
    assert_eq!(memory.trace[8], UNTOUCHED);
}

#[test]
fn what_a_cell_now_holds_decides_and_not_its_place() {
    let mut b = three_cells();
    let region = b.region(1, 0..=0, 0..=0);
    b.read(3, region);
    let secret = amount_of(&mut b, 0, 0, A);
    let zero = b.constant(0);
    let copy = b.put(1, zero, zero, secret);
    let seen = amount_of(&mut b, 1, 0, 0);
    let out = b.out(3, seen);
    program(&mut b, &[out, copy, out]);
    let (answer, memory) = run_amply(&b.book);
    assert_eq!(stop_of(answer), (27, out));
    assert_eq!(memory.trace[..8], [1, 3, 0, 0, 0, 0, 0, 0]);
}

#[test]
fn a_record_needs_8_bytes() {
    let mut b = three_cells();
    let one = b.constant(1);
    let first = b.out(1, one);
    let second = b.out(2, one);
    program(&mut b, &[first, second]);
    for trace in 0..8 {
        let (answer, memory) = run_with(&b.book, 100, trace);
        assert_eq!(answer, ended(30, first, 3, 0));
        assert!(memory.trace.iter().all(|&byte| byte == UNTOUCHED));
    }
    for trace in 8..16 {
        let (answer, memory) = run_with(&b.book, 100, trace);
        assert_eq!(answer, ended(30, second, 5, 8));
        assert_eq!(memory.trace[..8], [1, 1, 0, 0, 1, 0, 0, 0]);
        assert!(memory.trace[8..].iter().all(|&byte| byte == UNTOUCHED));
    }
    assert_eq!(run_with(&b.book, 100, 16).0, ended(0, 0, 5, 16));
}

#[test]
fn unreadable_comes_before_no_room() {
    let mut b = three_cells();
    let secret = amount_of(&mut b, 0, 0, A);
    let out = b.out(3, secret);
    program(&mut b, &[out]);
    assert_eq!(run_with(&b.book, 100, 0).0, ended(27, out, 9, 0));
}

#[test]
fn the_value_stops_before_the_out() {
    let mut b = three_cells();
    let most = b.constant(i32::MAX);
    let past = b.operator(reference::book::kind::ADD, most, most);
    let out = b.out(3, past);
    program(&mut b, &[out]);
    assert_eq!(run_with(&b.book, 100, 0).0, ended(22, past, 4, 0));
}

#[test]
fn the_run_list_has_a_line_for_each_record() {
    let mut b = three_cells();
    let minus = b.constant(-40);
    let commands = [
        b.out(6, minus),
        b.grant_read(1, 0),
        b.grant_write(2, 1),
        b.revoke_read(3, 2),
        b.revoke_write(4, 3),
    ];
    program(&mut b, &commands);
    let lines = "out 6 -40\ngrant read 1 0\ngrant write 2 1\n\
                 revoke read 3 2\nrevoke write 4 3\ndone 10\n";
    assert_eq!(run_list(&b.book.encode()), lines);
}

#[test]
fn the_run_list_of_a_refusal_is_one_line() {
    let mut b = three_cells();
    b.skip();
    b.book.nodes[0].p = 1;
    assert_eq!(run_list(&b.book.encode()), "refused 8 0\n");
    assert_eq!(run_list(b"no book"), "refused 2 0\n");
}

#[test]
fn the_run_list_has_budget_100_000_and_trace_4_096() {
    let mut b = three_cells();
    let one = b.constant(1);
    let skip = b.skip();
    let endless = b.repeat(one, skip);
    b.program(0, endless);
    // Each round costs 3: after 33,333 rounds 1 is left for the while.
    assert_eq!(run_list(&b.book.encode()), "stop 21 0 100000\n");

    let out = b.out(5, one);
    let speak = b.repeat(one, out);
    b.book.programs[0].root = speak;
    let mut lines = "out 5 1\n".repeat(512);
    // Each round costs 4; the 513th finds no room.
    lines.push_str(&format!("stop 30 {out} 2052\n"));
    assert_eq!(run_list(&b.book.encode()), lines);
}

//! Put and clear, and stops 23, 24 and 26.

use crate::{
    amount_of, cell, clear_at, finish, program, put_at, run_amply, stop, stop_of, three_cells,
    when, A, B, C,
};
use reference::book::kind;
use reference::builder::Builder;

/// Puts A + B at (1,1,1), so that this cell's label is both places.
fn labelled_by_a_and_b(b: &mut Builder) -> u16 {
    let left = amount_of(b, 0, 0, A);
    let right = amount_of(b, 0, 0, B);
    let sum = b.operator(kind::ADD, left, right);
    put_at(b, 1, 1, 1, sum)
}

#[test]
fn put_makes_a_cell_present() {
    let mut b = three_cells();
    let amount = amount_of(&mut b, 0, 0, C);
    let put = put_at(&mut b, 7, 6, 5, amount);
    program(&mut b, &[put]);
    let memory = finish(&b.book);
    assert_eq!(cell(&memory, 7, 6, 5), (Some(33), vec![2]));
    assert_eq!(memory.presence, [7, 0, 0, 0, 0, 0, 0, 1 << 53]);
    assert_eq!(cell(&memory, 7, 5, 6), (None, vec![494]));
}

#[test]
fn put_replaces_an_amount() {
    let mut b = three_cells();
    let zero = b.constant(0);
    let put = put_at(&mut b, 0, 0, C, zero);
    program(&mut b, &[put]);
    assert_eq!(cell(&finish(&b.book), 0, 0, C), (Some(0), vec![]));
}

#[test]
fn clear_makes_a_cell_absent() {
    let mut b = three_cells();
    let clear = clear_at(&mut b, 0, 0, C);
    program(&mut b, &[clear]);
    let memory = finish(&b.book);
    assert_eq!(cell(&memory, 0, 0, C), (None, vec![]));
    assert_eq!(memory.presence, [3, 0, 0, 0, 0, 0, 0, 0]);
}

#[test]
fn clear_of_an_absent_cell_changes_its_label() {
    let mut b = three_cells();
    let clear = clear_at(&mut b, 3, 3, 3);
    program(&mut b, &[clear]);
    assert_eq!(cell(&finish(&b.book), 3, 3, 3), (None, vec![]));
}

#[test]
fn new_labels_have_context_key_and_amount() {
    for put in [true, false] {
        let mut b = three_cells();
        let prepare = labelled_by_a_and_b(&mut b);
        let one = b.constant(1);
        // A is 1, so this is (1,1,1) with the key's label A.
        let key = amount_of(&mut b, 0, 0, A);
        let amount = amount_of(&mut b, 0, 0, C);
        let write = if put {
            b.put(1, key, one, amount)
        } else {
            b.clear(1, key, one)
        };
        let condition = amount_of(&mut b, 0, 0, B);
        let branch = when(&mut b, condition, write);
        program(&mut b, &[prepare, branch]);
        let expected = if put {
            (Some(33), vec![0, 1, 2])
        } else {
            (None, vec![0, 1])
        };
        assert_eq!(cell(&finish(&b.book), 1, 1, 1), expected);
    }
}

#[test]
fn a_new_label_does_not_join_the_old_one() {
    for put in [true, false] {
        let mut b = three_cells();
        let prepare = labelled_by_a_and_b(&mut b);
        let one = b.constant(1);
        let write = if put {
            put_at(&mut b, 1, 1, 1, one)
        } else {
            clear_at(&mut b, 1, 1, 1)
        };
        let condition = amount_of(&mut b, 0, 0, B);
        let branch = when(&mut b, condition, write);
        program(&mut b, &[prepare, branch]);
        assert_eq!(cell(&finish(&b.book), 1, 1, 1).1, [1]);
    }
}

#[test]
fn the_context_has_to_be_in_the_cells_label() {
    for put in [true, false] {
        let mut b = three_cells();
        let prepare = labelled_by_a_and_b(&mut b);
        let one = b.constant(1);
        let write = if put {
            put_at(&mut b, 1, 1, 1, one)
        } else {
            clear_at(&mut b, 1, 1, 1)
        };
        let condition = amount_of(&mut b, 0, 0, C);
        let branch = when(&mut b, condition, write);
        program(&mut b, &[prepare, branch]);
        let (answer, memory) = run_amply(&b.book);
        assert_eq!(stop_of(answer), (26, write));
        assert_eq!(cell(&memory, 1, 1, 1), (Some(3), vec![0, 1]));
    }
}

#[test]
fn the_keys_label_has_to_be_in_the_cells_label() {
    for put in [true, false] {
        for secret_owner in [true, false] {
            let mut b = three_cells();
            let one = b.constant(1);
            let secret = amount_of(&mut b, 0, 0, A);
            let (owner, line) = if secret_owner {
                (secret, one)
            } else {
                (one, secret)
            };
            let write = if put {
                b.put(1, owner, line, one)
            } else {
                b.clear(1, owner, line)
            };
            program(&mut b, &[write]);
            let (answer, memory) = run_amply(&b.book);
            assert_eq!(stop_of(answer), (26, write));
            assert_eq!(cell(&memory, 1, 1, 1), (None, vec![73]));
        }
    }
}

#[test]
fn a_cell_may_be_written_in_its_own_context() {
    let mut b = three_cells();
    let nine = b.constant(9);
    let put = put_at(&mut b, 0, 0, A, nine);
    let condition = amount_of(&mut b, 0, 0, A);
    let branch = when(&mut b, condition, put);
    program(&mut b, &[branch]);
    assert_eq!(cell(&finish(&b.book), 0, 0, A), (Some(9), vec![0]));
}

#[test]
fn the_amounts_label_is_not_tested() {
    let mut b = three_cells();
    let secret = amount_of(&mut b, 0, 0, A);
    let put = put_at(&mut b, 1, 0, 0, secret);
    program(&mut b, &[put]);
    assert_eq!(cell(&finish(&b.book), 1, 0, 0), (Some(1), vec![0]));
}

/// The number of a put or clear's stop, or `None` if it passes.
fn at_key(put: bool, owner: i32, line: i32) -> Option<u32> {
    let mut b = three_cells();
    let owner = b.constant(owner);
    let line = b.constant(line);
    let write = if put {
        b.put(7, owner, line, line)
    } else {
        b.clear(7, owner, line)
    };
    program(&mut b, &[write]);
    let (answer, _) = run_amply(&b.book);
    if answer == crate::common::ended(0, 0, if put { 4 } else { 3 }, 0) {
        return None;
    }
    let (number, node) = stop_of(answer);
    assert_eq!(node, write);
    Some(number)
}

#[test]
fn keys_are_0_to_7() {
    for put in [true, false] {
        for inside in [0, 7] {
            assert_eq!(at_key(put, inside, 3), None);
            assert_eq!(at_key(put, 3, inside), None);
        }
        for outside in [-1, 8, 256, i32::MIN, i32::MAX] {
            assert_eq!(at_key(put, outside, 3), Some(23));
            assert_eq!(at_key(put, 3, outside), Some(23));
            assert_eq!(at_key(put, outside, outside), Some(23));
        }
    }
}

/// User 3 puts or clears at (1,2,3), with these rights records on that cell.
fn with_rights(put: bool, rights: impl FnOnce(&mut Builder, u8)) -> u32 {
    let mut b = Builder::new();
    let region = b.region(1, 2..=2, 3..=3);
    let zero = b.constant(0);
    let write = if put {
        put_at(&mut b, 1, 2, 3, zero)
    } else {
        clear_at(&mut b, 1, 2, 3)
    };
    rights(&mut b, region);
    b.program(3, write);
    match run_amply(&b.book).0 {
        reference::run::Answer::Ended { number, .. } => number,
        answer => panic!("{answer:?}"),
    }
}

#[test]
fn writing_needs_the_users_own_write_right() {
    for put in [true, false] {
        assert_eq!(with_rights(put, |_, _| ()), 24);
        assert_eq!(with_rights(put, |b, region| b.public(region)), 24);
        assert_eq!(with_rights(put, |b, region| b.read(3, region)), 24);
        assert_eq!(with_rights(put, |b, region| b.write(0, region)), 24);
        assert_eq!(with_rights(put, |b, region| b.write(3, region)), 0);
    }
}

#[test]
fn a_write_right_ends_at_its_region() {
    let around = [
        (0, 2..=2, 3..=3),
        (2, 2..=2, 3..=3),
        (1, 0..=1, 0..=7),
        (1, 3..=7, 0..=7),
        (1, 0..=7, 0..=2),
        (1, 0..=7, 4..=7),
    ];
    let number = with_rights(true, |b, _| {
        for (table, owners, lines) in around {
            let region = b.region(table, owners, lines);
            b.write(3, region);
        }
    });
    assert_eq!(number, 24);
}

/// In A's context user 1, who has no rights, puts at owner 8 an amount that is
/// too large; then with each reason to stop taken away in turn.
#[test]
fn the_lowest_number_stops_after_the_children() {
    let mut b = three_cells();
    let [one, eight, most] = [1, 8, i32::MAX].map(|k| b.constant(k));
    let past = b.operator(kind::ADD, most, one);
    let puts = [
        b.put(1, eight, one, past),
        b.put(1, eight, one, one),
        b.put(1, one, one, one),
    ];
    let condition = amount_of(&mut b, 0, 0, A);
    let roots = puts.map(|put| when(&mut b, condition, put));
    let stop_of = |user, root| {
        let mut b = b.clone();
        b.program(user, root);
        stop(&b.book)
    };
    assert_eq!(stop_of(1, roots[0]), (22, past));
    assert_eq!(stop_of(1, roots[1]), (23, puts[1]));
    assert_eq!(stop_of(1, roots[2]), (24, puts[2]));
    assert_eq!(stop_of(0, roots[2]), (26, puts[2]));
}

#[test]
fn clear_of_an_absent_cell_is_tested() {
    let mut b = three_cells();
    let clear = clear_at(&mut b, 3, 3, 3);
    let condition = amount_of(&mut b, 0, 0, A);
    let branch = when(&mut b, condition, clear);
    program(&mut b, &[branch]);
    assert_eq!(stop(&b.book), (26, clear));
    b.book.programs[0].user = 1;
    assert_eq!(stop(&b.book), (24, clear));
}

#[test]
fn a_stop_leaves_what_was_written_before() {
    let mut b = three_cells();
    let five = b.constant(5);
    let first = put_at(&mut b, 1, 0, 0, five);
    let clear = clear_at(&mut b, 0, 0, B);
    let eight = b.constant(8);
    let bad = b.put(1, eight, five, five);
    let last = put_at(&mut b, 1, 0, 1, five);
    program(&mut b, &[first, clear, bad, last]);
    let (answer, memory) = run_amply(&b.book);
    assert_eq!(stop_of(answer), (23, bad));
    assert_eq!(cell(&memory, 1, 0, 0), (Some(5), vec![]));
    assert_eq!(cell(&memory, 0, 0, B), (None, vec![]));
    assert_eq!(cell(&memory, 1, 0, 1), (None, vec![65]));
    assert_eq!(cell(&memory, 0, 0, C), (Some(33), vec![2]));
}

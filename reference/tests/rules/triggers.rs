//! Triggers: when they run, with which variables, labels and rights.

use crate::common::{ended, run_with};
use crate::{
    amount_of, cell, clear_at, finish, program, put_at, run_amply, stop, stop_of, three_cells,
    when, A, B, C,
};
use reference::book::kind;
use reference::builder::Builder;
use reference::run::Memory;

/// A command that adds 1 to the cell (2,0,0).
fn count(b: &mut Builder) -> u16 {
    let one = b.constant(1);
    let so_far = amount_of(b, 2, 0, 0);
    let more = b.operator(kind::ADD, so_far, one);
    put_at(b, 2, 0, 0, more)
}

fn counted(memory: &Memory) -> Option<i32> {
    cell(memory, 2, 0, 0).0
}

#[test]
fn a_trigger_runs_after_writes_inside_its_region() {
    let mut b = three_cells();
    let region = b.region(1, 2..=3, 4..=5);
    let body = count(&mut b);
    b.put_trigger(region, 0, body);
    let zero = b.constant(0);
    let inside = [(1, 2, 4), (1, 3, 4), (1, 2, 5), (1, 3, 5)];
    let outside = [(1, 1, 4), (1, 4, 5), (1, 2, 3), (1, 3, 6), (0, 2, 4)];
    let puts: Vec<u16> = inside
        .into_iter()
        .chain(outside)
        .map(|(table, owner, line)| put_at(&mut b, table, owner, line, zero))
        .collect();
    program(&mut b, &puts);
    assert_eq!(counted(&finish(&b.book)), Some(4));
}

#[test]
fn a_trigger_runs_after_its_own_event_only() {
    for (put, trigger_on_put, runs) in [
        (true, true, Some(1)),
        (true, false, None),
        (false, true, None),
        (false, false, Some(1)),
    ] {
        let mut b = three_cells();
        let body = count(&mut b);
        if trigger_on_put {
            b.put_trigger(1, 0, body);
        } else {
            b.clear_trigger(1, 0, body);
        }
        let zero = b.constant(0);
        let write = if put {
            put_at(&mut b, 1, 0, 0, zero)
        } else {
            clear_at(&mut b, 1, 0, 0)
        };
        program(&mut b, &[write]);
        // The cleared cell is absent, which does not matter.
        assert_eq!(counted(&finish(&b.book)), runs);
    }
}

#[test]
fn a_present_cell_cleared_runs_the_trigger_too() {
    let mut b = three_cells();
    let body = count(&mut b);
    b.clear_trigger(0, 0, body);
    let clears = [clear_at(&mut b, 0, 0, A), clear_at(&mut b, 0, 0, A)];
    program(&mut b, &clears);
    assert_eq!(counted(&finish(&b.book)), Some(2));
}

/// A put or clear of (1,2,5) in A's context, with a key labelled by B and, for
/// put, an amount labelled by C. A trigger on it puts its variables 0–3 in the
/// cells (2,0,0) to (2,0,3), and the constant 5 in (2,0,4).
fn variables_seen(put: bool) -> Memory {
    let mut b = three_cells();
    let [left, right] = [A, B].map(|line| amount_of(&mut b, 0, 0, line));
    let both = b.operator(kind::ADD, left, right);
    let mut commands = vec![put_at(&mut b, 1, 2, 5, both)];
    commands.extend([0, 1, 2, 3, 4].map(|line| put_at(&mut b, 2, 0, line, both)));

    let owner = amount_of(&mut b, 0, 0, B);
    let line = b.constant(5);
    let amount = amount_of(&mut b, 0, 0, C);
    let write = if put {
        b.put(1, owner, line, amount)
    } else {
        b.clear(1, owner, line)
    };
    let condition = amount_of(&mut b, 0, 0, A);
    commands.push(when(&mut b, condition, write));
    program(&mut b, &commands);

    let mut body = put_at(&mut b, 2, 0, 4, line);
    for p in 0..4 {
        let variable = b.variable(p);
        let show = put_at(&mut b, 2, 0, p, variable);
        body = b.then(body, show);
    }
    if put {
        b.put_trigger(1, 0, body);
    } else {
        b.clear_trigger(1, 0, body);
    }
    finish(&b.book)
}

#[test]
fn a_put_trigger_sees_owner_line_and_amount() {
    let memory = variables_seen(true);
    assert_eq!(cell(&memory, 1, 2, 5), (Some(33), vec![0, 1, 2]));
    assert_eq!(cell(&memory, 2, 0, 0), (Some(2), vec![0, 1]));
    assert_eq!(cell(&memory, 2, 0, 1), (Some(5), vec![0, 1]));
    assert_eq!(cell(&memory, 2, 0, 2), (Some(33), vec![0, 1, 2]));
    assert_eq!(cell(&memory, 2, 0, 3), (Some(0), vec![0, 1]));
    assert_eq!(cell(&memory, 2, 0, 4), (Some(5), vec![0, 1]));
}

#[test]
fn a_clear_trigger_sees_amount_0() {
    let memory = variables_seen(false);
    assert_eq!(cell(&memory, 1, 2, 5), (None, vec![0, 1]));
    assert_eq!(cell(&memory, 2, 0, 0), (Some(2), vec![0, 1]));
    assert_eq!(cell(&memory, 2, 0, 1), (Some(5), vec![0, 1]));
    assert_eq!(cell(&memory, 2, 0, 2), (Some(0), vec![0, 1]));
    assert_eq!(cell(&memory, 2, 0, 3), (Some(0), vec![0, 1]));
    assert_eq!(cell(&memory, 2, 0, 4), (Some(5), vec![0, 1]));
}

/// Puts 9 at (0,0,v) with v the amount of A, which is 1: so at B, whose label
/// is first made that of A. The trigger is on table 0.
fn secret_key_write(b: &mut Builder, body: u16) -> u16 {
    let secret = amount_of(b, 0, 0, A);
    let prepare = put_at(b, 0, 0, B, secret);
    let zero = b.constant(0);
    let nine = b.constant(9);
    let put = b.put(0, zero, secret, nine);
    let region = b.region(0, 0..=0, B..=B);
    b.put_trigger(region, 0, body);
    program(b, &[prepare, put]);
    put
}

/// The trigger puts a constant. It passes when it runs for the put that gives
/// B its label, and stops when it runs for the put with the secret key.
#[test]
fn a_trigger_runs_in_the_keys_label() {
    let mut b = three_cells();
    let seven = b.constant(7);
    let body = put_at(&mut b, 2, 0, 0, seven);
    secret_key_write(&mut b, body);
    let (answer, memory) = run_amply(&b.book);
    assert_eq!(stop_of(answer), (26, body));
    assert_eq!(cell(&memory, 0, 0, B), (Some(1), vec![0]), "taken back");
    assert_eq!(cell(&memory, 2, 0, 0), (Some(7), vec![]));
}

#[test]
fn every_trigger_variable_may_be_assigned() {
    let mut b = three_cells();
    let one = b.constant(1);
    let body = [0, 1, 2, 3, 15]
        .map(|p| b.assign(p, one))
        .into_iter()
        .reduce(|first, second| b.then(first, second))
        .unwrap();
    secret_key_write(&mut b, body);
    finish(&b.book);
}

#[test]
fn a_trigger_assigns_within_its_context_only() {
    let mut b = three_cells();
    let one = b.constant(1);
    let assign = b.assign(3, one);
    let condition = amount_of(&mut b, 0, 0, C);
    let body = when(&mut b, condition, assign);
    b.put_trigger(1, 0, body);
    let put = put_at(&mut b, 1, 0, 0, one);
    program(&mut b, &[put]);
    assert_eq!(stop(&b.book), (25, assign));
}

/// The amount is labelled by C. In the trigger only variable 2 is.
#[test]
fn the_amounts_label_is_not_in_the_triggers_context() {
    let mut b = three_cells();
    let [owner, amount] = [0, 2].map(|p| b.variable(p));
    let show_owner = put_at(&mut b, 2, 0, 0, owner);
    let show_amount = put_at(&mut b, 2, 0, 1, amount);
    let body = b.then(show_owner, show_amount);
    b.put_trigger(1, 0, body);
    let secret = amount_of(&mut b, 0, 0, C);
    let put = put_at(&mut b, 1, 6, 0, secret);
    program(&mut b, &[put]);
    let memory = finish(&b.book);
    assert_eq!(cell(&memory, 2, 0, 0), (Some(6), vec![]));
    assert_eq!(cell(&memory, 2, 0, 1), (Some(33), vec![2]));
}

#[test]
fn triggers_run_by_number() {
    let mut b = three_cells();
    for amount in [10, 20, 30] {
        let amount = b.constant(amount);
        let body = put_at(&mut b, 2, 0, 0, amount);
        b.put_trigger(1, 0, body);
    }
    let one = b.constant(1);
    let put = put_at(&mut b, 1, 0, 0, one);
    program(&mut b, &[put]);
    assert_eq!(counted(&finish(&b.book)), Some(30));
}

/// Trigger 0 puts at line 1, which runs trigger 1 at once and not itself;
/// trigger 1 doubles a log and adds line + 1. In order: line 1, then line 0.
#[test]
fn a_triggers_write_runs_higher_triggers_at_once() {
    let mut b = three_cells();
    let one = b.constant(1);
    let again = put_at(&mut b, 1, 0, 1, one);
    b.put_trigger(1, 0, again);
    let log = amount_of(&mut b, 2, 0, 0);
    let twice = b.operator(kind::ADD, log, log);
    let line = b.variable(1);
    let line_and_one = b.operator(kind::ADD, line, one);
    let longer = b.operator(kind::ADD, twice, line_and_one);
    let note = put_at(&mut b, 2, 0, 0, longer);
    b.put_trigger(1, 0, note);
    let put = put_at(&mut b, 1, 0, 0, one);
    program(&mut b, &[put]);
    // (2 · 0 + 2), then 2 · 2 + 1.
    assert_eq!(counted(&finish(&b.book)), Some(5));
}

#[test]
fn a_triggers_write_runs_no_lower_trigger() {
    let mut b = three_cells();
    let one = b.constant(1);
    let lower = put_at(&mut b, 4, 0, 0, one);
    let higher = put_at(&mut b, 3, 0, 0, one);
    b.put_trigger(3, 0, lower);
    b.put_trigger(2, 0, higher);
    let put = put_at(&mut b, 2, 0, 0, one);
    program(&mut b, &[put]);
    let memory = finish(&b.book);
    assert_eq!(cell(&memory, 3, 0, 0).0, Some(1));
    assert_eq!(cell(&memory, 4, 0, 0).0, None);
}

#[test]
fn a_triggers_write_does_not_run_itself() {
    let mut b = three_cells();
    let skip = b.skip();
    b.put_trigger(1, 0, skip);
    let one = b.constant(1);
    let note = count(&mut b);
    let own = put_at(&mut b, 1, 0, 1, one);
    let body = b.then(note, own);
    b.put_trigger(1, 0, body);
    let put = put_at(&mut b, 1, 0, 0, one);
    program(&mut b, &[put]);
    // The put costs 4, the skip 1 and the body 1 + 13 + 4.
    let (answer, memory) = run_with(&b.book, 200, 0);
    assert_eq!(answer, ended(0, 0, 23, 0));
    assert_eq!(counted(&memory), Some(1));
    assert_eq!(cell(&memory, 1, 0, 1).0, Some(1));
}

#[test]
fn a_program_runs_all_triggers_again_after_one_has_run() {
    let mut b = three_cells();
    let body = count(&mut b);
    b.put_trigger(1, 0, body);
    let one = b.constant(1);
    let puts = [put_at(&mut b, 1, 0, 0, one), put_at(&mut b, 1, 0, 0, one)];
    program(&mut b, &puts);
    assert_eq!(counted(&finish(&b.book)), Some(2));
}

/// Trigger 0 overwrites the cell with 50. Trigger 1 runs for that and then for
/// the program's own put, whose amount is still 7.
#[test]
fn a_trigger_sees_the_amount_that_was_put() {
    let mut b = three_cells();
    let fifty = b.constant(50);
    let overwrite = put_at(&mut b, 1, 0, 0, fifty);
    b.put_trigger(1, 0, overwrite);
    let amount = b.variable(2);
    let show = put_at(&mut b, 2, 0, 0, amount);
    b.put_trigger(1, 0, show);
    let seven = b.constant(7);
    let put = put_at(&mut b, 1, 0, 0, seven);
    program(&mut b, &[put]);
    let memory = finish(&b.book);
    assert_eq!(cell(&memory, 1, 0, 0).0, Some(50));
    assert_eq!(cell(&memory, 2, 0, 0).0, Some(7));
}

#[test]
fn each_firing_has_its_own_variables() {
    let mut b = three_cells();
    let one = b.constant(1);
    let third = b.variable(3);
    let more = b.operator(kind::ADD, third, one);
    let step = b.assign(3, more);
    let show = put_at(&mut b, 2, 0, 0, third);
    let body = b.then(step, show);
    b.put_trigger(1, 0, body);
    let nine = b.constant(9);
    let set = b.assign(3, nine);
    let puts = [put_at(&mut b, 1, 0, 0, one), put_at(&mut b, 1, 0, 0, one)];
    let keep = put_at(&mut b, 3, 0, 0, third);
    program(&mut b, &[set, puts[0], puts[1], keep]);
    let memory = finish(&b.book);
    assert_eq!(cell(&memory, 2, 0, 0).0, Some(1), "the trigger's");
    assert_eq!(cell(&memory, 3, 0, 0).0, Some(9), "the program's");
}

#[test]
fn the_context_is_put_back_after_a_trigger() {
    let mut b = three_cells();
    let skip = b.skip();
    let put = secret_key_write(&mut b, skip);
    let one = b.constant(1);
    let fresh = b.assign(0, one);
    let variable = b.variable(0);
    let show = put_at(&mut b, 2, 0, 0, variable);
    let prepared = b.book.programs[0].root;
    b.book.programs.clear();
    program(&mut b, &[prepared, fresh, show]);
    assert!(put < prepared);
    assert_eq!(cell(&finish(&b.book), 2, 0, 0), (Some(1), vec![]));
}

/// User 0 may write table 1 and user 5 may write table 2. The program is user
/// 0's, the trigger user 5's; its body puts in the given table.
fn trigger_of_user_5(table: u8) -> (Builder, u16) {
    let mut b = Builder::new();
    let first = b.region(1, 0..=7, 0..=7);
    let second = b.region(2, 0..=7, 0..=7);
    b.write(0, first);
    b.write(5, second);
    let one = b.constant(1);
    let body = put_at(&mut b, table, 0, 1, one);
    b.put_trigger(first, 5, body);
    let put = put_at(&mut b, 1, 0, 0, one);
    program(&mut b, &[put]);
    (b, body)
}

#[test]
fn a_trigger_has_its_own_users_write_rights() {
    let (b, _) = trigger_of_user_5(2);
    assert_eq!(cell(&finish(&b.book), 2, 0, 1).0, Some(1));
    let (b, body) = trigger_of_user_5(1);
    let (answer, memory) = run_amply(&b.book);
    assert_eq!(stop_of(answer), (24, body));
    assert_eq!(cell(&memory, 1, 0, 0), (None, vec![64]), "taken back");
    assert_eq!(cell(&memory, 1, 0, 1), (None, vec![65]));
}

#[test]
fn a_triggers_rights_are_those_of_the_moment() {
    let (mut b, body) = trigger_of_user_5(2);
    let put = b.book.programs[0].root;
    let revoke = b.revoke_write(5, 1);
    b.book.programs.clear();
    program(&mut b, &[put, revoke, put]);
    assert_eq!(stop(&b.book), (24, body));
}

#[test]
fn a_stop_in_a_trigger_ends_the_run() {
    let mut b = three_cells();
    let one = b.constant(1);
    let eight = b.constant(8);
    let bad = b.put(2, eight, one, one);
    b.put_trigger(1, 0, bad);
    let body = count(&mut b);
    b.put_trigger(1, 0, body);
    let put = put_at(&mut b, 1, 0, 0, one);
    let next = put_at(&mut b, 3, 0, 0, one);
    program(&mut b, &[put, next]);
    let (answer, memory) = run_amply(&b.book);
    assert_eq!(stop_of(answer), (23, bad));
    assert_eq!(cell(&memory, 1, 0, 0).0, None);
    assert_eq!(cell(&memory, 2, 0, 0).0, None);
    assert_eq!(cell(&memory, 3, 0, 0).0, None);
}

#[test]
fn a_refused_write_runs_no_trigger() {
    let mut b = three_cells();
    let body = count(&mut b);
    b.put_trigger(1, 0, body);
    let one = b.constant(1);
    let put = put_at(&mut b, 1, 0, 0, one);
    b.program(1, put);
    let (answer, memory) = run_amply(&b.book);
    assert_eq!(stop_of(answer), (24, put));
    assert_eq!(counted(&memory), None);
}

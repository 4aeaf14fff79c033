//! Grant and revoke, and stops 28 and 29.

use crate::common::{ended, run_with};
use crate::{amount_of, finish, program, put_at, run_amply, stop, stop_of, three_cells, when, A};
use reference::builder::Builder;

/// Cell A = 1, which is region 0; region 1 is cells A and B.
fn with_region() -> Builder {
    let mut b = Builder::new();
    b.cell(0, 0, A, 1);
    b.region(0, 0..=0, 0..=0);
    b.region(0, 0..=0, 0..=1);
    b
}

#[test]
fn records_have_kind_user_and_region() {
    let mut b = three_cells();
    let commands = [
        b.grant_read(1, 7),
        b.grant_write(2, 6),
        b.revoke_read(3, 5),
        b.revoke_write(7, 4),
    ];
    program(&mut b, &commands);
    let (answer, memory) = run_amply(&b.book);
    assert_eq!(answer, ended(0, 0, 7, 32));
    assert_eq!(memory.trace[..8], [2, 1, 7, 0, 0, 0, 0, 0]);
    assert_eq!(memory.trace[8..16], [3, 2, 6, 0, 0, 0, 0, 0]);
    assert_eq!(memory.trace[16..24], [4, 3, 5, 0, 0, 0, 0, 0]);
    assert_eq!(memory.trace[24..32], [5, 7, 4, 0, 0, 0, 0, 0]);
}

/// The stop of a program that sends A to user 3 after these commands, or
/// `None` if it finishes.
fn out_after(mut b: Builder, commands: &[u16]) -> Option<u32> {
    let secret = amount_of(&mut b, 0, 0, A);
    let out = b.out(3, secret);
    let commands: Vec<u16> = commands.iter().copied().chain([out]).collect();
    program(&mut b, &commands);
    let (answer, _) = run_amply(&b.book);
    if matches!(answer, reference::run::Answer::Ended { number: 0, .. }) {
        return None;
    }
    let (number, node) = stop_of(answer);
    assert_eq!(node, out);
    Some(number)
}

#[test]
fn a_grant_adds_its_regions_places() {
    let mut b = with_region();
    let grants = [b.grant_read(3, 0)];
    assert_eq!(out_after(b, &grants), None);
    let mut b = with_region();
    let grants = [b.grant_read(3, 1)];
    assert_eq!(out_after(b, &grants), None);
    let mut b = with_region();
    let others = [b.grant_read(2, 0), b.grant_write(3, 0)];
    assert_eq!(out_after(b, &others), Some(27));
}

#[test]
fn a_revoke_takes_places_however_they_came() {
    let mut b = with_region();
    b.read(3, 0);
    let revoke = b.revoke_read(3, 0);
    assert_eq!(out_after(b, &[revoke]), Some(27), "by a record");

    let mut b = with_region();
    let grant = b.grant_read(3, 0);
    let revoke = b.revoke_read(3, 0);
    assert_eq!(out_after(b, &[grant, revoke]), Some(27), "by a grant");

    let mut b = with_region();
    b.read(3, 0);
    b.read(3, 1);
    b.read(3, 1);
    let grant = b.grant_read(3, 1);
    let revoke = b.revoke_read(3, 0);
    assert_eq!(out_after(b, &[grant, revoke]), Some(27), "by many");
}

#[test]
fn a_revoke_takes_its_own_places_only() {
    let mut b = with_region();
    b.read(3, 1);
    let elsewhere = b.region(0, 0..=0, 1..=7);
    let revokes = [
        b.revoke_read(3, elsewhere),
        b.revoke_read(2, 0),
        b.revoke_write(3, 0),
    ];
    assert_eq!(out_after(b, &revokes), None);
}

#[test]
fn a_revoked_right_may_be_granted_again() {
    let mut b = with_region();
    b.read(3, 0);
    let revoke = b.revoke_read(3, 0);
    let grant = b.grant_read(3, 0);
    assert_eq!(out_after(b, &[revoke, grant]), None);
}

#[test]
fn a_revoke_never_takes_public_places() {
    let mut b = with_region();
    b.public(0);
    b.read(3, 0);
    let revoke = b.revoke_read(3, 0);
    assert_eq!(out_after(b, &[revoke]), None);
}

/// User 3's program puts at A after user 0's program with these commands.
fn put_after(mut b: Builder, commands: &[u16]) -> Option<u32> {
    program(&mut b, commands);
    let one = b.constant(1);
    let put = put_at(&mut b, 0, 0, A, one);
    b.program(3, put);
    let (answer, _) = run_amply(&b.book);
    if matches!(answer, reference::run::Answer::Ended { number: 0, .. }) {
        return None;
    }
    let (number, node) = stop_of(answer);
    assert_eq!(node, put);
    Some(number)
}

#[test]
fn write_rights_are_granted_and_revoked_for_later_programs() {
    let mut b = with_region();
    let grants = [b.grant_write(3, 1)];
    assert_eq!(put_after(b, &grants), None);
    let mut b = with_region();
    let others = [b.grant_read(3, 0), b.grant_write(2, 0)];
    assert_eq!(put_after(b, &others), Some(24));
    let mut b = with_region();
    b.write(3, 1);
    let revokes = [b.revoke_write(3, 0)];
    assert_eq!(put_after(b, &revokes), Some(24));
    let mut b = with_region();
    b.write(3, 1);
    let others = [b.revoke_read(3, 0), b.revoke_write(0, 0)];
    assert_eq!(put_after(b, &others), None);
}

#[test]
fn user_0_may_take_its_own_rights() {
    let mut b = three_cells();
    let one = b.constant(1);
    let put = put_at(&mut b, 1, 0, 0, one);
    let revoke = b.revoke_write(0, 1);
    program(&mut b, &[put, revoke, put]);
    assert_eq!(stop(&b.book), (24, put));
}

/// In A's context user 1 grants with no room in the trace; then with each
/// reason to stop taken away in turn.
#[test]
fn the_lowest_number_stops() {
    for revoke in [false, true] {
        let mut b = with_region();
        b.read(0, 0);
        let change = if revoke {
            b.revoke_write(2, 0)
        } else {
            b.grant_read(2, 0)
        };
        let condition = amount_of(&mut b, 0, 0, A);
        let branch = when(&mut b, condition, change);
        b.program(1, branch);
        assert_eq!(run_with(&b.book, 100, 0).0, ended(28, change, 10, 0));
        b.book.programs[0].user = 0;
        assert_eq!(run_with(&b.book, 100, 0).0, ended(29, change, 10, 0));
        b.public(0);
        assert_eq!(run_with(&b.book, 100, 7).0, ended(30, change, 10, 0));
        assert_eq!(run_with(&b.book, 100, 8).0, ended(0, 0, 10, 8));
    }
}

#[test]
fn only_user_0_changes_rights() {
    for user in 1..8 {
        let mut b = with_region();
        b.public(1);
        let grant = b.grant_read(user, 0);
        b.program(user, grant);
        assert_eq!(stop(&b.book), (28, grant));
    }
}

#[test]
fn a_granted_read_does_not_make_a_context_public() {
    let mut b = with_region();
    let first = b.grant_read(0, 1);
    let second = b.grant_read(2, 0);
    let condition = amount_of(&mut b, 0, 0, A);
    let branch = when(&mut b, condition, second);
    program(&mut b, &[first, branch]);
    assert_eq!(stop(&b.book), (29, second));
}

#[test]
fn the_context_is_public_if_all_of_it_is() {
    let mut b = with_region();
    b.public(1);
    let grant = b.grant_read(2, 0);
    let condition = amount_of(&mut b, 0, 0, A);
    let branch = when(&mut b, condition, grant);
    program(&mut b, &[branch]);
    finish(&b.book);
}

//! Programs one after the other: a context ends with its program, and all eight
//! run.

use super::office::{assign, block, clear, held, office, set, tell, when, A, B, CELL_A, CELL_B};
use super::Case;
use crate::builder::Builder;

pub(super) fn cases() -> Vec<Case> {
    let mut files = NEXT.map(after_secrets).to_vec();
    files.extend(NEXT.map(as_the_eighth));
    files.into_iter().map(Case::ample).collect()
}

/// Commands of user 0 that pass in an empty context, and in no other.
const NEXT: [fn(&mut Builder) -> u16; 7] = [
    |b| assign(b, 0, 3),
    |b| b.raise(0, CELL_B),
    |b| set(b, 1, [1, 1], 4),
    |b| clear(b, 2, [2, 2]),
    |b| tell(b, 2, 5),
    |b| b.grant_read(2, CELL_A),
    |b| b.revoke_write(5, 2),
];

/// The command follows a program that ends in the context of A and leaves B in a
/// variable.
fn after_secrets(next: fn(&mut Builder) -> u16) -> Vec<u8> {
    let mut b = office();
    let [test, secret] = [A, B].map(|line| held(&mut b, line));
    let keep = b.assign(0, secret);
    let skip = b.skip();
    let inside = when(&mut b, test, skip);
    let first = block(&mut b, &[keep, inside]);
    let second = next(&mut b);
    b.program(0, first);
    b.program(0, second);
    b.book.encode()
}

/// The command follows seven programs, each of which tells its user a number.
fn as_the_eighth(next: fn(&mut Builder) -> u16) -> Vec<u8> {
    let mut b = office();
    for user in 1..=7 {
        let out = tell(&mut b, user, 10 * i32::from(user));
        b.program(user, out);
    }
    let last = next(&mut b);
    b.program(0, last);
    b.book.encode()
}

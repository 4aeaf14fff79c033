//! Traces filled to their last byte, short ones and the longest, by a record of
//! each kind; one byte less; and one more than may be lent.

use super::office::{block, tell};
use super::Case;
use crate::builder::Builder;

const LONGEST: u32 = 65_536;

pub(super) fn cases() -> Vec<Case> {
    [short(), longest()].concat()
}

/// From one to five records.
fn short() -> Vec<Case> {
    let mut cases = Vec::new();
    for count in 1..=RECORDS.len() {
        for trace in [8 * count - 1, 8 * count] {
            let mut b = Builder::new();
            b.region(6, 1..=2, 3..=4);
            let commands: Vec<u16> = RECORDS[..count].iter().map(|make| make(&mut b)).collect();
            let root = block(&mut b, &commands);
            b.program(0, root);
            cases.push(Case::ample(b.book.encode()).with_trace(trace as u32));
        }
    }
    cases
}

fn longest() -> Vec<Case> {
    let mut cases = Vec::new();
    for last in RECORDS {
        for trace in [LONGEST - 1, LONGEST, LONGEST + 1] {
            let case = Case::ample(filling(last));
            cases.push(case.with_budget(30_000).with_trace(trace));
        }
    }
    cases
}

/// Commands that leave a record.
const RECORDS: [fn(&mut Builder) -> u16; 5] = [
    |b| tell(b, 7, i32::MIN),
    |b| b.grant_read(1, 0),
    |b| b.grant_write(2, 0),
    |b| b.revoke_read(3, 0),
    |b| b.revoke_write(4, 0),
];

/// 8,191 records, which are 1 + 2 + 4 + .. + 4,096, and one more.
fn filling(last: fn(&mut Builder) -> u16) -> Vec<u8> {
    let mut b = Builder::new();
    b.region(6, 1..=2, 3..=4);
    let mut commands = vec![tell(&mut b, 5, 1)];
    for power in 0..12 {
        let command = commands[power];
        commands.push(b.then(command, command));
    }
    commands.push(last(&mut b));
    let root = block(&mut b, &commands);
    b.program(0, root);
    b.book.encode()
}

#[cfg(test)]
mod tests {
    use super::super::Outcome;
    use super::*;
    use crate::run::Answer;

    #[test]
    fn the_last_record_needs_the_last_byte() {
        for case in cases() {
            let trace = case.lent.trace;
            let ended = match Outcome::of(&case).answer {
                Answer::Refused(refusal) => (refusal.number, 0),
                Answer::Ended { number, bytes, .. } => (number, bytes),
            };
            let expected = match trace % 8 {
                0 => (0, trace),
                7 => (30, trace - 7),
                _ => (1, 0),
            };
            assert_eq!(ended, expected);
        }
    }
}

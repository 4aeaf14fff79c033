//! Runs whose cells start with labels that an earlier run left.

use super::office::{
    amount, assign, block, clear, held, office, put, query, set, tell, when, A, B, C, CELL_A,
};
use super::stops::{fault, in_settings, Fault};
use super::Case;
use crate::book::kind;
use crate::builder::Builder;
use crate::places::{place, Places};

pub(super) fn cases() -> Vec<Case> {
    let mut cases: Vec<Case> = numbered().into_iter().map(|(_, case)| case).collect();
    cases.extend(passing().into_iter().map(Case::ample));
    cases.extend(rewritten().into_iter().map(Case::ample));
    cases
}

/// The cases that stop with a number.
fn numbered() -> Vec<(u32, Case)> {
    let faults = [variables(), cells(), outputs(), grants()];
    in_settings(faults.into_iter().flatten())
}

/// A cell of table 0, owner 0.
const fn cell(line: u8) -> [u8; 3] {
    [0, 0, line]
}

const PUBLIC: [u8; 3] = [7, 0, 0];
const ABSENT: [u8; 3] = [7, 1, 1];

fn places(keys: &[[u8; 3]]) -> Places {
    keys.iter().fold(Places::EMPTY, |places, key| {
        places.union(&Places::single(place(key[0], key[1], key[2])))
    })
}

const FULL: Places = Places([u64::MAX; 8]);

/// Label records for these cells, and for some that the settings write: one with
/// another's label, one with all places, and an absent one.
fn remember(b: &mut Builder, labels: &[([u8; 3], Places)]) {
    let mut all = labels.to_vec();
    all.extend([
        ([1, 0, 0], places(&[cell(B)])),
        ([2, 1, 1], FULL),
        ([2, 7, 7], places(&[[2, 7, 7], cell(C)])),
    ]);
    all.sort_by_key(|(key, _)| *key);
    for (key, label) in all {
        b.label(key, label);
    }
}

/// 25.
fn variables() -> Vec<Fault> {
    vec![
        fault(25, |b| {
            remember(b, &[(cell(A), places(&[cell(A), cell(B)]))]);
            let raise = b.raise(4, CELL_A);
            let secret = held(b, A);
            let assign = assign(b, 4, 1);
            let last = when(b, secret, assign);
            b.then(raise, last)
        }),
        fault(25, |b| {
            remember(b, &[(ABSENT, places(&[cell(B)]))]);
            let absent = query(b, kind::COUNT, 7, [1, 1, 1, 1]);
            let skip = b.skip();
            let raise = b.raise(15, CELL_A);
            b.choose(absent, skip, raise)
        }),
        fault(25, |b| {
            remember(b, &[(cell(B), FULL)]);
            let secret = held(b, B);
            let assign = assign(b, 0, 1);
            b.repeat(secret, assign)
        }),
    ]
}

/// 26: for a context, a key, and a cell that lost its own place.
fn cells() -> Vec<Fault> {
    vec![
        fault(26, |b| {
            remember(b, &[(cell(A), Places::EMPTY)]);
            let secret = held(b, C);
            let write = set(b, 0, [0, A.into()], 1);
            when(b, secret, write)
        }),
        fault(26, |b| {
            remember(b, &[(cell(B), places(&[cell(C)]))]);
            let secret = held(b, B);
            let write = clear(b, 0, [0, A.into()]);
            when(b, secret, write)
        }),
        fault(26, |b| {
            remember(b, &[(cell(A), places(&[cell(A), cell(B)]))]);
            let owner = held(b, A);
            b.put(0, owner, owner, owner)
        }),
        fault(26, |b| {
            let mut most = FULL;
            most.remove(&places(&[cell(B)]));
            remember(b, &[([0, 5, 5], most)]);
            let secret = held(b, B);
            let write = set(b, 0, [5, 5], 1);
            when(b, secret, write)
        }),
    ]
}

/// 27: for a present cell, an absent one, and a context.
fn outputs() -> Vec<Fault> {
    vec![
        fault(27, |b| {
            remember(b, &[(cell(A), places(&[cell(A), cell(B)]))]);
            let shown = held(b, A);
            b.out(1, shown)
        }),
        fault(27, |b| {
            remember(b, &[(cell(A), places(&[[3, 3, 3]]))]);
            let shown = held(b, A);
            b.out(1, shown)
        })
        .with_trace(0),
        fault(27, |b| {
            remember(b, &[(PUBLIC, FULL)]);
            let shown = amount(b, 7, 0, 0);
            b.out(6, shown)
        }),
        fault(27, |b| {
            remember(b, &[(ABSENT, places(&[cell(B)]))]);
            let shown = query(b, kind::COUNT, 7, [0, 7, 0, 7]);
            b.out(1, shown)
        }),
        fault(27, |b| {
            remember(b, &[(cell(A), places(&[cell(B)]))]);
            let secret = held(b, A);
            let out = tell(b, 1, 4);
            when(b, secret, out)
        }),
        fault(27, |b| {
            remember(b, &[(PUBLIC, places(&[PUBLIC, cell(C)]))]);
            let copied = amount(b, 7, 0, 0);
            let copy = put(b, 0, [0, A.into()], copied);
            let shown = held(b, A);
            let out = b.out(1, shown);
            b.then(copy, out)
        }),
    ]
}

/// 29: for what is in a public cell, and for an absent one.
fn grants() -> Vec<Fault> {
    vec![
        fault(29, |b| {
            remember(b, &[(PUBLIC, places(&[cell(A)]))]);
            let open = amount(b, 7, 0, 0);
            let grant = b.grant_read(1, 0);
            when(b, open, grant)
        }),
        fault(29, |b| {
            remember(b, &[(ABSENT, places(&[ABSENT, [6, 6, 6]]))]);
            let open = query(b, kind::COUNT, 7, [0, 7, 0, 7]);
            let revoke = b.revoke_write(5, 2);
            when(b, open, revoke)
        }),
    ]
}

/// Scripts that own places would stop, and labels let pass.
const PASSING: [fn(&mut Builder) -> u16; 8] = [
    |b| {
        remember(b, &[(cell(B), Places::EMPTY)]);
        let shown = held(b, B);
        b.out(2, shown)
    },
    |b| {
        remember(b, &[(cell(B), places(&[PUBLIC]))]);
        let shown = held(b, B);
        b.out(7, shown)
    },
    |b| {
        remember(b, &[(cell(C), places(&[cell(A)]))]);
        let shown = held(b, C);
        b.out(1, shown)
    },
    |b| {
        remember(b, &[([1, 3, 3], FULL)]);
        let secret = query(b, kind::SUM, 0, [0, 7, 0, 7]);
        let write = set(b, 1, [3, 3], 9);
        when(b, secret, write)
    },
    |b| {
        remember(b, &[([0, 0, 3], places(&[cell(A), cell(B)]))]);
        let secret = held(b, A);
        let write = clear(b, 0, [0, 3]);
        when(b, secret, write)
    },
    |b| {
        remember(b, &[(cell(A), Places::EMPTY)]);
        let open = held(b, A);
        let grant = b.grant_write(5, 0);
        when(b, open, grant)
    },
    |b| {
        remember(b, &[(cell(B), Places::EMPTY)]);
        let open = held(b, B);
        let assign = assign(b, 4, 3);
        when(b, open, assign)
    },
    |b| {
        remember(
            b,
            &[(cell(A), places(&[cell(B)])), (cell(B), Places::EMPTY)],
        );
        let owner = held(b, B);
        let line = held(b, A);
        let copy = b.put(2, owner, owner, line);
        let shown = query(b, kind::COUNT, 2, [2, 2, 2, 2]);
        let keep = b.assign(2, shown);
        b.then(copy, keep)
    },
];

fn passing() -> Vec<Vec<u8>> {
    let files = PASSING.into_iter().map(|make| {
        let mut b = office();
        let root = make(&mut b);
        b.program(0, root);
        b.book.encode()
    });
    files.collect()
}

/// A labelled cell, present or absent, is put, cleared or let be, and then shown
/// to user 1. What it was labelled by before no longer counts.
fn rewritten() -> Vec<Vec<u8>> {
    let labels = [
        Places::EMPTY,
        FULL,
        places(&[cell(A)]),
        places(&[cell(B)]),
        places(&[cell(A), cell(C)]),
    ];
    let mut files = Vec::new();
    for label in labels {
        for line in [A, C, 5] {
            for way in 0..4 {
                let mut b = office();
                remember(&mut b, &[(cell(line), label)]);
                let key = [0, line.into()];
                let copied = held(&mut b, A);
                let first = match way {
                    0 => b.skip(),
                    1 => set(&mut b, 0, key, 8),
                    2 => clear(&mut b, 0, key),
                    _ => put(&mut b, 0, key, copied),
                };
                let shown = query(&mut b, kind::SUM, 0, [0, 0, line.into(), line.into()]);
                let out = b.out(1, shown);
                let root = block(&mut b, &[first, out]);
                b.program(0, root);
                files.push(b.book.encode());
            }
        }
    }
    files
}

#[cfg(test)]
mod tests {
    use super::super::Outcome;
    use super::*;
    use crate::run::Answer;

    fn number_of(case: &Case) -> u32 {
        let Answer::Ended { number, .. } = Outcome::of(case).answer else {
            panic!("refused");
        };
        number
    }

    #[test]
    fn each_case_stops_with_its_number() {
        for (expected, case) in numbered() {
            assert_eq!(number_of(&case), expected);
        }
    }

    #[test]
    fn labels_let_scripts_pass() {
        for file in passing() {
            assert_eq!(number_of(&Case::ample(file)), 0);
        }
    }
}

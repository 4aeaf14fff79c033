//! Commands that stop a run with 22 to 30, each in many places of a book. (21
//! is met at every node by the sweeps; 31 has cases of its own.)

use super::office::{
    amount, assign, block, clear, constant, held, office, operate, put, query, set, tell,
    too_large, when, A, B, C, CELL_A, OPEN,
};
use super::Case;
use crate::book::{kind, Book};
use crate::builder::Builder;

/// A command that stops with a number, by the program or trigger of a user.
pub(super) struct Fault {
    number: u32,
    user: u8,
    trace: u32,
    make: fn(&mut Builder) -> u16,
}

pub(super) fn fault(number: u32, make: fn(&mut Builder) -> u16) -> Fault {
    Fault {
        number,
        user: 0,
        trace: 64,
        make,
    }
}

impl Fault {
    fn by(self, user: u8) -> Fault {
        Fault { user, ..self }
    }

    pub(super) fn with_trace(self, trace: u32) -> Fault {
        Fault { trace, ..self }
    }
}

pub(super) fn cases() -> Vec<Case> {
    numbered().into_iter().map(|(_, case)| case).collect()
}

/// The cases, each with the number that it stops with.
fn numbered() -> Vec<(u32, Case)> {
    let faults = [
        amounts(),
        children(),
        keys(),
        write_rights(),
        variables(),
        cells(),
        outputs(),
        grants(),
        traces(),
    ];
    in_settings(faults.into_iter().flatten())
}

/// Each of the commands in every setting that it may stand in, with its number.
pub(super) fn in_settings(faults: impl IntoIterator<Item = Fault>) -> Vec<(u32, Case)> {
    let mut cases = Vec::new();
    for fault in faults {
        for (number, setting) in SETTINGS.into_iter().enumerate() {
            let mut b = office();
            // So that it stops on another node in each setting.
            for _ in 0..number {
                b.skip();
            }
            let command = (fault.make)(&mut b);
            setting(&mut b, fault.user, command);
            let file = b.book.encode();
            // A body of a trigger may not reach every command.
            if Book::decode(&file).is_ok() {
                cases.push((fault.number, Case::ample(file).with_trace(fault.trace)));
            }
        }
    }
    cases
}

/// Ways to have a user run a command.
const SETTINGS: [fn(&mut Builder, u8, u16); 10] = [
    |b, user, command| b.program(user, command),
    |b, user, command| {
        let skip = b.skip();
        let root = b.then(skip, command);
        b.program(user, root);
    },
    |b, user, command| {
        let skip = b.skip();
        let root = b.then(command, skip);
        b.program(user, root);
    },
    |b, user, command| {
        let yes = constant(b, 1);
        let root = when(b, yes, command);
        b.program(user, root);
    },
    |b, user, command| {
        let no = constant(b, 0);
        let skip = b.skip();
        let root = b.choose(no, skip, command);
        b.program(user, root);
    },
    |b, user, command| {
        let yes = constant(b, -1);
        let root = b.repeat(yes, command);
        b.program(user, root);
    },
    |b, user, command| {
        let first = set(b, 2, [3, 3], 33);
        b.program(0, first);
        b.program(user, command);
    },
    |b, user, command| {
        let root = set(b, 1, [0, 0], 7);
        b.program(0, root);
        b.put_trigger(1, user, command);
    },
    |b, user, command| {
        let root = clear(b, 1, [0, 0]);
        b.program(0, root);
        let first = set(b, 2, [1, 1], 8);
        b.clear_trigger(1, 0, first);
        b.clear_trigger(1, user, command);
    },
    |b, user, command| {
        let root = set(b, 1, [0, 0], 7);
        b.program(0, root);
        let first = clear(b, 2, [1, 1]);
        b.put_trigger(1, 5, first);
        b.clear_trigger(2, user, command);
    },
];

/// 22, in what a command evaluates.
fn amounts() -> Vec<Fault> {
    vec![
        fault(22, |b| {
            let value = operate(b, kind::SUBTRACT, i32::MIN, 1);
            b.assign(0, value)
        }),
        fault(22, |b| {
            let condition = operate(b, kind::SUBTRACT, 0, i32::MIN);
            let skip = b.skip();
            b.choose(condition, skip, skip)
        }),
        fault(22, |b| {
            let test = too_large(b);
            let skip = b.skip();
            b.repeat(test, skip)
        }),
        fault(22, |b| {
            let bound = too_large(b);
            let zero = constant(b, 0);
            let value = b.query(kind::COUNT, 0, [zero, zero, zero, bound]);
            b.assign(0, value)
        }),
        fault(22, |b| {
            let [first, second] = [[6, 0], [6, 1]].map(|key| set(b, 1, key, i32::MAX));
            let sum = query(b, kind::SUM, 1, [6, 6, 0, 7]);
            let last = put(b, 1, [6, 2], sum);
            block(b, &[first, second, last])
        }),
    ]
}

/// 22, before whatever is wrong with the command itself.
fn children() -> Vec<Fault> {
    vec![
        fault(22, |b| {
            let value = too_large(b);
            let assign = b.assign(15, value);
            let secret = held(b, A);
            when(b, secret, assign)
        }),
        fault(22, |b| {
            let value = too_large(b);
            put(b, 4, [8, -1], value)
        }),
        fault(22, |b| {
            let owner = too_large(b);
            b.clear(4, owner, owner)
        }),
        fault(22, |b| {
            let value = too_large(b);
            let out = b.out(2, value);
            let secret = held(b, A);
            when(b, secret, out)
        })
        .with_trace(0),
    ]
}

/// 23, before 24 and 26.
fn keys() -> Vec<Fault> {
    vec![
        fault(23, |b| set(b, 0, [8, 0], 1)),
        fault(23, |b| set(b, 0, [-1, 0], 1)),
        fault(23, |b| set(b, 1, [0, 8], 1)),
        fault(23, |b| set(b, 1, [0, -1], 1)),
        fault(23, |b| set(b, 2, [i32::MIN, 0], 1)),
        fault(23, |b| set(b, 2, [0, i32::MAX], 1)),
        fault(23, |b| set(b, 2, [256, 256], 1)),
        fault(23, |b| clear(b, 0, [8, 7])),
        fault(23, |b| clear(b, 0, [7, 8])),
        fault(23, |b| clear(b, 2, [-1, -1])),
        fault(23, |b| {
            let secret = held(b, C);
            let write = set(b, 4, [9, 0], 1);
            when(b, secret, write)
        }),
    ]
}

/// 24, before 26.
fn write_rights() -> Vec<Fault> {
    vec![
        fault(24, |b| set(b, 4, [0, 0], 1)),
        fault(24, |b| clear(b, 4, [7, 7])),
        fault(24, |b| set(b, 7, [0, 0], 1)),
        fault(24, |b| set(b, 1, [0, 0], 1)).by(5),
        fault(24, |b| set(b, 0, [0, 0], 1)).by(1),
        fault(24, |b| set(b, 6, [1, 4], 1)).by(6),
        fault(24, |b| set(b, 6, [4, 5], 1)).by(6),
        fault(24, |b| clear(b, 6, [2, 3])).by(6),
        fault(24, |b| clear(b, 6, [3, 6])).by(6),
        fault(24, |b| {
            let key = held(b, A);
            b.clear(4, key, key)
        }),
        fault(24, |b| {
            let revoke = b.revoke_write(0, 1);
            let write = set(b, 1, [2, 2], 1);
            b.then(revoke, write)
        }),
    ]
}

/// 25.
fn variables() -> Vec<Fault> {
    vec![
        fault(25, |b| {
            let secret = held(b, A);
            let assign = assign(b, 4, 1);
            when(b, secret, assign)
        }),
        fault(25, |b| {
            let secret = held(b, B);
            let raise = b.raise(4, 0);
            when(b, secret, raise)
        }),
        fault(25, |b| {
            let raise = b.raise(4, CELL_A);
            let secret = held(b, B);
            let assign = assign(b, 4, 1);
            let last = when(b, secret, assign);
            b.then(raise, last)
        }),
        fault(25, |b| {
            let absent = query(b, kind::COUNT, 3, [0, 0, 0, 0]);
            let skip = b.skip();
            let assign = assign(b, 4, 1);
            b.choose(absent, skip, assign)
        }),
        fault(25, |b| {
            let secret = held(b, C);
            let assign = assign(b, 15, 1);
            b.repeat(secret, assign)
        }),
        fault(25, raise_in_public),
        fault(25, |b| {
            let secret = held(b, B);
            let assign = b.assign(4, secret);
            when(b, secret, assign)
        }),
        fault(25, forgotten_label),
    ]
}

/// What is public counts in a context as anything else.
fn raise_in_public(b: &mut Builder) -> u16 {
    let open = amount(b, 7, 0, 0);
    let raise = b.raise(4, OPEN);
    when(b, open, raise)
}

/// A variable labelled by A may be assigned in A's context, until an assignment
/// outside takes the label away.
fn forgotten_label(b: &mut Builder) -> u16 {
    let secret = held(b, A);
    let label = b.assign(4, secret);
    let assign = assign(b, 4, 0);
    let inside = when(b, secret, assign);
    block(b, &[label, inside, assign, inside])
}

/// 26.
fn cells() -> Vec<Fault> {
    vec![
        fault(26, |b| {
            let secret = held(b, A);
            let write = set(b, 0, [0, B.into()], 1);
            when(b, secret, write)
        }),
        fault(26, |b| {
            let secret = held(b, B);
            let write = clear(b, 0, [0, C.into()]);
            when(b, secret, write)
        }),
        fault(26, |b| {
            let owner = held(b, A);
            let line = constant(b, 0);
            b.put(1, owner, line, line)
        }),
        fault(26, |b| {
            let owner = constant(b, 0);
            let line = held(b, C);
            b.clear(2, owner, line)
        }),
        fault(26, |b| {
            let secret = held(b, A);
            let inner = set(b, 0, [0, A.into()], 9);
            let first = when(b, secret, inner);
            let other = held(b, B);
            let copy = put(b, 0, [0, A.into()], other);
            let last = when(b, other, inner);
            let third = held(b, C);
            let fault = when(b, third, inner);
            block(b, &[first, copy, last, fault])
        }),
        fault(26, relabelled_cell),
    ]
}

/// A cell whose new label no longer has its own place may not be written in a
/// context that has it.
fn relabelled_cell(b: &mut Builder) -> u16 {
    let secret = held(b, A);
    let keep = b.assign(4, secret);
    let open = set(b, 0, [0, A.into()], 5);
    let kept = b.variable(4);
    let again = clear(b, 0, [0, A.into()]);
    let last = when(b, kept, again);
    block(b, &[keep, open, last])
}

/// 27, before 30.
fn outputs() -> Vec<Fault> {
    vec![
        fault(27, |b| {
            let secret = held(b, B);
            b.out(1, secret)
        }),
        fault(27, |b| {
            let secret = held(b, A);
            b.out(2, secret)
        })
        .with_trace(7),
        fault(27, |b| {
            let secret = held(b, B);
            let out = tell(b, 1, 4);
            when(b, secret, out)
        })
        .with_trace(0),
        fault(27, |b| {
            let absent = amount(b, 5, 5, 5);
            b.out(1, absent)
        }),
        fault(27, |b| {
            let secret = query(b, kind::COUNT, 0, [0, 0, A.into(), B.into()]);
            b.out(1, secret)
        }),
        fault(27, |b| {
            let raise = b.raise(3, 2);
            let variable = b.variable(3);
            let out = b.out(0, variable);
            b.then(raise, out)
        }),
        fault(27, |b| {
            let revoke = b.revoke_read(1, CELL_A);
            let secret = held(b, A);
            let out = b.out(1, secret);
            b.then(revoke, out)
        }),
    ]
}

/// 28, before 29 and 30; 29, before 30.
fn grants() -> Vec<Fault> {
    let mut faults = Vec::new();
    for make in CHANGES {
        faults.push(fault(28, make).by(1));
        faults.push(fault(28, make).by(7).with_trace(0));
    }
    for make in SECRET_CHANGES {
        faults.push(fault(28, make).by(5).with_trace(0));
        faults.push(fault(29, make));
        faults.push(fault(29, make).with_trace(7));
    }
    faults
}

const CHANGES: [fn(&mut Builder) -> u16; 4] = [
    |b| b.grant_read(1, 0),
    |b| b.grant_write(1, 1),
    |b| b.revoke_read(1, CELL_A),
    |b| b.revoke_write(0, OPEN),
];

const SECRET_CHANGES: [fn(&mut Builder) -> u16; 4] = [
    |b| when_secret(b, CHANGES[0]),
    |b| when_secret(b, CHANGES[1]),
    |b| when_secret(b, CHANGES[2]),
    |b| when_secret(b, CHANGES[3]),
];

fn when_secret(b: &mut Builder, make: fn(&mut Builder) -> u16) -> u16 {
    let secret = held(b, A);
    let command = make(b);
    when(b, secret, command)
}

/// 30.
fn traces() -> Vec<Fault> {
    let mut faults = Vec::new();
    for make in CHANGES {
        faults.push(fault(30, make).with_trace(0));
        faults.push(fault(30, make).with_trace(7));
    }
    for trace in [0, 1, 7] {
        faults.push(fault(30, |b| tell(b, 6, -2)).with_trace(trace));
    }
    for trace in [8, 9, 15, 16, 23] {
        let many = |b: &mut Builder| {
            let commands = CHANGES.map(|make| make(b));
            let out = tell(b, 2, 3);
            block(b, &[out, commands[0], out, commands[2]])
        };
        faults.push(fault(30, many).with_trace(trace));
    }
    faults
}

#[cfg(test)]
mod tests {
    use super::super::Outcome;
    use super::*;
    use crate::run::Answer;

    #[test]
    fn each_case_stops_with_its_number() {
        for (expected, case) in numbered() {
            let answer = Outcome::of(&case).answer;
            let Answer::Ended { number, .. } = answer else {
                panic!("{expected}: {answer:?}");
            };
            assert_eq!(number, expected, "{answer:?}");
        }
    }
}

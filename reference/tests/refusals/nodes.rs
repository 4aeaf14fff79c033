//! Refusal 8: every field of every kind of node.

use crate::verdict;
use reference::book::{Book, Node};
use reference::builder::Builder;

/// Values a field accepts and values it refuses.
type Field = (&'static [u16], &'static [u16]);

// The node under test is number 4; 0 and 2 are expressions, 1 and 3 commands,
// and 5 comes later. There are two regions.
const UNUSED: Field = (&[0], &[1, 2, 256, 65_535]);
const EXPRESSION: Field = (&[0, 2], &[1, 3, 4, 5, 6, 65_535]);
const COMMAND: Field = (&[1, 3], &[0, 2, 4, 5, 6, 65_535]);
const REGION: Field = (&[0, 1], &[2, 256, 65_535]);
const RIGHT: Field = (&[1, 2], &[0, 3, 257, 65_535]);
const VARIABLE: Field = (&[0, 15], &[16, 255]);
const TABLE_OR_USER: Field = (&[0, 7], &[8, 255]);
const NO_P: Field = (&[0], &[1, 255]);

/// Kind, then what p, a, b, c and d accept.
const KINDS: [(u8, [Field; 5]); 21] = [
    (1, [NO_P, UNUSED, UNUSED, UNUSED, UNUSED]),
    (2, [VARIABLE, UNUSED, UNUSED, UNUSED, UNUSED]),
    (3, [NO_P, EXPRESSION, EXPRESSION, UNUSED, UNUSED]),
    (4, [NO_P, EXPRESSION, EXPRESSION, UNUSED, UNUSED]),
    (5, [NO_P, EXPRESSION, EXPRESSION, UNUSED, UNUSED]),
    (6, [NO_P, EXPRESSION, EXPRESSION, UNUSED, UNUSED]),
    (
        8,
        [
            TABLE_OR_USER,
            EXPRESSION,
            EXPRESSION,
            EXPRESSION,
            EXPRESSION,
        ],
    ),
    (
        9,
        [
            TABLE_OR_USER,
            EXPRESSION,
            EXPRESSION,
            EXPRESSION,
            EXPRESSION,
        ],
    ),
    (
        10,
        [
            TABLE_OR_USER,
            EXPRESSION,
            EXPRESSION,
            EXPRESSION,
            EXPRESSION,
        ],
    ),
    (
        11,
        [
            TABLE_OR_USER,
            EXPRESSION,
            EXPRESSION,
            EXPRESSION,
            EXPRESSION,
        ],
    ),
    (16, [NO_P, UNUSED, UNUSED, UNUSED, UNUSED]),
    (17, [VARIABLE, EXPRESSION, UNUSED, UNUSED, UNUSED]),
    (18, [NO_P, COMMAND, COMMAND, UNUSED, UNUSED]),
    (19, [NO_P, EXPRESSION, COMMAND, COMMAND, UNUSED]),
    (20, [NO_P, EXPRESSION, COMMAND, UNUSED, UNUSED]),
    (
        21,
        [TABLE_OR_USER, EXPRESSION, EXPRESSION, EXPRESSION, UNUSED],
    ),
    (22, [TABLE_OR_USER, EXPRESSION, EXPRESSION, UNUSED, UNUSED]),
    (23, [TABLE_OR_USER, EXPRESSION, UNUSED, UNUSED, UNUSED]),
    (24, [TABLE_OR_USER, REGION, RIGHT, UNUSED, UNUSED]),
    (25, [TABLE_OR_USER, REGION, RIGHT, UNUSED, UNUSED]),
    (26, [VARIABLE, REGION, UNUSED, UNUSED, UNUSED]),
];

const BAD: Option<(u32, u32)> = Some((8, 4));

fn book_with(node: Node) -> Book {
    let mut b = Builder::new();
    b.region(0, 0..=0, 0..=0);
    b.region(1, 0..=0, 0..=0);
    b.constant(0);
    b.skip();
    b.constant(0);
    b.skip();
    b.node(node);
    b.constant(0);
    b.book
}

fn node_of(kind: u8, [p, a, b, c, d]: [u16; 5], k: i32) -> Node {
    Node {
        kind,
        p: p as u8,
        a,
        b,
        c,
        d,
        k,
    }
}

fn check(kind: u8, values: [u16; 5], k: i32) -> Option<(u32, u32)> {
    verdict(&book_with(node_of(kind, values, k)).encode())
}

/// For each field, its lowest good value.
fn lowest(fields: &[Field; 5]) -> [u16; 5] {
    fields.map(|(good, _)| good[0])
}

#[test]
fn every_field_of_every_kind() {
    for (kind, fields) in KINDS {
        for (field, (good, bad)) in fields.into_iter().enumerate() {
            let mut values = lowest(&fields);
            for &value in good {
                values[field] = value;
                assert_eq!(check(kind, values, 0), None, "{kind} {values:?}");
            }
            for &value in bad {
                values[field] = value;
                assert_eq!(check(kind, values, 0), BAD, "{kind} {values:?}");
            }
        }
    }
}

#[test]
fn only_a_constant_has_k() {
    for k in [i32::MIN, -1, 1, i32::MAX] {
        for (kind, fields) in KINDS {
            let expected = if kind == 1 { None } else { BAD };
            assert_eq!(check(kind, lowest(&fields), k), expected, "{kind}");
        }
    }
}

#[test]
fn filler_is_zero() {
    for (kind, fields) in KINDS {
        let file = book_with(node_of(kind, lowest(&fields), 0)).encode();
        // Two regions of 8 bytes and four nodes of 16 come before.
        for at in [80 + 14, 80 + 15] {
            let mut changed = file.clone();
            changed[at] = 1;
            assert_eq!(verdict(&changed), BAD, "{kind}");
        }
    }
}

#[test]
fn other_kinds_are_bad() {
    let others = [0, 7, 12, 13, 14, 15].into_iter().chain(27..=255);
    for kind in others {
        assert_eq!(check(kind, [0; 5], 0), BAD, "{kind}");
    }
}

#[test]
fn the_first_node_has_no_lower_ones() {
    let mut b = Builder::new();
    b.operator(3, 0, 0);
    assert_eq!(verdict(&b.book.encode()), Some((8, 0)));
    let mut b = Builder::new();
    b.then(0, 0);
    assert_eq!(verdict(&b.book.encode()), Some((8, 0)));
}

#[test]
fn a_child_may_be_the_node_just_before() {
    let mut b = Builder::new();
    let one = b.constant(1);
    let sum = b.operator(3, one, one);
    let out = b.out(0, sum);
    b.then(out, out);
    assert_eq!(verdict(&b.book.encode()), None);
}

#[test]
fn the_last_node_is_looked_at() {
    let mut book = Book {
        nodes: vec![node_of(16, [0; 5], 0); 1_024],
        ..Book::default()
    };
    assert_eq!(verdict(&book.encode()), None);
    book.nodes[1_023].a = 1;
    assert_eq!(verdict(&book.encode()), Some((8, 1_023)));
}

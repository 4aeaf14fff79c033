//! Nodes: every field of every kind. Refusal 8.

use super::base::{node, with_byte};
use crate::book::{kind, Book, Node};
use crate::builder::Builder;

pub(super) fn files() -> Vec<Vec<u8>> {
    let kinds = (1..=6).chain(8..=11).chain(16..=26);
    let mut files: Vec<Vec<u8>> = kinds.flat_map(of_kind).collect();
    files.extend((0..=255).map(alone));
    files.extend([0, 7, 12, 15, 27, 255].into_iter().flat_map(of_no_kind));
    files.extend(region_limits());
    files
}

/// The number of the node under test; it is the last.
const TESTED: u16 = 4;

fn of_kind(kind: u8) -> Vec<Vec<u8>> {
    [narrow_fields(kind), wide_fields(kind), other_bytes(kind)].concat()
}

/// A good node of this kind, given an expression and a command. Fields that
/// have a limit are at their upper one.
fn good(kind: u8, e: u16, c: u16) -> Node {
    let (p, children) = match kind {
        kind::VARIABLE => (15, [0; 4]),
        kind::ADD..=kind::LESS => (0, [e, e, 0, 0]),
        kind::COUNT..=kind::LARGEST => (7, [e; 4]),
        kind::ASSIGN => (15, [e, 0, 0, 0]),
        kind::THEN => (0, [c, c, 0, 0]),
        kind::IF => (0, [e, c, c, 0]),
        kind::WHILE => (0, [e, c, 0, 0]),
        kind::PUT => (7, [e, e, e, 0]),
        kind::CLEAR => (7, [e, e, 0, 0]),
        kind::OUT => (7, [e, 0, 0, 0]),
        kind::GRANT | kind::REVOKE => (7, [1, 2, 0, 0]),
        kind::RAISE => (15, [1, 0, 0, 0]),
        _ => (0, [0; 4]),
    };
    node(kind, p, children)
}

/// A book with two regions, then four nodes of which the odd ones, or the even
/// ones, are commands, and then this one.
fn book_of(node: Node, even_commands: bool) -> Vec<u8> {
    let mut b = Builder::new();
    b.region(0, 0..=0, 0..=0);
    b.region(1, 0..=0, 0..=0);
    for number in 0..TESTED {
        if (number % 2 == 0) == even_commands {
            b.skip();
        } else {
            b.constant(0);
        }
    }
    b.node(node);
    b.book.encode()
}

/// The good node, and the field p at every limit.
fn narrow_fields(kind: u8) -> Vec<Vec<u8>> {
    let good = good(kind, 2, 3);
    [0, 1, 7, 8, 15, 16, 255]
        .into_iter()
        .map(|p| book_of(Node { p, ..good }, false))
        .collect()
}

/// Each of a to d with every number up to the node's own, whatever it means,
/// and with numbers that only the high byte tells from good ones. The sorts of
/// the lower nodes go both ways, so that the node just before is once an
/// expression and once a command.
fn wide_fields(kind: u8) -> Vec<Vec<u8>> {
    let mut files = Vec::new();
    for field in 0..4 {
        for value in (0..=TESTED).chain([256, 258, 259, 65_535]) {
            files.push(book_of(with_field(good(kind, 2, 3), field, value), false));
        }
        for value in 0..=TESTED {
            files.push(book_of(with_field(good(kind, 3, 2), field, value), true));
        }
    }
    files
}

fn with_field(mut node: Node, field: usize, value: u16) -> Node {
    let fields = [&mut node.a, &mut node.b, &mut node.c, &mut node.d];
    *fields[field] = value;
    node
}

/// Other values of k, and of the two last bytes.
fn other_bytes(kind: u8) -> Vec<Vec<u8>> {
    let good = good(kind, 2, 3);
    let mut files: Vec<Vec<u8>> = [1, -1, 256, 65_536, i32::MIN, i32::MAX]
        .into_iter()
        .map(|k| book_of(Node { k, ..good }, false))
        .collect();
    let file = book_of(good, false);
    let start = 16 + 16 * usize::from(TESTED);
    files.push(with_byte(&file, start + 14, 1));
    files.push(with_byte(&file, start + 15, 1));
    files.push(with_byte(&file, start + 15, 128));
    files
}

/// A node of any kind, without lower nodes and without regions.
fn alone(kind: u8) -> Vec<u8> {
    let mut book = Book::default();
    book.nodes.push(good(kind, 0, 0));
    book.encode()
}

/// A bad kind after lower nodes; and as a program's root and a trigger's body.
fn of_no_kind(kind: u8) -> Vec<Vec<u8>> {
    let bad = node(kind, 0, [0; 4]);
    let mut program = Builder::new();
    let root = program.node(bad);
    let mut trigger = program.clone();
    program.program(0, root);
    let region = trigger.region(0, 0..=0, 0..=0);
    trigger.put_trigger(region, 0, root);
    vec![
        book_of(bad, false),
        book_of(bad, true),
        program.book.encode(),
        trigger.book.encode(),
    ]
}

/// The last of 64 regions and one past it.
fn region_limits() -> Vec<Vec<u8>> {
    let mut files = Vec::new();
    for kind in [kind::GRANT, kind::REVOKE, kind::RAISE] {
        for region in [63, 64] {
            let mut b = Builder::new();
            for _ in 0..64 {
                b.region(0, 0..=0, 0..=0);
            }
            let right = if kind == kind::RAISE { 0 } else { 1 };
            b.node(node(kind, 0, [region, right, 0, 0]));
            files.push(b.book.encode());
        }
    }
    files
}

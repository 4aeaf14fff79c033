//! Which commands belong together.

use reference::book::{kind, Book};
use std::collections::BTreeSet;

/// The commands that are reached from these.
pub fn reached(book: &Book, mut waiting: Vec<u16>) -> BTreeSet<u16> {
    let mut reached = BTreeSet::new();
    while let Some(command) = waiting.pop() {
        if !reached.insert(command) {
            continue;
        }
        let node = book.nodes[usize::from(command)];
        match node.kind {
            kind::THEN => waiting.extend([node.a, node.b]),
            kind::IF => waiting.extend([node.b, node.c]),
            kind::WHILE => waiting.push(node.b),
            _ => (),
        }
    }
    reached
}

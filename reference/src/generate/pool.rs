//! The nodes of a book as they are made, children first.

use crate::book::{kind, Node};

/// The most nodes a book may have.
const MOST: usize = 1_024;

pub(super) struct Pool {
    pub(super) nodes: Vec<Node>,
    /// Constants made so far, to be shared.
    constants: Vec<(i32, u16)>,
    /// From this many nodes on no new command is begun. Those under way still
    /// need some, so it stays well below the most.
    enough: usize,
}

impl Pool {
    pub(super) fn new() -> Pool {
        Pool {
            nodes: Vec::new(),
            constants: Vec::new(),
            enough: 0,
        }
    }

    /// Says how many more nodes are enough.
    pub(super) fn allow(&mut self, more: usize) {
        self.enough = self.nodes.len() + more;
    }

    /// How many nodes may be made before there are enough.
    pub(super) fn room(&self) -> usize {
        self.enough.saturating_sub(self.nodes.len())
    }

    pub(super) fn push(&mut self, node: Node) -> u16 {
        self.nodes.push(node);
        (self.nodes.len() - 1) as u16
    }

    /// A constant's node: an old one if there is one.
    pub(super) fn constant(&mut self, k: i32) -> u16 {
        let old = self.constants.iter().find(|(value, _)| *value == k);
        if let Some(&(_, number)) = old {
            return number;
        }
        let number = self.push(Node {
            kind: kind::CONSTANT,
            k,
            ..Node::default()
        });
        self.constants.push((k, number));
        number
    }

    /// Adds nodes that nothing runs until the section is full.
    pub(super) fn fill(&mut self) {
        while self.nodes.len() < MOST {
            self.push(Node {
                kind: kind::SKIP,
                ..Node::default()
            });
        }
    }
}

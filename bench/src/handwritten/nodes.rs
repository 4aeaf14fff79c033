//! Nodes as they are run, and the stops on them.

use super::book::Book;

/// A node, decoded.
#[derive(Clone, Copy, Default)]
pub struct Node {
    pub number: u16,
    pub kind: u8,
    pub p: u8,
    pub a: u16,
    pub b: u16,
    pub c: u16,
    pub d: u16,
    pub k: i32,
}

/// A book's nodes; the places behind them are not used.
pub type Nodes = [Node; 1_024];

/// Decodes the nodes, once a run. Reading their fields from the file's bytes each
/// time was measured to be about 5 % slower.
pub fn decode(book: &Book) -> Nodes {
    let mut nodes = [Node::default(); 1_024];
    for (number, (node, record)) in nodes.iter_mut().zip(book.nodes).enumerate() {
        let field = |at| u16::from_le_bytes([record[at], record[at + 1]]);
        *node = Node {
            number: number as u16,
            kind: record[0],
            p: record[1],
            a: field(2),
            b: field(4),
            c: field(6),
            d: field(8),
            k: i32::from_le_bytes([record[10], record[11], record[12], record[13]]),
        };
    }
    nodes
}

/// A stop's number, above 16 bits for its node: as one word, it and the value of
/// an expression are handed up in the same register.
pub struct Stop(u32);

impl Node {
    /// The stop with this number, on this node.
    pub fn stop(&self, number: u16) -> Stop {
        Stop(u32::from(number) << 16 | u32::from(self.number))
    }
}

impl Stop {
    pub fn number(&self) -> u32 {
        self.0 >> 16
    }

    pub fn node(&self) -> u32 {
        self.0 & 0xFFFF
    }
}

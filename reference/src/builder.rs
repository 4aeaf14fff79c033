//! A book put together record by record, for tests and examples.

use crate::book::{kind, Book, Cell, LabelRecord, Node, Program, Region, Right, Trigger};
use crate::places::{place, Places};
use std::ops::RangeInclusive;

/// A book under construction. Each method adds one record; those that add a
/// node or region give its number. Nothing is checked.
#[derive(Clone, Debug, Default)]
pub struct Builder {
    pub book: Book,
}

impl Builder {
    pub fn new() -> Builder {
        Builder::default()
    }

    pub fn cell(&mut self, table: u8, owner: u8, line: u8, amount: i32) {
        self.book.cells.push(Cell {
            table,
            owner,
            line,
            amount,
        });
    }

    /// The label that a cell starts with; with it the book is of version 2.
    pub fn label(&mut self, [table, owner, line]: [u8; 3], label: Places) {
        let place = place(table, owner, line) as u16;
        let records = self.book.labels.get_or_insert_default();
        records.push(LabelRecord { place, label });
    }

    pub fn region(
        &mut self,
        table: u8,
        owners: RangeInclusive<u8>,
        lines: RangeInclusive<u8>,
    ) -> u8 {
        self.book.regions.push(Region {
            table,
            owner_first: *owners.start(),
            owner_last: *owners.end(),
            line_first: *lines.start(),
            line_last: *lines.end(),
        });
        (self.book.regions.len() - 1) as u8
    }

    pub fn public(&mut self, region: u8) {
        self.right(0, 0, region);
    }

    pub fn read(&mut self, user: u8, region: u8) {
        self.right(1, user, region);
    }

    pub fn write(&mut self, user: u8, region: u8) {
        self.right(2, user, region);
    }

    fn right(&mut self, kind: u8, user: u8, region: u8) {
        self.book.rights.push(Right { kind, user, region });
    }

    pub fn node(&mut self, node: Node) -> u16 {
        self.book.nodes.push(node);
        (self.book.nodes.len() - 1) as u16
    }

    fn kind(&mut self, kind: u8, p: u8, [a, b, c, d]: [u16; 4]) -> u16 {
        self.node(Node {
            kind,
            p,
            a,
            b,
            c,
            d,
            k: 0,
        })
    }

    pub fn constant(&mut self, k: i32) -> u16 {
        self.node(Node {
            kind: kind::CONSTANT,
            k,
            ..Node::default()
        })
    }

    pub fn variable(&mut self, variable: u8) -> u16 {
        self.kind(kind::VARIABLE, variable, [0; 4])
    }

    /// A sum, difference or comparison of two expressions.
    pub fn operator(&mut self, kind: u8, a: u16, b: u16) -> u16 {
        self.kind(kind, 0, [a, b, 0, 0])
    }

    /// A count, sum, smallest or largest; `bounds` are expressions for the
    /// first and last owner and the first and last line.
    pub fn query(&mut self, kind: u8, table: u8, bounds: [u16; 4]) -> u16 {
        self.kind(kind, table, bounds)
    }

    pub fn skip(&mut self) -> u16 {
        self.kind(kind::SKIP, 0, [0; 4])
    }

    pub fn assign(&mut self, variable: u8, expression: u16) -> u16 {
        self.kind(kind::ASSIGN, variable, [expression, 0, 0, 0])
    }

    pub fn then(&mut self, first: u16, second: u16) -> u16 {
        self.kind(kind::THEN, 0, [first, second, 0, 0])
    }

    pub fn choose(&mut self, condition: u16, nonzero: u16, zero: u16) -> u16 {
        self.kind(kind::IF, 0, [condition, nonzero, zero, 0])
    }

    pub fn repeat(&mut self, test: u16, body: u16) -> u16 {
        self.kind(kind::WHILE, 0, [test, body, 0, 0])
    }

    pub fn put(&mut self, table: u8, owner: u16, line: u16, amount: u16) -> u16 {
        self.kind(kind::PUT, table, [owner, line, amount, 0])
    }

    pub fn clear(&mut self, table: u8, owner: u16, line: u16) -> u16 {
        self.kind(kind::CLEAR, table, [owner, line, 0, 0])
    }

    pub fn out(&mut self, user: u8, expression: u16) -> u16 {
        self.kind(kind::OUT, user, [expression, 0, 0, 0])
    }

    pub fn grant_read(&mut self, user: u8, region: u8) -> u16 {
        self.kind(kind::GRANT, user, [region.into(), 1, 0, 0])
    }

    pub fn grant_write(&mut self, user: u8, region: u8) -> u16 {
        self.kind(kind::GRANT, user, [region.into(), 2, 0, 0])
    }

    pub fn revoke_read(&mut self, user: u8, region: u8) -> u16 {
        self.kind(kind::REVOKE, user, [region.into(), 1, 0, 0])
    }

    pub fn revoke_write(&mut self, user: u8, region: u8) -> u16 {
        self.kind(kind::REVOKE, user, [region.into(), 2, 0, 0])
    }

    pub fn raise(&mut self, variable: u8, region: u8) -> u16 {
        self.kind(kind::RAISE, variable, [region.into(), 0, 0, 0])
    }

    pub fn program(&mut self, user: u8, root: u16) {
        self.book.programs.push(Program { user, root });
    }

    /// A trigger that runs after puts.
    pub fn put_trigger(&mut self, region: u8, user: u8, body: u16) {
        self.trigger(region, 1, user, body);
    }

    /// A trigger that runs after clears.
    pub fn clear_trigger(&mut self, region: u8, user: u8, body: u16) {
        self.trigger(region, 2, user, body);
    }

    fn trigger(&mut self, region: u8, event: u8, user: u8, body: u16) {
        self.book.triggers.push(Trigger {
            region,
            event,
            user,
            body,
        });
    }
}

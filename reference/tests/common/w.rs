//! Book W.

use reference::book::{kind, Book};
use reference::builder::Builder;

pub fn book_w() -> Book {
    let mut b = Builder::new();
    b.cell(0, 1, 0, 250);
    b.cell(0, 2, 0, 900);
    let owner_1 = b.region(0, 1..=1, 0..=7);
    let owner_2 = b.region(0, 2..=2, 0..=7);
    b.read(1, owner_1);
    b.read(2, owner_2);
    let zero = b.constant(0);
    let one = b.constant(1);
    let two = b.constant(2);
    let seven = b.constant(7);
    let own = b.query(kind::SUM, 0, [one, one, zero, seven]);
    let both = b.query(kind::SUM, 0, [one, two, zero, seven]);
    let out_own = b.out(1, own);
    let out_both = b.out(1, both);
    let root = b.then(out_own, out_both);
    b.program(0, root);
    b.book
}

//! Books that nest as deep as the limits let them.

use super::world::amount;
use crate::book::Book;
use crate::builder::Builder;
use crate::random::Random;

pub(super) fn book(random: &mut Random) -> Book {
    let table = random.below(8) as u8;
    let key = random.below(8) as i32;
    let amount = amount(random);
    let length = random.pick(&[10, 100, 1_024]);
    let triggers = random.between(1, 8);
    nested(table, [key, amount], length, triggers)
}

/// One long chain of commands, with a write at its end, is the program and also
/// the body of every trigger, and the write sets all of them off. So the chain
/// nests within itself once for each trigger.
pub(crate) fn nested(table: u8, key_and_amount: [i32; 2], length: usize, triggers: usize) -> Book {
    let mut b = Builder::new();
    let everywhere = b.region(table, 0..=7, 0..=7);
    b.write(0, everywhere);
    let [key, amount] = key_and_amount.map(|k| b.constant(k));
    let skip = b.skip();
    let mut last = b.put(table, key, key, amount);
    while b.book.nodes.len() < length {
        last = b.then(skip, last);
    }
    b.program(0, last);
    for _ in 0..triggers {
        b.put_trigger(everywhere, 0, last);
    }
    b.book
}

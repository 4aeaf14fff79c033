//! Every refusal, with its number and index, at each limit and one past it.

mod labels;
mod lent;
mod nodes;
mod order;
mod records;
mod trailer;

use reference::book::{Book, Refusal};
use reference::builder::Builder;

/// An accepted book with at least three records in every section.
///
/// Nodes: 0 and 1 constants, 2 skip, 3 put, 4 while, 5 out.
fn sound() -> Book {
    let mut b = Builder::new();
    b.cell(0, 1, 2, 10);
    b.cell(0, 1, 3, 11);
    b.cell(5, 0, 0, 12);
    b.region(0, 0..=7, 0..=7);
    b.region(1, 2..=3, 4..=5);
    b.region(7, 7..=7, 0..=0);
    b.public(0);
    b.read(3, 1);
    b.write(7, 2);
    let zero = b.constant(0);
    let one = b.constant(1);
    let skip = b.skip();
    let put = b.put(0, zero, one, one);
    let repeat = b.repeat(zero, skip);
    let out = b.out(0, one);
    b.program(0, repeat);
    b.program(7, put);
    b.program(1, out);
    b.put_trigger(0, 0, skip);
    b.clear_trigger(1, 7, put);
    b.put_trigger(2, 3, put);
    b.book
}

/// The number and index of a file's refusal, if it has one.
fn verdict(file: &[u8]) -> Option<(u32, u32)> {
    match Book::decode(file) {
        Ok(_) => None,
        Err(Refusal { number, index }) => Some((number, index)),
    }
}

/// The verdict on the sound book after a change of its records.
fn after(change: impl FnOnce(&mut Book)) -> Option<(u32, u32)> {
    let mut book = sound();
    change(&mut book);
    verdict(&book.encode())
}

/// The verdict on the sound book with one byte of its file changed.
fn with_byte(at: usize, value: u8) -> Option<(u32, u32)> {
    let mut file = sound().encode();
    assert_ne!(file[at], value, "the byte is changed");
    file[at] = value;
    verdict(&file)
}

#[test]
fn the_sound_book_is_accepted() {
    let book = sound();
    assert_eq!(Book::decode(&book.encode()), Ok(book));
}

/// A naive walk over this book's commands would take 2 to the 1,023 steps.
#[test]
fn shared_children_are_looked_at_once() {
    let mut b = Builder::new();
    b.region(0, 0..=0, 0..=0);
    let mut root = b.skip();
    for _ in 0..1_023 {
        root = b.then(root, root);
    }
    assert_eq!(root, 1_023);
    b.program(0, root);
    for _ in 0..8 {
        b.put_trigger(0, 0, root);
    }
    assert_eq!(verdict(&b.book.encode()), None);
}

#[test]
fn a_barred_command_is_found_under_shared_children() {
    let mut b = Builder::new();
    b.region(0, 0..=0, 0..=0);
    let one = b.constant(1);
    let mut root = b.out(0, one);
    for _ in 0..1_022 {
        root = b.then(root, root);
    }
    b.program(0, root);
    assert_eq!(verdict(&b.book.encode()), None);
    b.put_trigger(0, 0, root);
    assert_eq!(verdict(&b.book.encode()), Some((10, 0)));
}

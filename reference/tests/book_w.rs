//! Book W, byte for byte.

#[path = "common/w.rs"]
mod w;

use reference::book::Book;
use reference::run_list::run_list;
use w::book_w;

#[rustfmt::skip]
const FILE: [u8; 224] = [
    // Cells.
    0, 1, 0, 0, 250, 0, 0, 0,
    0, 2, 0, 0, 0x84, 0x03, 0, 0,
    // Regions.
    0, 1, 1, 0, 7, 0, 0, 0,
    0, 2, 2, 0, 7, 0, 0, 0,
    // Rights.
    1, 1, 0, 0,
    1, 2, 1, 0,
    // Nodes.
    1, 0, 0, 0, 0, 0, 0, 0, 0, 0, 0, 0, 0, 0, 0, 0,
    1, 0, 0, 0, 0, 0, 0, 0, 0, 0, 1, 0, 0, 0, 0, 0,
    1, 0, 0, 0, 0, 0, 0, 0, 0, 0, 2, 0, 0, 0, 0, 0,
    1, 0, 0, 0, 0, 0, 0, 0, 0, 0, 7, 0, 0, 0, 0, 0,
    9, 0, 1, 0, 1, 0, 0, 0, 3, 0, 0, 0, 0, 0, 0, 0,
    9, 0, 1, 0, 2, 0, 0, 0, 3, 0, 0, 0, 0, 0, 0, 0,
    23, 1, 4, 0, 0, 0, 0, 0, 0, 0, 0, 0, 0, 0, 0, 0,
    23, 1, 5, 0, 0, 0, 0, 0, 0, 0, 0, 0, 0, 0, 0, 0,
    18, 0, 6, 0, 7, 0, 0, 0, 0, 0, 0, 0, 0, 0, 0, 0,
    // Program.
    0, 0, 8, 0,
    // Trailer.
    0x42, 0x4B, 0x57, 0x53, 1, 0, 0, 0,
    224, 0, 2, 0,
    208, 0, 2, 0,
    192, 0, 2, 0,
    184, 0, 9, 0,
    40, 0, 1, 0,
    36, 0, 0, 0,
    224, 0, 0, 0,
];

#[test]
fn records_encode_to_these_bytes() {
    assert_eq!(book_w().encode(), FILE);
}

#[test]
fn bytes_decode_to_these_records() {
    assert_eq!(Book::decode(&FILE), Ok(book_w()));
}

#[test]
fn distances_are_as_published() {
    let file = book_w().encode();
    let distances: Vec<u16> = (0..6)
        .map(|section| 196 + 4 * section)
        .map(|at| u16::from_le_bytes([file[at], file[at + 1]]))
        .collect();
    assert_eq!(distances, [224, 208, 192, 184, 40, 36]);
}

#[test]
fn run_list_prints_two_lines() {
    assert_eq!(run_list(&FILE), "out 1 250\nstop 27 7 19\n");
}

#[test]
fn the_example_is_this_file() {
    assert_eq!(include_bytes!("../../examples/w.book"), &FILE);
}

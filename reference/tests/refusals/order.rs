//! Two faults at once: the earlier number wins, then the earlier index.

use crate::{after, sound, verdict};

/// One fault for each of the refusals 2–10: the byte of the sound book's file
/// that it changes, and to what. From 5 on it is a filler byte of record 0.
const FAULTS: [(u32, usize, u8); 9] = [
    (2, 224, 0),
    (3, 192, 0),
    (4, 200, 0),
    (5, 3, 1),
    (6, 29, 1),
    (7, 51, 1),
    (8, 74, 1),
    (9, 157, 1),
    (10, 171, 1),
];

#[test]
fn the_earlier_number_wins() {
    for (first, at, value) in FAULTS {
        let mut file = sound().encode();
        file[at] = value;
        assert_eq!(verdict(&file), Some((first, 0)));
        for (second, at, value) in FAULTS {
            let mut both = file.clone();
            both[at] = value;
            assert_eq!(verdict(&both), Some((first.min(second), 0)));
        }
    }
}

#[test]
fn the_earlier_number_wins_at_a_later_index() {
    let verdict = after(|book| {
        book.cells[2].table = 8;
        book.regions[0].table = 8;
        book.nodes[0].kind = 0;
    });
    assert_eq!(verdict, Some((5, 2)));
}

#[test]
fn the_earlier_index_wins() {
    let verdict = after(|book| {
        book.cells[1].owner = 8;
        book.cells[2].owner = 8;
    });
    assert_eq!(verdict, Some((5, 1)));
    let verdict = after(|book| {
        book.nodes[3].kind = 0;
        book.nodes[5].kind = 0;
    });
    assert_eq!(verdict, Some((8, 3)));
    let verdict = after(|book| {
        book.triggers[0].user = 8;
        book.triggers[1].event = 0;
        book.triggers[2].body = 9;
    });
    assert_eq!(verdict, Some((10, 0)));
}

/// A node that names a bad node is not reached: the bad one is earlier.
#[test]
fn the_cause_comes_before_its_users() {
    let verdict = after(|book| book.nodes[1].kind = 7);
    assert_eq!(verdict, Some((8, 1)));
}

//! Version 2: its seventh pair, and label records. Refusals 3, 4 and 32.

use crate::{sound, verdict};
use reference::book::{Book, Cell, LabelRecord};
use reference::places::Places;

const REFUSED_4: Option<(u32, u32)> = Some((4, 0));

/// The label of two places.
fn both(one: usize, other: usize) -> Places {
    Places::single(one).union(&Places::single(other))
}

/// The sound book with labels for these places, each by itself and the next.
fn labelled(places: &[u16]) -> Book {
    let record = |&place: &u16| LabelRecord {
        place,
        label: both(usize::from(place) % 512, usize::from(place + 1) % 512),
    };
    Book {
        labels: Some(places.iter().map(record).collect()),
        ..sound()
    }
}

/// The verdict on a book with labels for these places after a change of one.
fn after(
    places: &[u16],
    index: usize,
    change: impl FnOnce(&mut LabelRecord),
) -> Option<(u32, u32)> {
    let mut book = labelled(places);
    change(&mut book.labels.as_mut().unwrap()[index]);
    verdict(&book.encode())
}

/// The file with a field of 16 bits, so far from its end, more by so much.
fn plus(mut file: Vec<u8>, from_end: usize, more: i16) -> Vec<u8> {
    let at = file.len() - from_end;
    let field = u16::from_le_bytes([file[at], file[at + 1]]).wrapping_add_signed(more);
    file[at..at + 2].copy_from_slice(&field.to_le_bytes());
    file
}

const FIVE: [u16; 5] = [0, 3, 100, 400, 511];

#[test]
fn labels_of_any_cells_are_accepted() {
    for places in [&[][..], &[0], &[511], &FIVE] {
        let book = labelled(places);
        assert_eq!(Book::decode(&book.encode()), Ok(book));
    }
}

#[test]
fn any_label_but_the_own_place_alone_is_accepted() {
    let mut all_but_own = Places([u64::MAX; 8]);
    all_but_own.remove(&Places::single(100));
    for label in [
        Places::EMPTY,
        Places([u64::MAX; 8]),
        all_but_own,
        both(100, 101),
        Places::single(101),
        Places::single(36),
    ] {
        assert_eq!(after(&FIVE, 2, |record| record.label = label), None);
    }
    let own = Places::single(100);
    assert_eq!(after(&FIVE, 2, |record| record.label = own), Some((32, 2)));
}

/// At the first, a middle and the last record, of five and of 512.
#[test]
fn each_fault_of_a_record_names_its_index() {
    let all: Vec<u16> = (0..512).collect();
    for places in [&FIVE[..], &all] {
        let last = places.len() - 1;
        for index in [0, last / 2, last] {
            let refused = Some((32, index as u32));
            for place in [512, 1_000, 32_768, 65_535] {
                let bad = after(places, index, |record| record.place = place);
                assert_eq!(bad, refused, "place {place}");
            }
            let own = Places::single(places[index].into());
            assert_eq!(after(places, index, |record| record.label = own), refused);
        }
        for index in [1, last / 2, last] {
            let before = places[index - 1];
            let refused = Some((32, index as u32));
            assert_eq!(
                after(places, index, |record| record.place = before),
                refused
            );
            let lower = before.saturating_sub(1);
            assert_eq!(after(places, index, |record| record.place = lower), refused);
        }
    }
}

#[test]
fn the_seventh_pair_is_exact() {
    for places in [&[9][..], &FIVE] {
        let file = labelled(places).encode();
        for more in [1, -1, 66, -66, 256, i16::MIN] {
            assert_eq!(verdict(&plus(file.clone(), 40, more)), REFUSED_4);
            assert_eq!(verdict(&plus(file.clone(), 38, more)), REFUSED_4);
        }
        let shorter = plus(plus(file, 40, -66), 38, -1);
        assert_eq!(verdict(&shorter), REFUSED_4);
    }
}

#[test]
fn there_are_at_most_512_labels() {
    let mut all: Vec<u16> = (0..512).collect();
    assert_eq!(verdict(&labelled(&all).encode()), None);
    all.push(512);
    assert_eq!(verdict(&labelled(&all).encode()), REFUSED_4);
}

/// A file of version 2 and this length: zeros, the seventh pair as far as it
/// fits, and a trailer that counts no records.
fn short(length: usize) -> Vec<u8> {
    let mut file = Book {
        labels: Some(Vec::new()),
        ..Book::default()
    }
    .encode();
    while file.len() < length {
        file.insert(0, 0);
    }
    file.drain(..file.len() - length);
    for distance in (8..=28).step_by(4) {
        let at = length - distance;
        file[at..at + 2].copy_from_slice(&(length as u16).to_le_bytes());
    }
    file[length - 4..].copy_from_slice(&(length as u32).to_le_bytes());
    file
}

#[test]
fn the_shortest_has_40_bytes() {
    assert_eq!(verdict(&short(35)), Some((2, 0)));
    for length in 36..40 {
        assert_eq!(verdict(&short(length)), REFUSED_4, "{length} bytes");
    }
    assert_eq!(verdict(&short(40)), None);
    for length in 41..45 {
        assert_eq!(verdict(&short(length)), REFUSED_4, "{length} bytes");
    }
}

#[test]
fn the_longest_has_55176_bytes() {
    let mut book = labelled(&(0..512).collect::<Vec<u16>>());
    book.cells = (0..512)
        .map(|place: usize| Cell {
            table: (place / 64) as u8,
            owner: (place / 8 % 8) as u8,
            line: (place % 8) as u8,
            amount: 1,
        })
        .collect();
    book.regions.resize(64, book.regions[0]);
    book.rights.resize(64, book.rights[0]);
    book.nodes.resize(1_024, book.nodes[0]);
    book.programs.resize(8, book.programs[0]);
    book.triggers.resize(8, book.triggers[0]);
    let file = book.encode();
    assert_eq!(file.len(), 55_176);
    assert_eq!(verdict(&file), None);
}

/// The version tells whether there is a seventh pair.
#[test]
fn a_pair_belongs_to_its_version() {
    for version in [0, 1, 3, 255] {
        let mut file = labelled(&FIVE).encode();
        let at = file.len() - 32;
        file[at] = version;
        let expected = if version == 1 {
            REFUSED_4
        } else {
            Some((3, 0))
        };
        assert_eq!(verdict(&file), expected, "version {version}");
    }
    let mut file = sound().encode();
    let at = file.len() - 32;
    file[at] = 2;
    assert_eq!(verdict(&file), REFUSED_4);
}

#[test]
fn labels_come_last() {
    let bad = |change: fn(&mut Book)| {
        let mut book = labelled(&FIVE);
        book.labels.as_mut().unwrap()[0].place = 512;
        change(&mut book);
        verdict(&book.encode())
    };
    assert_eq!(bad(|_| {}), Some((32, 0)));
    assert_eq!(bad(|book| book.triggers[2].user = 8), Some((10, 2)));
    assert_eq!(bad(|book| book.programs[2].user = 8), Some((9, 2)));
    assert_eq!(bad(|book| book.nodes[5].kind = 0), Some((8, 5)));
    assert_eq!(bad(|book| book.cells[2].table = 8), Some((5, 2)));
    let records = book_with_two_faults();
    assert_eq!(verdict(&records), Some((32, 1)));
    assert_eq!(verdict(&plus(records, 38, 1)), REFUSED_4);
}

fn book_with_two_faults() -> Vec<u8> {
    let mut book = labelled(&FIVE);
    let labels = book.labels.as_mut().unwrap();
    labels[1].label = Places::single(3);
    labels[4].place = 600;
    book.encode()
}

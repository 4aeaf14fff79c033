//! Refusals 2–4: the file's length, the trailer's opening, the sections.

use crate::{sound, verdict, with_byte};
use reference::book::{Book, Cell, Node, Program, Region, Right, Trigger};

const REFUSED_2: Option<(u32, u32)> = Some((2, 0));
const REFUSED_3: Option<(u32, u32)> = Some((3, 0));
const REFUSED_4: Option<(u32, u32)> = Some((4, 0));

/// The sound book: 24 + 24 + 12 + 96 + 12 + 24 bytes of records, then 36.
const LENGTH: usize = 228;
const TRAILER: usize = 192;

/// A trailer without records, for a file of the given length.
fn empty_trailer(length: usize) -> Vec<u8> {
    let mut trailer = b"BKWS\x01\0\0\0".to_vec();
    for _ in 0..6 {
        trailer.extend((length as u16).to_le_bytes());
        trailer.extend([0, 0]);
    }
    trailer.extend((length as u32).to_le_bytes());
    trailer
}

#[test]
fn empty_book_is_36_bytes() {
    let file = Book::default().encode();
    assert_eq!(file, empty_trailer(36));
    assert_eq!(verdict(&file), None);
}

#[test]
fn shorter_files_are_refused() {
    assert_eq!(verdict(&[]), REFUSED_2);
    assert_eq!(verdict(&empty_trailer(35)[1..]), REFUSED_2);
}

#[test]
fn length_60_000_passes_and_one_more_is_refused() {
    let mut file = vec![0; 59_964];
    file.extend(empty_trailer(60_000));
    assert_eq!(verdict(&file), REFUSED_4, "only the sections are wrong");
    let mut file = vec![0; 59_965];
    file.extend(empty_trailer(60_001));
    assert_eq!(verdict(&file), REFUSED_2);
}

#[test]
fn truncated_and_lengthened_files_are_refused() {
    let file = sound().encode();
    assert_eq!(file.len(), LENGTH);
    for length in 0..LENGTH {
        assert_eq!(verdict(&file[..length]), REFUSED_2, "first {length} bytes");
    }
    for start in 1..LENGTH {
        assert_eq!(verdict(&file[start..]), REFUSED_2, "from byte {start}");
    }
    for more in 1..=40 {
        let mut longer = file.clone();
        longer.resize(LENGTH + more, 0);
        assert_eq!(verdict(&longer), REFUSED_2, "{more} bytes more");
    }
}

#[test]
fn length_field_counts_every_byte() {
    for (at, value) in [
        (LENGTH - 4, 227),
        (LENGTH - 4, 229),
        (LENGTH - 3, 1),
        (LENGTH - 2, 1),
        (LENGTH - 1, 1),
    ] {
        assert_eq!(with_byte(at, value), REFUSED_2, "byte {at}");
    }
}

#[test]
fn mark_version_and_zeros_are_fixed() {
    for at in TRAILER..TRAILER + 4 {
        let value = sound().encode()[at] ^ 0x20;
        assert_eq!(with_byte(at, value), REFUSED_3, "mark byte {at}");
    }
    assert_eq!(with_byte(TRAILER + 4, 0), REFUSED_3);
    assert_eq!(with_byte(TRAILER + 4, 3), REFUSED_3);
    assert_eq!(with_byte(TRAILER + 4, 255), REFUSED_3);
    for at in TRAILER + 5..TRAILER + 8 {
        assert_eq!(with_byte(at, 1), REFUSED_3, "zero byte {at}");
    }
}

#[test]
fn distances_and_counts_are_exact() {
    for at in (TRAILER + 8..TRAILER + 32).step_by(2) {
        let low = sound().encode()[at];
        assert_eq!(with_byte(at, low + 1), REFUSED_4, "field {at} up");
        assert_eq!(with_byte(at, low - 1), REFUSED_4, "field {at} down");
        assert_eq!(with_byte(at + 1, 1), REFUSED_4, "field {at} high byte");
    }
}

/// One cell fewer and one region more end at the same byte, but then the
/// regions do not start where their distance says.
#[test]
fn sections_start_where_the_one_before_ends() {
    let mut file = sound().encode();
    file[TRAILER + 10] -= 1;
    file[TRAILER + 14] += 1;
    assert_eq!(verdict(&file), REFUSED_4);
}

fn cell(place: usize) -> Cell {
    Cell {
        table: (place / 64) as u8,
        owner: (place / 8 % 8) as u8,
        line: (place % 8) as u8,
        amount: -1,
    }
}

const REGION: Region = Region {
    table: 0,
    owner_first: 0,
    owner_last: 7,
    line_first: 0,
    line_last: 7,
};
const RIGHT: Right = Right {
    kind: 2,
    user: 1,
    region: 63,
};
const SKIP: Node = Node {
    kind: 16,
    p: 0,
    a: 0,
    b: 0,
    c: 0,
    d: 0,
    k: 0,
};
const PROGRAM: Program = Program {
    user: 0,
    root: 1_023,
};
const TRIGGER: Trigger = Trigger {
    region: 63,
    event: 1,
    user: 0,
    body: 1_023,
};

fn full() -> Book {
    Book {
        cells: (0..512).map(cell).collect(),
        regions: vec![REGION; 64],
        rights: vec![RIGHT; 64],
        nodes: vec![SKIP; 1_024],
        programs: vec![PROGRAM; 8],
        triggers: vec![TRIGGER; 8],
        labels: None,
    }
}

#[test]
fn every_section_may_be_full() {
    let file = full().encode();
    assert_eq!(file.len(), 21_380);
    assert_eq!(verdict(&file), None);
}

#[test]
fn no_section_holds_one_more() {
    let one_more: [fn(&mut Book); 6] = [
        |book| book.cells.push(cell(511)),
        |book| book.regions.push(REGION),
        |book| book.rights.push(RIGHT),
        |book| book.nodes.push(SKIP),
        |book| book.programs.push(PROGRAM),
        |book| book.triggers.push(TRIGGER),
    ];
    for (section, add) in one_more.into_iter().enumerate() {
        let mut book = full();
        add(&mut book);
        assert_eq!(verdict(&book.encode()), REFUSED_4, "section {section}");
    }
}

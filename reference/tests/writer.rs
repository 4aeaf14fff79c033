//! Writing a book back.

#[path = "common/w.rs"]
mod w;

use reference::book::{Book, Cell, LabelRecord, Refusal};
use reference::places::Places;
use reference::writer::{write, Written};
use w::book_w;

const UNTOUCHED: u8 = 0xAA;

/// The label words with which each cell is labelled by its own place alone.
fn own_labels() -> Vec<u64> {
    (0..512).flat_map(|place| Places::single(place).0).collect()
}

/// The writer's answer and its output of the given length.
fn written(file: &[u8], amounts: &[i32], presence: &[u64], length: usize) -> (Written, Vec<u8>) {
    let mut out = vec![UNTOUCHED; length];
    let answer = write(file, amounts, presence, &own_labels(), &mut out);
    (answer, out)
}

/// The same with these labels, no cells and an output that is long enough.
fn with_labels(file: &[u8], labels: &[u64]) -> (Written, Vec<u8>) {
    let mut out = vec![UNTOUCHED; 60_000];
    let answer = write(file, &[0; 512], &[0; 8], labels, &mut out);
    (answer, out)
}

fn assert_refused(number: u32, index: u32, (answer, out): (Written, Vec<u8>)) {
    assert_eq!(answer, Written::Refused(Refusal { number, index }));
    assert!(out.iter().all(|&byte| byte == UNTOUCHED));
}

#[test]
fn replaces_the_cells_and_keeps_the_rest() {
    let mut amounts = [0; 512];
    amounts[8] = -1;
    amounts[300] = 77;
    amounts[511] = i32::MIN;
    let mut presence = [0; 8];
    presence[0] = 1 << 8;
    presence[4] = 1 << 44;
    presence[7] = 1 << 63;
    let (answer, out) = written(&book_w().encode(), &amounts, &presence, 60_000);
    assert_eq!(answer, Written::Length(236));
    let cell = |table, owner, line, amount| Cell {
        table,
        owner,
        line,
        amount,
    };
    let mut expected = book_w();
    expected.labels = Some(Vec::new());
    expected.cells = vec![
        cell(0, 1, 0, -1),
        cell(4, 5, 4, 77),
        cell(7, 7, 7, i32::MIN),
    ];
    assert_eq!(Book::decode(&out[..236]), Ok(expected));
    assert!(out[236..].iter().all(|&byte| byte == UNTOUCHED));
}

#[test]
fn drops_amounts_without_presence_and_keeps_present_zeros() {
    let mut presence = [0; 8];
    presence[0] = 1;
    let mut amounts = [9; 512];
    amounts[0] = 0;
    let (answer, out) = written(&book_w().encode(), &amounts, &presence, 60_000);
    assert_eq!(answer, Written::Length(220));
    let book = Book::decode(&out[..220]).unwrap();
    let zero = Cell {
        table: 0,
        owner: 0,
        line: 0,
        amount: 0,
    };
    assert_eq!(book.cells, [zero]);
}

#[test]
fn writes_none_and_all_cells() {
    let file = book_w().encode();
    let (answer, _) = written(&file, &[5; 512], &[0; 8], 60_000);
    assert_eq!(answer, Written::Length(212));
    let (answer, out) = written(&file, &[5; 512], &[u64::MAX; 8], 60_001);
    assert_eq!(answer, Written::Length(4_308));
    assert_eq!(Book::decode(&out[..4_308]).unwrap().cells.len(), 512);
}

/// 4 bytes more than version 1 has.
#[test]
fn book_w_written_back_has_228_bytes() {
    let mut amounts = [0; 512];
    (amounts[8], amounts[16]) = (250, 900);
    let presence = [1 << 8 | 1 << 16, 0, 0, 0, 0, 0, 0, 0];
    let (answer, out) = written(&book_w().encode(), &amounts, &presence, 60_000);
    assert_eq!(answer, Written::Length(228));
    let expected = Book {
        labels: Some(Vec::new()),
        ..book_w()
    };
    assert_eq!(out[..228], expected.encode());
}

/// Cells that are absent keep their labels too, and of those labels only the own
/// place alone has no record.
#[test]
fn writes_a_record_for_each_other_label() {
    let others = [
        (0, Places::EMPTY),
        (8, Places::single(16)),
        (300, Places::single(300).union(&Places::single(301))),
        (511, Places([u64::MAX; 8])),
    ];
    let mut labels = own_labels();
    for (place, label) in others {
        labels[8 * place..8 * place + 8].copy_from_slice(&label.0);
    }
    for book in [book_w(), full_of_labels(book_w())] {
        let (answer, out) = with_labels(&book.encode(), &labels);
        assert_eq!(answer, Written::Length(212 + 4 * 66));
        let written = Book::decode(&out[..212 + 4 * 66]).unwrap();
        let records = others.map(|(place, label)| LabelRecord {
            place: place as u16,
            label,
        });
        assert_eq!(written.labels, Some(records.to_vec()));
    }
}

fn full_of_labels(book: Book) -> Book {
    let labels = (0..512).map(|place| LabelRecord {
        place,
        label: Places::EMPTY,
    });
    Book {
        labels: Some(labels.collect()),
        ..book
    }
}

#[test]
fn writes_none_and_all_labels() {
    let file = full_of_labels(book_w()).encode();
    let (answer, out) = with_labels(&file, &own_labels());
    assert_eq!(answer, Written::Length(212));
    assert_eq!(Book::decode(&out[..212]).unwrap().labels, Some(Vec::new()));
    let length = 212 + 512 * 66;
    let (answer, out) = with_labels(&book_w().encode(), &[0; 4_096]);
    assert_eq!(answer, Written::Length(length as u32));
    let written = Book::decode(&out[..length]).unwrap();
    assert_eq!(written.labels.unwrap().len(), 512);
}

#[test]
fn refuses_other_lengths_of_labels() {
    let file = book_w().encode();
    for length in [0, 8, 512, 4_095, 4_097, 4_104] {
        assert_refused(1, 0, with_labels(&file, &vec![0; length]));
        assert_refused(1, 0, with_labels(&[], &vec![0; length]));
    }
}

#[test]
fn refuses_other_lengths() {
    let file = book_w().encode();
    let amounts = [0; 513];
    let presence = [0; 9];
    for length in [0, 224, 59_999] {
        assert_refused(1, 0, written(&file, &amounts[1..], &presence[1..], length));
    }
    assert_refused(1, 0, written(&file, &amounts[2..], &presence[1..], 60_000));
    assert_refused(1, 0, written(&file, &amounts, &presence[1..], 60_000));
    assert_refused(1, 0, written(&file, &amounts[1..], &presence[2..], 60_000));
    assert_refused(1, 0, written(&file, &amounts[1..], &presence, 60_000));
    assert_refused(1, 0, written(&[], &amounts, &presence, 60_000));
}

#[test]
fn refuses_what_a_run_refuses() {
    let file = book_w().encode();
    let out = |file: &[u8]| written(file, &[0; 512], &[0; 8], 60_000);
    assert_refused(2, 0, out(&file[1..]));
    let mut bad_node = file;
    bad_node[40 + 16 * 8] = 7;
    assert_refused(8, 8, out(&bad_node));
}

//! The books at the edges of the run-list program, and the lines that they give,
//! worked out by hand.

use reference::book::Book;
use reference::edges::files;
use reference::run_list::run_list;

/// The file of this name.
fn file(name: &str) -> Vec<u8> {
    let (_, bytes) = files()
        .into_iter()
        .find(|(other, _)| *other == name)
        .unwrap();
    bytes
}

/// A line for each number from 1 to 512, told to user 1.
fn told() -> String {
    (1..=512)
        .map(|number| format!("out 1 {number}\n"))
        .collect()
}

/// 12,499 turns of 8, a last test of 4 and a step of 4 are 100,000. The skip is
/// node 7, and its cost of 1 is not added.
#[test]
fn the_budget_is_100000() {
    assert_eq!(run_list(&file("edge_cost_100000.book")), "done 100000\n");
    assert_eq!(
        run_list(&file("edge_cost_100001.book")),
        "stop 21 7 100000\n"
    );
}

/// A turn costs 11: its test 4, the then 1, the step 4, the out 2. 512 turns and
/// the last test cost 5,636. The 513th turn has spent its 11 when the out, node
/// 7, finds the trace full.
#[test]
fn the_trace_holds_512_records() {
    assert_eq!(
        run_list(&file("edge_trace_512.book")),
        told() + "done 5636\n"
    );
    assert_eq!(
        run_list(&file("edge_trace_513.book")),
        told() + "stop 30 7 5643\n"
    );
}

/// The longer file begins with the other, so that it is seen if a program reads
/// less than all of it.
#[test]
fn a_file_is_read_to_the_end() {
    let longest = file("edge_length_60000.book");
    let longer = file("edge_length_60001.book");
    assert_eq!((longest.len(), longer.len()), (60_000, 60_001));
    assert_eq!(longer[..60_000], longest);
    assert_eq!(run_list(&longest), "refused 4 0\n");
    assert_eq!(run_list(&longer), "refused 2 0\n");
    assert_eq!(run_list(&longest[..59_999]), "refused 2 0\n");
}

#[test]
fn the_other_files_are_books() {
    for (name, bytes) in &files()[..4] {
        assert!(Book::decode(bytes).is_ok(), "{name}");
    }
}

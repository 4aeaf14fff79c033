//! The books that nest deepest.

use reference::book::Book;
use reference::deepest::{book, Link};
use reference::run::on_deep_stack;
use reference::run_list::run_list;

/// A link and its constant or skip cost 2, and there are 1,012 in a chain. A
/// put with what it evaluates costs 10, and so do the three nodes after the
/// chain: 9 · (2 · 1,012 + 10) + 10.
#[test]
fn each_runs_to_its_end() {
    for link in [Link::If, Link::Then] {
        let book = book(link);
        assert_eq!(book.counts(), [0, 9, 2, 1_024, 1, 8, 0]);
        assert_eq!(Book::decode(&book.encode()).as_ref(), Ok(&book));
        let lines = on_deep_stack(|| run_list(&book.encode()));
        assert_eq!(lines, "out 0 9\ndone 18316\n", "{link:?}");
    }
}

//! Short books with every budget from 0 to the whole cost and one more, and
//! with every length of trace.

use super::scripts::books;
use super::Case;
use crate::book::Book;
use crate::generate;
use crate::random::Random;

pub(super) fn cases() -> Vec<Case> {
    let mut cases = Vec::new();
    for book in books() {
        cases.extend(budgets(&book));
        cases.extend(traces(&book));
    }
    for book in (0..).filter_map(small).take(15) {
        cases.extend(budgets(&book));
    }
    cases
}

/// A random book that is short, runs for a while, and ends by itself.
fn small(seed: u64) -> Option<Book> {
    // Other seeds than those of the sample.
    let book = generate::book(&mut Random::new((2 << 32) + seed));
    let short = book.encode().len() <= 450;
    (short && (20..=60).contains(&spent(&book).0)).then_some(book)
}

/// The cost and the trace bytes of an accepted book, with ample budget and
/// trace.
fn spent(book: &Book) -> (u32, u32) {
    Case::ample(book.encode()).spent()
}

fn budgets(book: &Book) -> Vec<Case> {
    let (cost, _) = spent(book);
    (0..=cost + 1)
        .map(|budget| Case::ample(book.encode()).with_budget(budget))
        .collect()
}

/// Every length up to one record more than is written.
fn traces(book: &Book) -> Vec<Case> {
    let (_, bytes) = spent(book);
    if bytes == 0 {
        return Vec::new();
    }
    (0..=bytes + 8)
        .map(|trace| Case::ample(book.encode()).with_trace(trace))
        .collect()
}

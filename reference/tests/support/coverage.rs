//! Counting what a sample of runs met. A sample that meets too little would
//! pass every check and say nothing.

use super::Lent;
use reference::book::{kind, Book};

#[derive(Debug, Default)]
pub struct Coverage {
    pub runs: usize,
    /// Runs by answer number.
    pub answers: [usize; 32],
    /// Runs of books that have a node of the kind.
    pub kinds: [usize; 27],
    /// Runs that wrote a trace.
    pub with_trace: usize,
    /// Runs that wrote a cell.
    pub with_writes: usize,
    /// Runs of books in which one trigger's body can set off another trigger.
    pub with_nests: usize,
}

impl Coverage {
    pub fn count(&mut self, book: &Book, lent: &Lent) {
        self.runs += 1;
        self.answers[lent.ended.number as usize] += 1;
        let mut present = [false; 27];
        for node in &book.nodes {
            present[usize::from(node.kind)] = true;
        }
        for (count, present) in self.kinds.iter_mut().zip(present) {
            *count += usize::from(present);
        }
        self.with_trace += usize::from(!lent.trace().is_empty());
        self.with_writes += usize::from(wrote(lent));
        self.with_nests += usize::from(nests(book));
    }

    /// Fails unless every kind of node and every answer came up this often.
    pub fn demand(&self, kind_runs: usize, answer_runs: usize) {
        let kinds = (1..=6).chain(8..=11).chain(16..=26);
        for kind in kinds {
            assert!(self.kinds[kind] >= kind_runs, "kind {kind}: {self:?}");
        }
        for answer in std::iter::once(0).chain(21..=31) {
            let runs = self.answers[answer];
            assert!(runs >= answer_runs, "answer {answer}: {self:?}");
        }
    }
}

/// Whether some label is not the cell's own place any more, as after most writes.
fn wrote(lent: &Lent) -> bool {
    (0..512).any(|place| {
        let own = 1_u64 << (place % 64);
        lent.label(place)
            .iter()
            .enumerate()
            .any(|(table, &word)| word != if table == place / 64 { own } else { 0 })
    })
}

/// Whether a trigger's body writes to the table of a later trigger with the
/// same event.
fn nests(book: &Book) -> bool {
    book.triggers.iter().enumerate().any(|(number, trigger)| {
        let mut reached = vec![false; usize::from(trigger.body) + 1];
        reached[usize::from(trigger.body)] = true;
        (0..reached.len()).rev().any(|index| {
            if !reached[index] {
                return false;
            }
            let node = &book.nodes[index];
            let (commands, event): (&[u16], u8) = match node.kind {
                kind::THEN => (&[node.a, node.b], 0),
                kind::IF => (&[node.b, node.c], 0),
                kind::PUT => (&[], 1),
                kind::CLEAR => (&[], 2),
                _ => (&[], 0),
            };
            for &child in commands {
                reached[usize::from(child)] = true;
            }
            book.triggers[number + 1..].iter().any(|later| {
                let region = &book.regions[usize::from(later.region)];
                later.event == event && region.table == node.p
            })
        })
    })
}

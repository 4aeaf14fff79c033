//! One book: with and without labels, and with more budget and trace.

use super::coverage::Coverage;
use super::{Ended, Lent, Limits};
use reference::book::Book;
use reference::generate;
use reference::notation::list;
use reference::random::Random;
use reference::run::Tests;

/// Memory for two runs, and counts over all books tried.
pub struct Singles {
    labelled: Lent,
    other: Lent,
    pub coverage: Coverage,
    /// Books of which the run was compared with one without triggers.
    pub without_triggers: usize,
    /// Those of them whose triggers made a difference in cost.
    pub triggers_ran: usize,
}

impl Singles {
    pub fn new() -> Singles {
        Singles {
            labelled: Lent::new(),
            other: Lent::new(),
            coverage: Coverage::default(),
            without_triggers: 0,
            triggers_ran: 0,
        }
    }

    pub fn check(&mut self, seed: u64) -> Result<(), String> {
        let mut random = Random::new(seed);
        let book = generate::often_failing(&mut random);
        let file = book.encode();
        let limits = Limits::random(&mut random);
        self.labelled
            .run(&mut random, &book, &file, limits, Tests::Labelled)?;
        self.coverage.count(&book, &self.labelled);
        self.other
            .run(&mut random, &book, &file, limits, Tests::Unlabelled)?;
        self.compare_unlabelled()
            .map_err(|difference| self.report(&book, "unlabelled", &difference))?;
        let wider = limits.widened(&mut random);
        self.other
            .run(&mut random, &book, &file, wider, Tests::Labelled)?;
        self.compare_wider()
            .map_err(|difference| self.report(&book, "wider", &difference))?;
        self.count_triggers(&mut random, book, limits)
    }

    /// Without labels a run goes the same way, up to a test on labels that the
    /// labelled run stops for.
    fn compare_unlabelled(&self) -> Result<(), String> {
        if self.labelled.ended.for_labels() {
            return self.compare_begun();
        }
        self.compare_whole()
    }

    /// With more budget and trace a run goes the same way, up to a stop for want
    /// of them.
    fn compare_wider(&self) -> Result<(), String> {
        if matches!(self.labelled.ended.number, 21 | 30) {
            return self.compare_begun();
        }
        if self.labelled.memory.labels != self.other.memory.labels {
            return Err("labels".to_string());
        }
        self.compare_whole()
    }

    fn compare_begun(&self) -> Result<(), String> {
        if self.other.ended.cost < self.labelled.ended.cost {
            return Err("cost".to_string());
        }
        match self.other.trace().starts_with(self.labelled.trace()) {
            true => Ok(()),
            false => Err("trace".to_string()),
        }
    }

    fn compare_whole(&self) -> Result<(), String> {
        let (one, other) = (&self.labelled, &self.other);
        let same = [
            ("answer", one.ended == other.ended),
            ("trace", one.trace() == other.trace()),
            ("amounts", one.memory.amounts == other.memory.amounts),
            ("presence", one.memory.presence == other.memory.presence),
        ];
        match same.iter().find(|(_, same)| !same) {
            Some((what, _)) => Err(what.to_string()),
            None => Ok(()),
        }
    }

    /// Now and then runs the book without its triggers, to see that they matter.
    fn count_triggers(
        &mut self,
        random: &mut Random,
        mut book: Book,
        limits: Limits,
    ) -> Result<(), String> {
        if book.triggers.is_empty() || random.chance(90) {
            return Ok(());
        }
        book.triggers.clear();
        let file = book.encode();
        self.other
            .run(random, &book, &file, limits, Tests::Labelled)?;
        self.without_triggers += 1;
        self.triggers_ran += usize::from(self.other.ended.cost != self.labelled.ended.cost);
        Ok(())
    }

    fn report(&self, book: &Book, run: &str, difference: &str) -> String {
        let (one, other): (Ended, Ended) = (self.labelled.ended, self.other.ended);
        let text = list(book);
        format!("{difference} differs\nlabelled: {one:?}\n{run}: {other:?}\n{text}")
    }
}

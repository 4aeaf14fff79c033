//! Two books that differ only in what a group cannot reach, side by side.

use super::coverage::Coverage;
use super::{Lent, Limits};
use reference::book::{kind, Book};
use reference::generate;
use reference::notation::list;
use reference::places::Places;
use reference::random::Random;
use reference::run::Tests;

const OUT: u8 = 1;
const READ_GRANTED: u8 = 2;

/// Memory for both runs, and counts over all pairs tried.
pub struct Pairs {
    first: Lent,
    second: Lent,
    pub coverage: Coverage,
    pub tried: usize,
    /// Pairs of which both finished, with something for the group to see.
    pub finished_with_trace: usize,
    /// Pairs of which one stopped, with something for the group to see in both.
    pub stopped_with_trace: usize,
    /// Pairs of which both finished, at different costs: a secret changed the
    /// way of the run.
    pub diverged: usize,
    /// Pairs of which a test on labels stopped at least one.
    pub stopped_for_labels: usize,
    /// Pairs of which at least one took a posting back.
    pub taken_back: usize,
    /// Pairs of which at least one asked for the smallest or largest of nothing.
    pub of_nothing: usize,
    /// Those of them of which only one did.
    pub of_nothing_once: usize,
    /// Pairs of two books of version 1, of one of each, and of two of version 2.
    pub versions: [usize; 3],
    /// Pairs whose labels at the start differ.
    pub relabelled: usize,
}

/// What a second book may differ in.
#[derive(Clone, Copy, PartialEq)]
enum Differing {
    Cells,
    CellsAndLabels,
}

impl Pairs {
    pub fn new() -> Pairs {
        Pairs {
            first: Lent::new(),
            second: Lent::new(),
            coverage: Coverage::default(),
            tried: 0,
            finished_with_trace: 0,
            stopped_with_trace: 0,
            diverged: 0,
            stopped_for_labels: 0,
            taken_back: 0,
            of_nothing: 0,
            of_nothing_once: 0,
            versions: [0; 3],
            relabelled: 0,
        }
    }

    /// Makes and runs the book of this seed, and compares it with others.
    pub fn check(&mut self, seed: u64) -> Result<(), String> {
        let mut random = Random::new(seed);
        let book = generate::often_failing(&mut random);
        self.check_book(&mut random, &book, Differing::Cells)
    }

    /// The same with a book of either version, and with others that may be of
    /// the other version, or start with other labels.
    pub fn check_versions(&mut self, seed: u64) -> Result<(), String> {
        let mut random = Random::new(seed);
        let book = generate::of_either_version(&mut random);
        self.check_book(&mut random, &book, Differing::CellsAndLabels)
    }

    fn check_book(
        &mut self,
        random: &mut Random,
        book: &Book,
        differing: Differing,
    ) -> Result<(), String> {
        let limits = Limits::random(random);
        self.first
            .run(random, book, &book.encode(), limits, Tests::Labelled)?;
        self.coverage.count(book, &self.first);
        let others = self.others();
        (0..others).try_for_each(|_| self.check_pair(random, book, differing))
    }

    /// How many books to compare the first one with: more after the ends of which
    /// many pairs are asked for.
    fn others(&self) -> usize {
        let first = &self.first;
        match first.ended {
            ended if ended.of_nothing() => 8,
            _ if first.took_back() => 4,
            ended if ended.for_labels() => 3,
            _ if first.finished() => 2,
            _ => 1,
        }
    }

    /// Makes and runs a book that differs in what some group cannot reach; then
    /// says what differs that the group must not see differ.
    fn check_pair(
        &mut self,
        random: &mut Random,
        book: &Book,
        differing: Differing,
    ) -> Result<(), String> {
        let group = group(random, book);
        let reach = reach(book, group, self.first.trace());
        let mut other = generate::altered(random, book, &reach);
        if differing == Differing::CellsAndLabels {
            other = generate::relabelled(random, &other, &reach);
        }
        self.versions[usize::from(book.version() + other.version() - 2)] += 1;
        self.relabelled += usize::from(book.start_labels() != other.start_labels());
        let limits = Limits::random(random);
        self.second
            .run(random, &other, &other.encode(), limits, Tests::Labelled)?;
        self.count(group);
        self.compare(group, &reach)
            .map_err(|difference| self.report(book, &other, group, &difference))
    }

    fn compare(&self, group: u8, reach: &Places) -> Result<(), String> {
        let finished = self.first.finished() && self.second.finished();
        compare_traces([self.first.trace(), self.second.trace()], group, finished)?;
        match finished {
            true => compare_cells(&self.first, &self.second, reach),
            false => Ok(()),
        }
    }

    fn count(&mut self, group: u8) {
        let (one, other) = (&self.first, &self.second);
        self.tried += 1;
        let trace = [one, other].map(|lent| seen(lent.trace(), group).next().is_some());
        let finished = one.finished() && other.finished();
        self.finished_with_trace += usize::from(finished && trace[0]);
        self.stopped_with_trace += usize::from(!finished && trace[0] && trace[1]);
        self.diverged += usize::from(finished && one.ended.cost != other.ended.cost);
        let for_labels = one.ended.for_labels() || other.ended.for_labels();
        self.stopped_for_labels += usize::from(for_labels);
        self.taken_back += usize::from(one.took_back() || other.took_back());
        let of_nothing = [one, other].map(|lent| lent.ended.of_nothing());
        self.of_nothing += usize::from(of_nothing[0] || of_nothing[1]);
        self.of_nothing_once += usize::from(of_nothing[0] != of_nothing[1]);
    }

    fn report(&self, book: &Book, other: &Book, group: u8, difference: &str) -> String {
        format!(
            "group {group:08b} sees a difference: {difference}\n\
             first: {:?}\n{}\nsecond: {:?}\n{}",
            self.first.ended,
            list(book),
            self.second.ended,
            list(other)
        )
    }
}

/// Says which record differs, if of what a group sees of two traces neither
/// begins the other; or that they are not the same, where both runs finished.
pub fn compare_traces(traces: [&[u8]; 2], group: u8, finished: bool) -> Result<(), String> {
    let [first, second] = traces;
    // Pairing ends with the shorter trace.
    let pairs = seen(first, group).zip(seen(second, group));
    for (index, (one, other)) in pairs.enumerate() {
        if one != other {
            return Err(format!("record {index}: {one:?} and {other:?}"));
        }
    }
    let counts = traces.map(|trace| seen(trace, group).count());
    match finished && counts[0] != counts[1] {
        true => Err(format!("finished with {counts:?} records")),
        false => Ok(()),
    }
}

/// Says which cell differs of those whose label ends inside the reach in either
/// run.
pub fn compare_cells(one: &Lent, other: &Lent, reach: &Places) -> Result<(), String> {
    let agrees = |&place: &usize| {
        let inside = |lent: &Lent| {
            let mut words = lent.label(place).iter().zip(&reach.0);
            words.all(|(word, reach)| word & !reach == 0)
        };
        let same = one.holds(place) == other.holds(place)
            && one.amount(place) == other.amount(place)
            && one.label(place) == other.label(place);
        same || !(inside(one) || inside(other))
    };
    match (0..512).find(|place| !agrees(place)) {
        Some(place) => Err(format!("cell at place {place}")),
        None => Ok(()),
    }
}

/// A set of users, user n as bit n: any at all, or few users with one that the
/// book may show something to.
pub fn group(random: &mut Random, book: &Book) -> u8 {
    match random.below(10) {
        0 => return 0,
        1..=2 => return random.word() as u8,
        _ => {}
    }
    let others = random.word() & random.word() & random.word();
    for _ in 0..20.min(book.nodes.len()) {
        let node = random.pick(&book.nodes);
        if node.kind == kind::OUT {
            return others as u8 | 1 << node.p;
        }
    }
    others as u8
}

fn has(group: u8, user: u8) -> bool {
    group >> user & 1 == 1
}

/// The records of a trace that a group sees.
pub fn seen(trace: &[u8], group: u8) -> impl Iterator<Item = &[u8]> {
    trace
        .chunks_exact(8)
        .filter(move |record| record[0] != OUT || has(group, record[1]))
}

/// The places that a group can come to read in the run with this trace.
pub fn reach(book: &Book, group: u8, trace: &[u8]) -> Places {
    let mut reach = Places::EMPTY;
    let mut add = |region: u8| {
        reach.add(&Places::of_region(&book.regions[usize::from(region)]));
    };
    for right in &book.rights {
        if right.kind == 0 || (right.kind == 1 && has(group, right.user)) {
            add(right.region);
        }
    }
    for record in trace.chunks_exact(8) {
        if record[0] == READ_GRANTED && has(group, record[1]) {
            add(record[2]);
        }
    }
    reach
}

//! Two chains of days that begin with books which differ only in what a group
//! cannot reach in any of the first chain's days.

use super::pairs::{compare_cells, compare_traces, group, reach, seen};
use super::{Lent, Limits};
use reference::book::Book;
use reference::generate;
use reference::notation::list;
use reference::places::Places;
use reference::random::Random;
use reference::run::{run, Answer, Tests};
use reference::writer::written;

/// A budget that is refused.
const TOO_MUCH: u32 = 1_000_001;

/// One day: a file, from which all but the first day of a chain takes everything
/// but the cells and labels; and its records, if it is accepted.
struct Day {
    file: Vec<u8>,
    book: Option<Book>,
}

impl Day {
    /// A file that is now and then damaged.
    fn new(random: &mut Random, book: Book) -> Day {
        if !random.chance(2) {
            return Day {
                file: book.encode(),
                book: Some(book),
            };
        }
        let file = generate::damaged(random, &book);
        let book = Book::decode(&file).ok();
        Day { file, book }
    }
}

/// Memory for the days of a chain, and what they came to.
struct Chain {
    lent: Lent,
    /// The traces of all days one after the other.
    trace: Vec<u8>,
    /// Where the trace of each day that was run ends.
    ends: Vec<usize>,
    /// Whether no day stopped or was refused.
    finished: bool,
    /// Whether a day after the first had label records to read.
    read_labels: bool,
    /// The answer of the day that stopped, if one did.
    stop: u32,
}

impl Chain {
    fn new() -> Chain {
        Chain {
            lent: Lent::new(),
            trace: Vec::new(),
            ends: Vec::new(),
            finished: false,
            read_labels: false,
            stop: 0,
        }
    }

    /// Runs the days up to the first stop or refusal, each with its own budget
    /// and trace length. The first day's cells and labels are those of `first`.
    fn run(&mut self, random: &mut Random, first: &Day, days: &[Day]) -> Result<(), String> {
        self.trace.clear();
        self.ends.clear();
        (self.finished, self.read_labels, self.stop) = (false, false, 0);
        for (number, day) in days.iter().enumerate() {
            let file = match number {
                0 => Ok(first.file.clone()),
                _ => written(&day.file, &self.lent.memory),
            };
            let (Ok(file), Some(book)) = (file, &day.book) else {
                return self.refused_day(random, &day.file, 0);
            };
            if random.below(300) == 0 {
                return self.refused_day(random, &file, TOO_MUCH);
            }
            if number > 0 {
                // Where the number of label records stands.
                self.read_labels |= file[file.len() - 38..file.len() - 36] != [0, 0];
            }
            let limits = Limits::random(random);
            self.lent
                .run(random, book, &file, limits, Tests::Labelled)?;
            self.trace.extend(self.lent.trace());
            self.ends.push(self.trace.len());
            self.stop = self.lent.ended.number;
            if !self.lent.finished() {
                return Ok(());
            }
        }
        self.finished = true;
        Ok(())
    }

    /// A day that is refused adds nothing.
    fn refused_day(&mut self, random: &mut Random, file: &[u8], budget: u32) -> Result<(), String> {
        self.lent.soil(random, 64);
        match run(file, budget, &mut self.lent.memory, Tests::Labelled) {
            Answer::Refused(_) => Ok(()),
            answer => Err(format!("not refused: {answer:?}")),
        }
    }

    /// The trace of each day that was run.
    fn traces(&self) -> impl Iterator<Item = &[u8]> {
        let starts = std::iter::once(0).chain(self.ends.iter().copied());
        starts
            .zip(&self.ends)
            .map(|(start, &end)| &self.trace[start..end])
    }

    /// What the group comes to read in the days that were run.
    fn reach(&self, group: u8, days: &[Day]) -> Places {
        let mut all = Places::EMPTY;
        for (day, trace) in days.iter().zip(self.traces()) {
            if let Some(book) = &day.book {
                all.add(&reach(book, group, trace));
            }
        }
        all
    }

    /// Whether the group sees something that a day after the first shows.
    fn shows_later(&self, group: u8) -> bool {
        let mut later = self.traces().skip(1);
        later.any(|trace| seen(trace, group).next().is_some())
    }
}

/// Both chains, and counts over all pairs tried.
pub struct Chains {
    first: Chain,
    second: Chain,
    pub counts: Counts,
}

/// How many pairs of chains met what.
#[derive(Debug, Default)]
pub struct Counts {
    pub tried: usize,
    /// By the number of days that both were to have.
    pub lengths: [usize; 5],
    /// Both ran a second day.
    pub second_days: usize,
    /// A day after the first had label records to read, in at least one.
    pub read_labels: usize,
    /// The first days' books are not the same.
    pub differing: usize,
    /// Those of `read_labels` in which the first days' books differ.
    pub read_and_differing: usize,
    /// The first days' books are of different versions.
    pub mixed_versions: usize,
    /// At least one stopped on a day after the first, by number from 25 to 29.
    pub later_stops: [usize; 5],
    /// Both finished, after two days or more.
    pub finished: usize,
    /// Those of them in which the group sees something of a later day.
    pub finished_with_later_trace: usize,
    /// One or both were refused on some day.
    pub refused: usize,
}

impl Chains {
    pub fn new() -> Chains {
        Chains {
            first: Chain::new(),
            second: Chain::new(),
            counts: Counts::default(),
        }
    }

    /// Makes the days of this seed, runs them, and compares the chain with
    /// others.
    pub fn check(&mut self, seed: u64) -> Result<(), String> {
        let mut random = Random::new(seed);
        let count = random.weighted(&[(1, 1), (12, 2), (5, 3), (2, 4)]);
        let mut days = Vec::with_capacity(count);
        for book in generate::days(&mut random, count) {
            days.push(Day::new(&mut random, book));
        }
        self.first.run(&mut random, &days[0], &days)?;
        let others = match (self.first.read_labels, self.first.ends.len()) {
            (true, _) => 4,
            (false, 0..=1) => 1,
            _ => 2,
        };
        (0..others).try_for_each(|_| self.check_pair(&mut random, &days))
    }

    /// Runs the days from another first book; then says what differs that the
    /// group must not see differ.
    fn check_pair(&mut self, random: &mut Random, days: &[Day]) -> Result<(), String> {
        let Some(book) = &days[0].book else {
            return Ok(());
        };
        let shown = random.pick(&(0..days.len()).collect::<Vec<_>>());
        let group = group(random, days[shown].book.as_ref().unwrap_or(book));
        let reach = self.first.reach(group, days);
        let altered = generate::altered(random, book, &reach);
        let other = generate::relabelled(random, &altered, &reach);
        let first = Day {
            file: other.encode(),
            book: None,
        };
        self.second.run(random, &first, days)?;
        self.count(group, days.len(), book, &other);
        self.compare(group, &reach)
            .map_err(|difference| report(days, &other, group, &difference))
    }

    fn compare(&self, group: u8, reach: &Places) -> Result<(), String> {
        let (one, other) = (&self.first, &self.second);
        let finished = one.finished && other.finished;
        compare_traces([&one.trace, &other.trace], group, finished)?;
        match finished {
            true => compare_cells(&one.lent, &other.lent, reach),
            false => Ok(()),
        }
    }

    fn count(&mut self, group: u8, length: usize, book: &Book, other_book: &Book) {
        let counts = &mut self.counts;
        let both = [&self.first, &self.second];
        let add = |count: &mut usize, met: bool| *count += usize::from(met);
        let differing = book != other_book;
        let read_labels = both.iter().any(|chain| chain.read_labels);
        counts.tried += 1;
        counts.lengths[length] += 1;
        let second_days = both.iter().all(|chain| chain.ends.len() >= 2);
        add(&mut counts.second_days, second_days);
        add(&mut counts.read_labels, read_labels);
        add(&mut counts.differing, differing);
        add(&mut counts.read_and_differing, read_labels && differing);
        let mixed = book.version() != other_book.version();
        add(&mut counts.mixed_versions, mixed);
        for (number, stops) in (25..).zip(&mut counts.later_stops) {
            let stopped = |chain: &&Chain| chain.ends.len() >= 2 && chain.stop == number;
            add(stops, both.iter().any(stopped));
        }
        let finished = both.iter().all(|chain| chain.finished) && length >= 2;
        add(&mut counts.finished, finished);
        let shown = finished && self.first.shows_later(group);
        add(&mut counts.finished_with_later_trace, shown);
        let refused = |chain: &&Chain| !chain.finished && chain.stop == 0;
        add(&mut counts.refused, both.iter().any(refused));
    }
}

fn report(days: &[Day], other: &Book, group: u8, difference: &str) -> String {
    let mut text = format!("group {group:08b} sees a difference: {difference}\n");
    for book in days.iter().filter_map(|day| day.book.as_ref()) {
        text += &format!("a day:\n{}", list(book));
    }
    text + &format!("the other first day:\n{}", list(other))
}

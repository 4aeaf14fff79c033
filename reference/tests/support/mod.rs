//! Running generated books in lent memory.

pub mod chains;
#[path = "../common/commands.rs"]
mod commands;
pub mod coverage;
pub mod pairs;
pub mod postings;
pub mod reasons;
pub mod singles;

use reference::book::Book;
use reference::notation::list;
use reference::places::Places;
use reference::random::Random;
use reference::run::{carry_out, Answer, Explained, Failed, Memory, Tests};

/// What a call is given beside the book.
#[derive(Clone, Copy, Debug)]
pub struct Limits {
    pub budget: u32,
    pub trace: usize,
}

impl Limits {
    /// Ample for most books; sometimes so little that the run stops for it.
    pub fn random(random: &mut Random) -> Limits {
        let budget = match random.below(1_000) {
            0..=59 => random.below(60),
            60..=119 => random.below(400),
            120..=989 => 2_500,
            990..=998 => random.below(30_000),
            _ => random.below(1_000_001),
        };
        let trace = match random.below(100) {
            0..=6 => random.below(50),
            7..=98 => random.between(400, 2_000),
            _ => random.below(65_537),
        };
        Limits {
            budget: budget as u32,
            trace,
        }
    }

    /// At least as much of both.
    pub fn widened(self, random: &mut Random) -> Limits {
        Limits {
            budget: (self.budget + random.below(2_000) as u32).min(1_000_000),
            trace: (self.trace + random.below(200)).min(65_536),
        }
    }
}

/// How an accepted book's run ended, and why if that was for labels.
#[derive(Clone, Copy, Debug, Default, PartialEq, Eq)]
pub struct Ended {
    pub number: u32,
    pub node: u32,
    pub cost: u32,
    pub bytes: u32,
    pub place: Option<usize>,
    pub count: usize,
}

impl Ended {
    fn of(explained: &Explained) -> Result<Ended, String> {
        match explained.answer {
            Answer::Refused(refusal) => Err(format!("{refusal:?}")),
            Answer::Ended {
                number,
                node,
                cost,
                bytes,
            } => Ok(Ended {
                number,
                node,
                cost,
                bytes,
                place: explained.place(),
                count: explained.count(),
            }),
        }
    }

    /// Whether a test on labels stopped the run.
    pub fn for_labels(&self) -> bool {
        is_for_labels(self.number)
    }

    /// Whether the run asked for the smallest or largest of nothing.
    pub fn of_nothing(&self) -> bool {
        self.number == 31
    }

    /// Whether a reason is given where there has to be one, and only there.
    fn is_explained(&self) -> bool {
        match self.place {
            Some(place) => self.for_labels() && (1..=512 - place).contains(&self.count),
            None => !self.for_labels() && self.count == 0,
        }
    }
}

/// Whether a number is that of a test on labels.
pub fn is_for_labels(number: u32) -> bool {
    matches!(number, 25 | 26 | 27 | 29)
}

/// Memory for one run after another, and how the last one ended.
pub struct Lent {
    pub memory: Memory,
    pub ended: Ended,
    /// The cells that the last run took back.
    pub taken_back: Places,
    /// What the trace was filled with before the run.
    junk: u8,
}

impl Lent {
    pub fn new() -> Lent {
        Lent {
            memory: Memory::new(0),
            ended: Ended::default(),
            taken_back: Places::EMPTY,
            junk: 0,
        }
    }

    /// The trace bytes that the last run wrote.
    pub fn trace(&self) -> &[u8] {
        &self.memory.trace[..self.ended.bytes as usize]
    }

    pub fn finished(&self) -> bool {
        self.ended.number == 0
    }

    /// Whether the last run took a posting back that had changed a cell.
    pub fn took_back(&self) -> bool {
        self.taken_back != Places::EMPTY
    }

    /// Leaves arbitrary contents, as a caller may.
    pub fn soil(&mut self, random: &mut Random, trace: usize) {
        self.junk = random.word() as u8;
        self.memory.amounts.fill(random.word() as i32);
        self.memory.presence.fill(random.word());
        self.memory.labels.fill(random.word());
        self.memory.trace.clear();
        self.memory.trace.resize(trace, self.junk);
    }

    /// Runs an accepted book; then says what no run of any book may do, if this
    /// one did it.
    pub fn run(
        &mut self,
        random: &mut Random,
        book: &Book,
        file: &[u8],
        limits: Limits,
        tests: Tests,
    ) -> Result<(), String> {
        self.soil(random, limits.trace);
        let (budget, failed) = (limits.budget, Failed::TakenBack);
        let explained = carry_out(file, budget, &mut self.memory, tests, failed);
        self.ended = Ended::of(&explained)?;
        self.taken_back = explained.taken_back;
        self.check(book, limits)
            .map_err(|what| format!("{what}\n{}", list(book)))
    }

    fn check(&self, book: &Book, limits: Limits) -> Result<(), String> {
        let Ended {
            number,
            node,
            cost,
            bytes,
            ..
        } = self.ended;
        let demand = |holds: bool, what: &str| match holds {
            true => Ok(()),
            false => Err(format!("{what}: {:?} with {limits:?}", self.ended)),
        };
        let written = bytes as usize;
        demand(cost <= limits.budget, "cost above budget")?;
        demand(written <= limits.trace, "trace too long")?;
        demand(written.is_multiple_of(8), "part of a record")?;
        let rest = &self.memory.trace[written..];
        demand(
            rest.iter().all(|&byte| byte == self.junk),
            "trace bytes past the records changed",
        )?;
        let price = match book.nodes.get(node as usize).map(|node| node.kind) {
            Some(8..=11) => 4,
            _ => 1,
        };
        demand(
            number != 21 || cost + price > limits.budget,
            "stopped before the budget was used",
        )?;
        demand(
            number != 30 || rest.len() < 8,
            "stopped before the trace was used",
        )?;
        let absent_is_zero = (0..512).all(|place| self.holds(place) || self.amount(place) == 0);
        demand(absent_is_zero, "an absent cell has an amount")?;
        demand(self.ended.is_explained(), "not the right reason")
    }

    pub fn holds(&self, place: usize) -> bool {
        self.memory.presence[place / 64] >> (place % 64) & 1 == 1
    }

    pub fn amount(&self, place: usize) -> i32 {
        self.memory.amounts[place]
    }

    pub fn label(&self, place: usize) -> &[u64] {
        &self.memory.labels[8 * place..8 * place + 8]
    }
}

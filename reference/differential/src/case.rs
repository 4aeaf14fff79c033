//! One case: a random file with random limits, put to both implementations.

use crate::explainer::{self, Explained, NO_PLACE};
use crate::proved::{self, Answered, Ran};
use reference::book::Refusal;
use reference::generate;
use reference::places::Places;
use reference::random::Random;
use reference::run::{self, Answer, Memory, Tests};
use reference::writer;

/// How the explained run ended, and whether it took a posting back that had
/// changed a cell. Only the reference tells the latter.
pub struct Outcome {
    pub explained: Explained,
    pub took_back: bool,
    /// How many label records the book for a second day had, if there was one.
    pub second_day: Option<usize>,
}

/// Memory for one case after another, for each of the two.
pub struct Lent {
    /// What both have before a call.
    drawn: Memory,
    expected: Memory,
    found: Memory,
    expected_out: Vec<u8>,
    found_out: Vec<u8>,
}

impl Lent {
    pub fn new() -> Lent {
        Lent {
            drawn: Memory::new(0),
            expected: Memory::new(0),
            found: Memory::new(0),
            expected_out: Vec::new(),
            found_out: Vec::new(),
        }
    }

    /// Draws the case of a seed and compares load, run, explain and write. Gives
    /// how the run came out, or what differs.
    pub fn check(&mut self, seed: u64) -> Result<Outcome, String> {
        let mut random = Random::new(seed);
        let file = file(&mut random);
        self.check_load(&mut random, &file)?;
        let budget = budget(&mut random);
        let trace = trace_length(&mut random);
        self.soil(&mut random, trace);
        self.check_run(&file, budget)?;
        self.lend();
        let mut outcome = self.check_explain(&file, budget)?;
        if random.chance(30) {
            outcome.second_day = self.check_second_day(&mut random, &file)?;
        } else {
            self.check_write(&mut random, &file)?;
        }
        Ok(outcome)
    }

    /// Writes what the run has left, and puts the written book to the loader and
    /// the runner. Gives how many label records it has; nothing after a refusal.
    fn check_second_day(
        &mut self,
        random: &mut Random,
        file: &[u8],
    ) -> Result<Option<usize>, String> {
        let Answered { number, length, .. } = self.write(random, file, 60_000)?;
        if number != 0 {
            return Ok(None);
        }
        let next = self.expected_out[..length as usize].to_vec();
        self.check_load(random, &next)?;
        let budget = budget(random);
        let trace = trace_length(random);
        self.soil(random, trace);
        self.check_run(&next, budget)?;
        let count = &next[next.len() - 38..];
        Ok(Some(usize::from(count[0]) + 256 * usize::from(count[1])))
    }

    fn check_run(&mut self, file: &[u8], budget: u32) -> Result<(), String> {
        let expected = ran(run::run(file, budget, &mut self.expected, Tests::Labelled));
        let found = proved::run(
            file,
            budget,
            &mut self.found.amounts,
            &mut self.found.presence,
            &mut self.found.labels,
            &mut self.found.trace,
        );
        same("run: answer", &expected, &found)?;
        self.compare("run")
    }

    fn check_explain(&mut self, file: &[u8], budget: u32) -> Result<Outcome, String> {
        let expected = run::explain(file, budget, &mut self.expected);
        let took_back = expected.taken_back != Places::EMPTY;
        let expected = explained(expected);
        let found = explainer::explain(
            file,
            budget,
            &mut self.found.amounts,
            &mut self.found.presence,
            &mut self.found.labels,
            &mut self.found.trace,
        );
        same("explain: answer", &expected, &found)?;
        self.compare("explain")?;
        Ok(Outcome {
            explained: found,
            took_back,
            second_day: None,
        })
    }

    fn check_load(&mut self, random: &mut Random, file: &[u8]) -> Result<(), String> {
        self.soil(random, 0);
        let expected = match run::load(file, &mut self.expected) {
            Ok(_) => answered(0, 0, 0),
            Err(Refusal { number, index }) => answered(number, index, 0),
        };
        let found = proved::load(
            file,
            &mut self.found.amounts,
            &mut self.found.presence,
            &mut self.found.labels,
        );
        same("load: answer", &expected, &found)?;
        self.compare("load")
    }

    /// Writes the cells and labels that the run has left, or random ones.
    fn check_write(&mut self, random: &mut Random, file: &[u8]) -> Result<(), String> {
        if random.chance(50) {
            self.soil(random, 0);
        }
        let length = random.weighted(&[(95, 60_000), (3, 60_009), (1, 59_999), (1, 0)]);
        self.write(random, file, length).map(|_| ())
    }

    /// Writes to an output of this length, and gives the answer.
    fn write(
        &mut self,
        random: &mut Random,
        file: &[u8],
        length: usize,
    ) -> Result<Answered, String> {
        let junk = random.word() as u8;
        for out in [&mut self.expected_out, &mut self.found_out] {
            out.clear();
            out.resize(length, junk);
        }
        let Memory {
            amounts,
            presence,
            labels,
            ..
        } = &self.expected;
        let expected = written(writer::write(
            file,
            amounts,
            presence,
            labels,
            &mut self.expected_out,
        ));
        let found = proved::write(file, amounts, presence, labels, &mut self.found_out);
        same("write: answer", &expected, &found)?;
        same_items("write: output", &self.expected_out, &self.found_out)?;
        Ok(expected)
    }

    /// Draws junk, at most one of whose lengths is not as it should be, and lends
    /// it to both.
    fn soil(&mut self, random: &mut Random, trace: usize) {
        let off = random.weighted(&[(97, [0; 3]), (1, [1, 0, 0]), (1, [0, 1, 0]), (1, [0, 0, 1])]);
        let [amounts, presence, labels] = if random.chance(50) {
            [512 - off[0], 8 - off[1], 4_096 - off[2]]
        } else {
            [512 + off[0], 8 + off[1], 4_096 + off[2]]
        };
        let memory = &mut self.drawn;
        memory.amounts.clear();
        memory
            .amounts
            .extend((0..amounts).map(|_| random.word() as i32));
        memory.presence.clear();
        memory.presence.extend((0..presence).map(|_| random.word()));
        let junk = random.word();
        memory.labels.clear();
        memory.labels.resize(labels, junk);
        if random.chance(50) {
            draw_labels(random, &mut memory.labels);
        }
        memory.trace.clear();
        memory.trace.resize(trace, junk as u8);
        self.lend();
    }

    /// Gives both what was drawn last.
    fn lend(&mut self) {
        for memory in [&mut self.expected, &mut self.found] {
            memory.amounts.clone_from(&self.drawn.amounts);
            memory.presence.clone_from(&self.drawn.presence);
            memory.labels.clone_from(&self.drawn.labels);
            memory.trace.clone_from(&self.drawn.trace);
        }
    }

    fn compare(&self, call: &str) -> Result<(), String> {
        let (expected, found) = (&self.expected, &self.found);
        same_items(
            &format!("{call}: amounts"),
            &expected.amounts,
            &found.amounts,
        )?;
        same_items(
            &format!("{call}: presence"),
            &expected.presence,
            &found.presence,
        )?;
        same_items(&format!("{call}: labels"), &expected.labels, &found.labels)?;
        same_items(&format!("{call}: trace"), &expected.trace, &found.trace)
    }
}

/// Own places for most cells, and other labels for some.
fn draw_labels(random: &mut Random, labels: &mut [u64]) {
    for (place, label) in labels.chunks_exact_mut(8).take(512).enumerate() {
        label.copy_from_slice(&Places::single(place).0);
    }
    for _ in 0..random.below(40) {
        let word = random.below(labels.len());
        let bit = 1 << random.below(64);
        labels[word] = random.pick(&[0, 0, bit, u64::MAX]);
    }
}

/// A book's file, of which one in four is damaged.
fn file(random: &mut Random) -> Vec<u8> {
    let book = match random.chance(40) {
        true => generate::often_failing(random),
        false => generate::of_either_version(random),
    };
    if random.chance(25) {
        return generate::damaged(random, &book);
    }
    book.encode()
}

/// Ample for most books; sometimes so little that the run stops for it, and
/// sometimes more than there may be.
fn budget(random: &mut Random) -> u32 {
    match random.below(1_000) {
        0..=99 => random.below(60) as u32,
        100..=199 => random.below(400) as u32,
        200..=979 => 2_500,
        980..=995 => random.below(30_000) as u32,
        996 => random.below(1_000_001) as u32,
        997 => 1_000_000,
        998 => 1_000_001,
        _ => random.word() as u32,
    }
}

/// In the same way.
fn trace_length(random: &mut Random) -> usize {
    match random.below(1_000) {
        0..=99 => random.below(50),
        100..=979 => random.between(200, 2_000),
        980..=993 => random.below(65_537),
        994..=996 => 65_536,
        _ => 65_537,
    }
}

fn ran(answer: Answer) -> Ran {
    match answer {
        Answer::Refused(Refusal { number, index }) => Ran {
            number,
            at: index,
            cost: 0,
            bytes: 0,
        },
        Answer::Ended {
            number,
            node,
            cost,
            bytes,
        } => Ran {
            number,
            at: node,
            cost,
            bytes,
        },
    }
}

fn explained(explained: run::Explained) -> Explained {
    let Ran {
        number,
        at,
        cost,
        bytes,
    } = ran(explained.answer);
    Explained {
        number,
        at,
        cost,
        bytes,
        place: explained.place().map_or(NO_PLACE, |place| place as u32),
        count: explained.count() as u32,
    }
}

fn answered(number: u32, at: u32, length: u32) -> Answered {
    Answered { number, at, length }
}

fn written(answer: writer::Written) -> Answered {
    match answer {
        writer::Written::Refused(Refusal { number, index }) => answered(number, index, 0),
        writer::Written::Length(length) => answered(0, 0, length),
    }
}

fn same<T: std::fmt::Debug + PartialEq>(what: &str, expected: &T, found: &T) -> Result<(), String> {
    if expected == found {
        return Ok(());
    }
    Err(format!("{what}: expected {expected:?}, found {found:?}"))
}

fn same_items<T: std::fmt::Debug + PartialEq>(
    what: &str,
    expected: &[T],
    found: &[T],
) -> Result<(), String> {
    if expected == found {
        return Ok(());
    }
    let at = (0..expected.len()).find(|&at| expected[at] != found[at]);
    let at = at.expect("both are as long, and differ");
    same(&format!("{what}[{at}]"), &expected[at], &found[at])
}

//! Puts random books, accepted and damaged, to the proved implementation and to
//! the reference, and compares all that they answer and leave in memory. Then
//! puts random pairs of sets to both, and compares their lines.

mod case;
mod comparisons;
mod explainer;
mod proved;

use case::{Lent, Outcome};
use explainer::NO_PLACE;
use std::collections::BTreeMap;
use std::env;
use std::process::ExitCode;
use std::sync::atomic::{AtomicBool, Ordering};
use std::thread;

const USAGE: &str = "usage: differential [CASES [SEED]]
  CASES  how many books, and how many pairs of sets (default 1000000)
  SEED   the first one's seed (default 0); the next one has the next seed";

/// For the deepest books, in the reference.
const STACK: usize = 256 << 20;

/// Counts over cases.
#[derive(Default)]
struct Tally {
    /// How many runs ended with each number: 0 finished, 1 to 10 and 32 refused,
    /// 21 to 31 stopped.
    ends: BTreeMap<u32, u64>,
    /// How many explained runs named a place.
    named: u64,
    /// How many runs took a posting back.
    took_back: u64,
    /// How many books were written for a second day and run, and how many of
    /// these have label records.
    second_days: u64,
    with_labels: u64,
}

impl Tally {
    fn count(&mut self, outcome: &Outcome) {
        let explained = &outcome.explained;
        *self.ends.entry(explained.number).or_default() += 1;
        self.named += u64::from(explained.place != NO_PLACE);
        self.took_back += u64::from(outcome.took_back);
        self.second_days += u64::from(outcome.second_day.is_some());
        self.with_labels += u64::from(outcome.second_day > Some(0));
    }

    fn add(&mut self, other: Tally) {
        for (number, count) in other.ends {
            *self.ends.entry(number).or_default() += count;
        }
        self.named += other.named;
        self.took_back += other.took_back;
        self.second_days += other.second_days;
        self.with_labels += other.with_labels;
    }
}

fn main() -> ExitCode {
    let arguments: Vec<String> = env::args().skip(1).collect();
    let numbers: Option<Vec<u64>> = arguments.iter().map(|word| word.parse().ok()).collect();
    let (cases, seed) = match numbers.as_deref() {
        Some([]) => (1_000_000, 0),
        Some(&[cases]) => (cases, 0),
        Some(&[cases, seed]) => (cases, seed),
        _ => {
            eprintln!("{USAGE}");
            return ExitCode::from(2);
        }
    };
    if compare_books(cases, seed) && compare_sets(cases, seed) {
        return ExitCode::SUCCESS;
    }
    ExitCode::FAILURE
}

/// Prints what came of random books; or says on standard error what differs.
fn compare_books(cases: u64, seed: u64) -> bool {
    let Some(tally) = compare(cases, seed) else {
        return false;
    };
    println!("{cases} cases from seed {seed} on: no difference");
    for (number, count) in tally.ends {
        println!("  {count} runs ended with {number}");
    }
    println!("  {} explained runs named a place", tally.named);
    println!("  {} runs took a posting back", tally.took_back);
    let (second_days, with_labels) = (tally.second_days, tally.with_labels);
    println!("  {second_days} second days were run, {with_labels} of them with label records");
    true
}

/// The same of random pairs of sets.
fn compare_sets(pairs: u64, seed: u64) -> bool {
    match comparisons::compare(pairs, seed) {
        Ok(lines) => {
            println!("{pairs} comparisons from seed {seed} on: no difference");
            for (line, count) in lines {
                println!("  {count} gave {line}");
            }
            true
        }
        Err(difference) => {
            eprintln!("{difference}");
            false
        }
    }
}

/// Compares cases, and gives how their runs ended; or says on standard error
/// which seed differs, and how.
fn compare(cases: u64, seed: u64) -> Option<Tally> {
    let threads = thread::available_parallelism().map_or(1, |count| count.get()) as u64;
    let failed = AtomicBool::new(false);
    let parts: Vec<Tally> = thread::scope(|scope| {
        let started: Vec<_> = (0..threads)
            .map(|first| {
                let seeds = (first..cases).step_by(threads as usize);
                let seeds = seeds.map(move |case| seed.wrapping_add(case));
                thread::Builder::new()
                    .stack_size(STACK)
                    .spawn_scoped(scope, || compare_all(seeds, &failed))
                    .expect("the system starts a thread")
            })
            .collect();
        started
            .into_iter()
            .map(|thread| thread.join().expect("a thread ends without a panic"))
            .collect()
    });
    if failed.load(Ordering::Relaxed) {
        return None;
    }
    let mut tally = Tally::default();
    parts.into_iter().for_each(|part| tally.add(part));
    Some(tally)
}

/// Compares the cases of these seeds until one differs, here or elsewhere.
fn compare_all(seeds: impl Iterator<Item = u64>, failed: &AtomicBool) -> Tally {
    let mut lent = Lent::new();
    let mut tally = Tally::default();
    for seed in seeds {
        if failed.load(Ordering::Relaxed) {
            break;
        }
        match lent.check(seed) {
            Ok(outcome) => tally.count(&outcome),
            Err(difference) => {
                eprintln!("seed {seed}: {difference}");
                failed.store(true, Ordering::Relaxed);
            }
        }
    }
    tally
}

//! Random pairs of sets, put to the proved program `comparisons` and to the
//! reference.

use reference::comparison_cases::{random_pair, Pair};
use reference::random::Random;
use std::collections::BTreeMap;
use std::io::{self, BufRead, BufReader, BufWriter, Write};
use std::process::{ChildStdin, ChildStdout, Command, Stdio};
use std::thread;

/// What `rt check comparisons` makes.
const PROGRAM: &str = concat!(env!("CARGO_MANIFEST_DIR"), "/../../target/bin/comparisons");

/// As many pairs as the program takes at once.
const BATCH: u64 = 1_000_000;

/// How many pairs gave each line.
pub type Lines = BTreeMap<String, u64>;

/// Compares pairs, and gives how many had each line; or tells which seed differs,
/// and how.
pub fn compare(pairs: u64, seed: u64) -> Result<Lines, String> {
    let mut lines = Lines::new();
    for first in (0..pairs).step_by(BATCH as usize) {
        let batch = first..pairs.min(first + BATCH);
        let seeds = batch.map(|pair| seed.wrapping_add(pair));
        compare_batch(seeds, &mut lines)?;
    }
    Ok(lines)
}

/// Compares the pairs of these seeds, all put to one process.
fn compare_batch(
    seeds: impl Iterator<Item = u64> + Clone + Send,
    lines: &mut Lines,
) -> Result<(), String> {
    let mut process = Command::new(PROGRAM)
        .stdin(Stdio::piped())
        .stdout(Stdio::piped())
        .spawn()
        .map_err(trouble)?;
    let stdin = process.stdin.take().expect("it is a pipe");
    let stdout = process.stdout.take().expect("it is a pipe");
    let compared = thread::scope(|scope| {
        // Fed from a thread of its own, as the program may print before it has
        // read everything, and a full pipe would hold up both.
        let fed = seeds.clone();
        let feeder = scope.spawn(move || feed(stdin, fed));
        let compared = compare_lines(stdout, seeds, lines);
        if compared.is_err() {
            // Whatever is left to feed has no reader then.
            process.kill().map_err(trouble)?;
        }
        let fed = feeder.join().expect("the thread ends without a panic");
        compared.and(fed.map_err(trouble))
    });
    let status = process.wait().map_err(trouble)?;
    compared?;
    match status.success() {
        true => Ok(()),
        false => Err(format!("{PROGRAM}: {status}")),
    }
}

fn pair(seed: u64) -> Pair {
    random_pair(&mut Random::new(seed))
}

fn feed(stdin: ChildStdin, seeds: impl Iterator<Item = u64>) -> io::Result<()> {
    let mut stdin = BufWriter::new(stdin);
    for seed in seeds {
        stdin.write_all(&pair(seed).encode())?;
    }
    stdin.flush()
}

fn compare_lines(
    stdout: ChildStdout,
    seeds: impl Iterator<Item = u64>,
    lines: &mut Lines,
) -> Result<(), String> {
    let mut printed = BufReader::new(stdout).lines();
    for seed in seeds {
        let pair = pair(seed);
        let expected = pair.compare().to_string();
        let found = printed.next().transpose().map_err(trouble)?;
        if found.as_ref() != Some(&expected) {
            return Err(format!(
                "seed {seed}: expected {expected:?}, found {found:?}: {pair:x?}"
            ));
        }
        *lines.entry(expected).or_default() += 1;
    }
    match printed.next() {
        None => Ok(()),
        Some(line) => Err(format!("after the last pair: found {line:?}")),
    }
}

fn trouble(error: io::Error) -> String {
    format!("{PROGRAM}: {error}")
}

//! Measures the proved runner, loader and writer against hand-written ones.

mod compare;
mod handwritten;
#[path = "../../reference/differential/src/proved.rs"]
mod proved;
mod sides;
mod timing;
mod workloads;

use sides::{Call, Memory, Side};
use std::env;
use std::process::ExitCode;
use std::thread;
use workloads::Workload;

const USAGE: &str = "usage: bench [--compare CASES | --workload NAME --side SIDE --times N]
With no option: compares the sides on 5000 random books and on the workloads,
and then times the workloads.
  --compare   only compares the sides on random books
  --workload  only calls one side on one workload, for a profiler
  NAME        arithmetic, queries, postings, cascades, cascades-double, smallest,
              smallest-2, reading, reading-2, writing or writing-2
  SIDE        proved, handwritten, or plain for hand-written with no labels";

const CASES: u64 = 5_000;

/// For the deepest books among the random ones.
const STACK: usize = 64 << 20;

fn main() -> ExitCode {
    let work = || {
        let arguments: Vec<String> = env::args().skip(1).collect();
        let arguments: Vec<&str> = arguments.iter().map(String::as_str).collect();
        perform(&arguments).unwrap_or_else(|| {
            eprintln!("{USAGE}");
            ExitCode::from(2)
        })
    };
    let thread = thread::Builder::new().stack_size(STACK).spawn(work);
    let thread = thread.expect("the system starts a thread");
    thread.join().unwrap_or(ExitCode::FAILURE)
}

/// Gives nothing if the arguments make no sense.
fn perform(arguments: &[&str]) -> Option<ExitCode> {
    match *arguments {
        [] => {
            compare_random(CASES);
            measure();
        }
        ["--compare", cases] => compare_random(cases.parse().ok()?),
        ["--workload", name, "--side", side, "--times", times] => {
            let side = side_named(side)?;
            let workload = workloads::all().into_iter().find(|all| all.name == name)?;
            call_only(&workload, side, times.parse().ok()?);
        }
        _ => return None,
    }
    Some(ExitCode::SUCCESS)
}

fn side_named(name: &str) -> Option<Side> {
    match name {
        "proved" => Some(Side::Proved),
        "handwritten" => Some(Side::Handwritten),
        "plain" => Some(Side::Plain),
        _ => None,
    }
}

fn compare_random(cases: u64) {
    let [refused, stopped, finished] =
        compare::random_books(cases).unwrap_or_else(|difference| panic!("{difference}"));
    eprintln!(
        "{cases} random books, no difference: {refused} refused, {stopped} stopped, {finished} finished"
    );
}

/// Prints the table. No writer does without labels, so its last columns are empty.
fn measure() {
    println!("| workload | proved µs | hand-written µs | proved / hand-written | hand-written without labels µs | proved / without labels |");
    println!("|---|---|---|---|---|---|");
    for workload in workloads::all() {
        compare::check_workload(&workload);
        let [proved, hand, plain] = timing::medians(&workload);
        let name = workload.name;
        print!(
            "| {name} | {proved:.2} | {hand:.2} | {:.2} |",
            proved / hand
        );
        match workload.call {
            Call::Write => println!(" – | – |"),
            _ => println!(" {plain:.2} | {:.2} |", proved / plain),
        }
    }
}

/// Calls one side, after the cells that a writer needs are loaded.
fn call_only(workload: &Workload, side: Side, times: u32) {
    let mut memory = Memory::new();
    side.call(Call::Load, &workload.file, &mut memory);
    timing::repeat(side, workload, times, &mut memory);
}

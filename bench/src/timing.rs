//! How long calls take.

use crate::sides::{Call, Memory, Side};
use crate::workloads::Workload;
use std::hint::black_box;
use std::time::{Duration, Instant};

/// Of each side; the median is taken.
const SAMPLES: usize = 101;

/// A sample is as many calls as fill this time, or one that takes longer. It is
/// the same for all sides, so that interruptions are about as likely for each.
const SAMPLE: Duration = Duration::from_millis(3);

const SIDES: [Side; 3] = [Side::Proved, Side::Handwritten, Side::Plain];

/// The median time of one call in microseconds: proved, hand-written, and
/// hand-written with no labels.
///
/// Samples of the sides alternate. All calls get the same memory, which holds
/// the book's cells before the first and is not cleared between calls: a run
/// or a load sets all cells from the book first, and a write writes the same
/// bytes again.
pub fn medians(workload: &Workload) -> [f64; 3] {
    let mut memory = Memory::new();
    Side::Proved.call(Call::Load, &workload.file, &mut memory);
    let calls = SIDES.map(|side| calls_in_a_sample(side, workload, &mut memory));
    let mut samples = SIDES.map(|_| Vec::with_capacity(SAMPLES));
    for _ in 0..SAMPLES {
        for ((side, calls), samples) in SIDES.into_iter().zip(calls).zip(&mut samples) {
            let time = time(side, workload, calls, &mut memory);
            samples.push(time.as_secs_f64() * 1e6 / f64::from(calls));
        }
    }
    samples.map(|mut samples| {
        samples.sort_by(f64::total_cmp);
        samples[SAMPLES / 2]
    })
}

/// Doubles the calls until they fill a sample, which also warms the side up.
fn calls_in_a_sample(side: Side, workload: &Workload, memory: &mut Memory) -> u32 {
    let mut calls = 1;
    while time(side, workload, calls, memory) < SAMPLE {
        calls *= 2;
    }
    calls
}

fn time(side: Side, workload: &Workload, calls: u32, memory: &mut Memory) -> Duration {
    let start = Instant::now();
    repeat(side, workload, calls, memory);
    start.elapsed()
}

/// Calls one side over and over.
pub fn repeat(side: Side, workload: &Workload, calls: u32, memory: &mut Memory) {
    for _ in 0..calls {
        let file = black_box(&workload.file);
        black_box(side.call(workload.call, file, black_box(memory)));
    }
}

//! Whether the sides answer and leave the same, so that what is measured is the
//! same work.

use crate::sides::{Answer, Call, Memory, Side};
use crate::workloads::Workload;
use reference::generate;
use reference::random::Random;

/// The stops that the run with no labels does not make.
const LABEL_STOPS: [u32; 4] = [25, 26, 27, 29];

/// Puts one call to all sides, each with its own copy of the memory. Gives the
/// answer and the memory that the proved side and the hand-written one leave,
/// or says what differs.
fn agree(call: Call, file: &[u8], memory: &Memory) -> Result<(Answer, Memory), String> {
    let [mut left, mut found, mut plain] = [memory.clone(), memory.clone(), memory.clone()];
    let answer = Side::Proved.call(call, file, &mut left);
    let other = Side::Handwritten.call(call, file, &mut found);
    if other != answer {
        return Err(format!("proved {answer:?}, hand-written {other:?}"));
    }
    if found != left {
        return Err("the memory left differs".into());
    }
    let other = Side::Plain.call(call, file, &mut plain);
    if plain.labels != memory.labels {
        return Err("labels were touched by the run with none".into());
    }
    plain.labels.clone_from(&left.labels);
    if !LABEL_STOPS.contains(&answer[0]) && (other, plain) != (answer, found) {
        return Err(format!("with no labels {other:?} instead of {answer:?}"));
    }
    Ok((answer, left))
}

/// Panics unless the sides agree on a workload, and end it as it is made to.
pub fn check_workload(workload: &Workload) {
    let Workload {
        name, call, file, ..
    } = workload;
    let (_, loaded) = agree(Call::Load, file, &Memory::new())
        .unwrap_or_else(|difference| panic!("loading {name}: {difference}"));
    let (answer, memory) =
        agree(*call, file, &loaded).unwrap_or_else(|difference| panic!("{name}: {difference}"));
    assert_eq!(answer, workload.answer, "{name}");
    if let Call::Write = call {
        let written = written_by_reference(file, &loaded);
        assert!(memory.out.starts_with(&written), "{name}");
    }
}

/// What the reference makes of these cells and labels.
fn written_by_reference(file: &[u8], memory: &Memory) -> Vec<u8> {
    let left = reference::run::Memory {
        amounts: memory.amounts.clone(),
        presence: memory.presence.clone(),
        labels: memory.labels.clone(),
        trace: Vec::new(),
    };
    reference::writer::written(file, &left).expect("the book is accepted")
}

/// Puts random books, of which one in four is damaged, to all sides: load, run
/// and write. Gives how many runs were refused, stopped and finished, or says
/// which seed differs, and how.
pub fn random_books(cases: u64) -> Result<[u64; 3], String> {
    let mut ends = [0; 3];
    for seed in 0..cases {
        let number = random_book(&mut Random::new(seed))
            .map_err(|difference| format!("seed {seed}: {difference}"))?;
        match number {
            0 => ends[2] += 1,
            1..=10 | 32 => ends[0] += 1,
            _ => ends[1] += 1,
        }
    }
    Ok(ends)
}

/// Gives the number that the run answers.
fn random_book(random: &mut Random) -> Result<u32, String> {
    let book = match random.chance(40) {
        true => generate::often_failing(random),
        false => generate::of_either_version(random),
    };
    let file = if random.chance(25) {
        generate::damaged(random, &book)
    } else {
        book.encode()
    };
    let memory = memory(random);
    agree(Call::Load, &file, &memory)?;
    let budget = match random.below(100) {
        0 => 1_000_001,
        1..=15 => random.below(400) as u32,
        _ => 2_500,
    };
    let (answer, left) = agree(Call::Run { budget }, &file, &memory)?;
    agree(Call::Write, &file, &left)?;
    agree(Call::Write, &file, &memory)?;
    Ok(answer[0])
}

/// Memory full of junk; now and then one part is not as long as it should be,
/// or the trace is too short for the run.
fn memory(random: &mut Random) -> Memory {
    let mut memory = Memory::new();
    memory.amounts.fill_with(|| random.word() as i32);
    memory.presence.fill_with(|| random.word());
    memory.labels.fill(random.word());
    memory.trace.fill(random.word() as u8);
    memory.out.fill(random.word() as u8);
    match random.below(200) {
        0 => memory.amounts.truncate(511),
        1 => memory.presence.truncate(7),
        2 => memory.labels.truncate(4_095),
        3 => memory.out.truncate(59_999),
        4 => memory.trace.resize(65_537, 0),
        5..=24 => memory.trace.truncate(random.below(50)),
        _ => memory.trace.truncate(2_000),
    }
    memory
}

//! Books to bytes and back, by way of the decoder, the loader and the writer.

use reference::book::Book;
use reference::generate;
use reference::notation::list;
use reference::places::Places;
use reference::random::Random;
use reference::run::{explain, on_deep_stack, run, Answer, Memory, Tests};
use reference::writer::{write, Written};

const FREE: usize = 60_000;

/// An accepted book is the same after encoding and decoding.
#[test]
fn decode_undoes_encode() {
    for seed in 0..20_000 {
        let book = generate::of_either_version(&mut Random::new(seed));
        assert_eq!(Book::decode(&book.encode()), Ok(book), "seed {seed}");
    }
}

/// Damage never makes the decoder panic; and what it accepts has one encoding.
#[test]
fn encode_undoes_decode_of_damaged_files() {
    let mut accepted = 0;
    let mut refused = [0; 33];
    for seed in 0..60_000 {
        let mut random = Random::new(seed);
        let book = generate::of_either_version(&mut random);
        let file = generate::damaged(&mut random, &book);
        match Book::decode(&file) {
            Ok(book) => {
                assert_eq!(book.encode(), file, "seed {seed}\n{}", list(&book));
                accepted += 1;
            }
            Err(refusal) => refused[refusal.number as usize] += 1,
        }
    }
    assert!(accepted > 6_000, "{accepted} accepted");
    for number in (2..=10).chain([32]) {
        let count = refused[number];
        assert!(count > 200, "refusal {number} came {count} times");
    }
}

/// Loads a book's cells, by a run with no budget at all.
fn load(file: &[u8], memory: &mut Memory) {
    let answer = run(file, 0, memory, Tests::Labelled);
    assert!(matches!(answer, Answer::Ended { bytes: 0, .. }));
}

/// Writes what memory holds; then the length that is answered.
fn write_memory(file: &[u8], memory: &Memory, out: &mut [u8]) -> usize {
    let Memory {
        amounts,
        presence,
        labels,
        ..
    } = memory;
    match write(file, amounts, presence, labels, out) {
        Written::Length(length) => length as usize,
        Written::Refused(refusal) => panic!("{refusal:?}"),
    }
}

/// Writing what was just loaded gives the same bytes for a book of version 2,
/// and leaves later ones. A book of version 1 keeps its records, and gets no
/// label records.
#[test]
fn a_loaded_book_is_written_back_the_same() {
    let mut memory = Memory::new(0);
    let mut out = vec![0; FREE];
    let mut with_labels = 0;
    for seed in 0..12_000 {
        let mut book = generate::of_either_version(&mut Random::new(seed));
        let file = book.encode();
        load(&file, &mut memory);
        out.fill(0xA5);
        let length = write_memory(&file, &memory, &mut out);
        let (written, rest) = out.split_at(length);
        assert!(rest.iter().all(|&byte| byte == 0xA5), "seed {seed}");
        with_labels += usize::from(book.counts()[6] > 0);
        match book.labels {
            Some(_) => assert_eq!(written, file, "seed {seed}"),
            None => {
                book.labels = Some(Vec::new());
                assert_eq!(length, file.len() + 4, "seed {seed}");
                assert_eq!(Book::decode(written), Ok(book), "seed {seed}");
            }
        }
    }
    assert!(with_labels >= 5_000, "{with_labels} with labels");
}

/// A book of version 1 written back runs as it did.
#[test]
fn a_book_that_crossed_over_runs_the_same() {
    on_deep_stack(|| {
        let mut memory = Memory::new(0);
        let mut out = vec![0; FREE];
        for seed in 0..4_000 {
            let file = generate::often_failing(&mut Random::new(seed)).encode();
            load(&file, &mut memory);
            let length = write_memory(&file, &memory, &mut out);
            let runs = [&file, &out[..length]].map(|file| {
                let mut memory = Memory::new(800);
                (explain(file, 2_500, &mut memory), memory)
            });
            assert!(runs[0] == runs[1], "seed {seed}");
        }
    });
}

/// Any cells, amounts of absent ones too.
fn random_cells(random: &mut Random, amounts: &mut [i32], presence: &mut [u64]) {
    let word = match random.below(4) {
        0 => 0,
        1 => u64::MAX,
        _ => random.word(),
    };
    for present in presence {
        *present = word & random.word() | word & random.word();
    }
    for amount in amounts {
        *amount = random.word() as i32 >> random.below(32);
    }
}

/// Any labels: many own places, empty and full ones, and few or many places.
fn random_labels(random: &mut Random, labels: &mut [u64]) {
    let own = random.pick(&[0, 50, 99, 100]);
    for (place, label) in labels.chunks_exact_mut(8).enumerate() {
        let other = match random.below(5) {
            _ if random.chance(own) => Places::single(place),
            0 => Places::EMPTY,
            1 => Places([u64::MAX; 8]),
            2 => Places::single(place).union(&Places::single(random.below(512))),
            3 => Places::single(random.below(512)),
            _ => Places(std::array::from_fn(|_| random.word())),
        };
        label.copy_from_slice(&other.0);
    }
}

/// What the writer wrote is accepted, has the other sections unchanged, and
/// loads as the cells and labels it was given; absent cells load as 0.
#[test]
fn a_written_book_loads_as_its_cells_and_labels() {
    let mut memory = Memory::new(0);
    let mut given = Memory::new(0);
    let mut out = vec![0; FREE];
    for seed in 0..10_000 {
        let mut random = Random::new(seed);
        let book = generate::of_either_version(&mut random);
        random_cells(&mut random, &mut given.amounts, &mut given.presence);
        random_labels(&mut random, &mut given.labels);
        out.fill(0x5A);
        let length = write_memory(&book.encode(), &given, &mut out);
        let (file, rest) = out.split_at(length);
        assert!(rest.iter().all(|&byte| byte == 0x5A), "seed {seed}");
        let written = Book::decode(file).expect("a written book is accepted");
        let (cells, labels) = (written.cells.clone(), written.labels.clone());
        assert!(labels.is_some(), "seed {seed}");
        let expected = Book {
            cells,
            labels,
            ..book
        };
        assert_eq!(written, expected, "seed {seed}");
        load(file, &mut memory);
        assert_eq!(memory.presence, given.presence, "seed {seed}");
        assert_eq!(memory.labels, given.labels, "seed {seed}");
        for (place, &amount) in given.amounts.iter().enumerate() {
            let present = given.presence[place / 64] >> (place % 64) & 1 == 1;
            let expected = if present { amount } else { 0 };
            assert_eq!(memory.amounts[place], expected, "seed {seed}");
        }
    }
}

/// The writer refuses what the runner refuses, and too little room.
#[test]
fn the_writer_leaves_its_output_on_a_refusal() {
    let amounts = [0; 512];
    let presence = [0; 8];
    let labels = [0; 4_096];
    let mut out = vec![0x3C; FREE];
    for seed in 0..5_000 {
        let mut random = Random::new(seed);
        let book = generate::of_either_version(&mut random);
        let file = generate::damaged(&mut random, &book);
        let room = random.pick(&[FREE, FREE - 1]);
        let answer = write(&file, &amounts, &presence, &labels, &mut out[..room]);
        match answer {
            Written::Refused(refusal) => {
                assert_eq!(refusal.number == 1, room < FREE, "seed {seed}");
                assert!(out.iter().all(|&byte| byte == 0x3C), "seed {seed}");
            }
            Written::Length(_) => out.fill(0x3C),
        }
    }
}

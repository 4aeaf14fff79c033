//! The examples: each text says in its comment what the run lists. Those lines,
//! and the reasons for stops, were worked out by hand.

use reference::book::Book;
use reference::notation::assemble;
use reference::places::{place, Places};
use reference::run::{run, Memory, Tests};
use reference::run_list::{next_day, run_list};
use std::fs;
use std::path::PathBuf;

/// What an example's explanation ends with, where a test on labels stops it. In
/// `posting` the control total has what was copied from the bank's line. In
/// `taken_back` owner 2's total has his lines but for line 1, whose label was
/// empty until the rent there was taken back. In `tuesday` the cell that was
/// copied on Monday is in the way. In the others, owner 2's eight
/// lines are what owner 1 or his variable lacks.
const REASONS: [(&str, &str); 7] = [
    ("w", "place 0 2 0 count 8\n"),
    ("grant", "place 0 2 0 count 8\n"),
    ("leak", "place 0 2 0 count 8\n"),
    ("raised", "place 0 2 0 count 8\n"),
    ("posting", "place 0 2 3 count 1\n"),
    ("taken_back", "place 0 2 0 count 7\n"),
    ("tuesday", "place 0 2 0 count 1\n"),
];

/// What marks an expected line inside a comment.
const EXPECTED: &str = "#   ";

/// The files of the examples with this ending.
fn files(ending: &str) -> Vec<PathBuf> {
    let folder = concat!(env!("CARGO_MANIFEST_DIR"), "/../examples");
    let mut paths: Vec<PathBuf> = fs::read_dir(folder)
        .unwrap()
        .map(|entry| entry.unwrap().path())
        .filter(|path| path.extension().is_some_and(|other| other == ending))
        .collect();
    paths.sort();
    paths
}

#[test]
fn each_example_lists_what_its_comment_says() {
    let texts = files("txt");
    assert!(texts.len() >= 6);
    for path in texts {
        let name = path.display();
        let text = fs::read_to_string(&path).unwrap();
        let book = assemble(&text).unwrap_or_else(|fault| panic!("{name}: {fault}"));
        let expected: String = text
            .lines()
            .filter_map(|line| line.strip_prefix(EXPECTED))
            .map(|line| format!("{line}\n"))
            .collect();
        assert!(!expected.is_empty(), "{name} expects nothing");
        assert_eq!(run_list(&book.encode()), expected, "{name}");
    }
}

#[test]
fn each_explanation_adds_its_reason() {
    let explanations = files("explained");
    assert_eq!(explanations.len(), files("book").len());
    for path in explanations {
        let name = path.file_stem().unwrap().to_str().unwrap();
        let listed = fs::read_to_string(path.with_extension("out")).unwrap();
        let reason = REASONS.iter().find(|(other, _)| *other == name);
        let reason = reason.map_or("place none count 0\n", |(_, reason)| reason);
        let explained = fs::read_to_string(&path).unwrap();
        assert_eq!(explained, listed + reason, "{name}");
    }
}

/// What the comment of `taken_back` says of the cells: owner, rent and total.
#[test]
fn the_failed_posting_is_taken_back_and_the_other_stays() {
    let text = include_str!("../../examples/taken_back.txt");
    let file = assemble(text).unwrap().encode();
    let mut memory = Memory::new(4_096);
    run(&file, 100_000, &mut memory, Tests::Labelled);
    let amount = |place: usize| {
        let present = memory.presence[place / 64] >> (place % 64) & 1 == 1;
        present.then_some(memory.amounts[place])
    };
    for (owner, rent, total) in [(1, Some(700), Some(950)), (2, None, Some(30))] {
        assert_eq!(amount(place(0, owner, 1)), rent);
        assert_eq!(amount(place(1, owner, 0)), total);
        assert_eq!(amount(place(2, owner, 0)), None);
    }
    for place in [place(0, 2, 1), place(1, 2, 0)] {
        let mut own = [0; 8];
        own[place / 64] = 1 << (place % 64);
        assert_eq!(memory.labels[8 * place..8 * place + 8], own);
    }
}

/// What Monday leaves is Tuesday's book, with one label record; without it the
/// book is the one of version 1.
#[test]
fn tuesday_remembers_monday() {
    let texts = [
        include_str!("../../examples/monday.txt"),
        include_str!("../../examples/tuesday.txt"),
        include_str!("../../examples/tuesday_forgotten.txt"),
    ];
    let [monday, tuesday, forgotten] = texts.map(|text| assemble(text).unwrap());
    assert_eq!(monday.version(), 1);
    assert_eq!(next_day(&monday.encode()), Ok(tuesday.encode()));
    let [record] = tuesday.labels.as_deref().unwrap() else {
        panic!("{:?}", tuesday.labels);
    };
    assert_eq!(usize::from(record.place), place(0, 1, 0));
    assert_eq!(record.label, Places::single(place(0, 2, 0)));
    let without_labels = Book {
        labels: None,
        ..tuesday
    };
    assert_eq!(without_labels, forgotten);
}

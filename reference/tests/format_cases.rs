//! The cases for the reader and the writer of books: their stream, their lines,
//! and that they meet enough.

#[path = "common/w.rs"]
mod w;

use reference::book::{Book, Refusal};
use reference::format_cases::{all, answers, stream, Case, Labels, Lent, Outcome};
use reference::writer::Written;
use std::collections::{BTreeMap, BTreeSet};
use w::book_w;

fn case_w(lent: Lent, seed: u32) -> Case {
    Case {
        file: book_w().encode(),
        lent,
        seed,
        labels: Labels::Left,
    }
}

/// Tuesday's example, whose cell (0,1,0) is labelled by (0,2,0).
fn case_tuesday(seed: u32, labels: Labels) -> Case {
    Case {
        file: include_bytes!("../../examples/tuesday.book").to_vec(),
        lent: Lent::ACCEPTED,
        seed,
        labels,
    }
}

#[test]
fn a_case_is_a_header_and_the_file() {
    let lent = Lent {
        amounts: 0x0201,
        presence: 3,
        labels: 0x0504,
        output: 0xFFFE,
    };
    let bytes = stream(&[case_w(lent, 0x0908_0706), case_w(lent, 0)]);
    let header = [
        224, 0, 0, 0, 0, 0, 0, 0, 254, 255, 0, 0, 1, 2, 3, 0, 4, 5, 1, 0, 6, 7, 8, 9,
    ];
    assert_eq!(bytes[..24], header);
    assert_eq!(bytes[24..248], book_w().encode());
    assert_eq!(bytes.len(), 496);
    for (labels, task) in [(Labels::Left, 1), (Labels::Drawn, 2), (Labels::FewDrawn, 3)] {
        let bytes = stream(&[case_tuesday(0, labels)]);
        assert_eq!(bytes[18..20], [task, 0]);
    }
}

/// The lines were worked out by a program that shares nothing with this one, and
/// so were those below.
#[test]
fn lines_of_book_w() {
    let right = Lent::ACCEPTED;
    let output = 59_999;
    let labels = 4_095;
    let lines = answers(&[
        case_w(right, 0),
        case_w(right, 1),
        case_w(Lent { output, ..right }, 1),
        case_w(Lent { labels, ..right }, 0),
        Case {
            labels: Labels::Drawn,
            ..case_w(right, 1)
        },
        Case {
            labels: Labels::FewDrawn,
            ..case_w(right, 1)
        },
        Case {
            labels: Labels::Drawn,
            ..case_w(right, 0)
        },
    ]);
    let expected = "\
0 0 2635775572 1851500920 2413327146 2902548390 0 228 3104939599
0 0 2635775572 1851500920 2413327146 2902548390 0 2116 926823380
0 0 2635775572 1851500920 2413327146 2902548390 1 0 3375564954
1 0 2998392346 2664681629 741090 0 1 0 1497665644
0 0 2635775572 1851500920 2413327146 2902548390 0 35908 3021838736
0 0 2635775572 1851500920 2413327146 2902548390 0 14788 1771083283
0 0 2635775572 1851500920 2413327146 2902548390 0 228 3104939599
";
    assert_eq!(lines, expected);
}

#[test]
fn lines_of_a_labelled_book() {
    let lines = answers(&[
        case_tuesday(0, Labels::Left),
        case_tuesday(5, Labels::FewDrawn),
    ]);
    let expected = [
        "0 0 3263524433 1851500920 577796587",
        "0 282 2592568431",
        "0 0 3263524433 1851500920 577796587",
        "0 14540 763812649",
    ];
    for (line, expected) in lines.lines().zip(expected.chunks_exact(2)) {
        assert!(line.starts_with(expected[0]), "{line}");
        assert!(line.ends_with(expected[1]), "{line}");
    }
}

#[test]
fn cases_are_the_same_at_every_call() {
    assert_eq!(stream(&all()), stream(&all()));
}

/// A program over the stream has buffers of these sizes.
#[test]
fn cases_are_many_and_small() {
    let cases = all();
    assert!(cases.len() >= 9_000, "{} cases", cases.len());
    assert!(stream(&cases).len() <= 5_000_000);
    for Case { file, lent, .. } in cases {
        assert!(file.len() <= 60_016);
        assert!(lent.amounts <= 520 && lent.presence <= 16);
        assert!(lent.labels <= 4_104 && lent.output <= 60_008);
    }
}

/// What the cases met, by number of refusal, 0 for none.
#[derive(Debug, Default)]
struct Met {
    loads: BTreeMap<u32, usize>,
    writes: BTreeMap<u32, usize>,
    /// Accepted files written with their own cells, and with others.
    own_cells: usize,
    other_cells: usize,
    indexes: BTreeMap<u32, BTreeSet<u32>>,
    /// Accepted files by version, and by their number of label records.
    versions: [usize; 3],
    label_counts: BTreeMap<usize, usize>,
    /// Accepted files written with other cells, by whose labels.
    labels: [usize; 3],
    /// Written books by length.
    lengths: BTreeSet<u32>,
    /// Accepted files with a node of the kind.
    kinds: BTreeMap<u8, usize>,
    /// Files refused for a node of the kind.
    bad_kinds: BTreeMap<u8, usize>,
}

impl Met {
    fn count(&mut self, case: &Case) {
        let outcome = Outcome::of(case);
        match outcome.refusal {
            None => self.accepted(&case.file),
            Some(refusal) => self.refused(&case.file, refusal),
        }
        match outcome.written {
            Written::Refused(Refusal { number, .. }) => {
                *self.writes.entry(number).or_default() += 1;
            }
            Written::Length(length) => self.written(case, length),
        }
    }

    fn written(&mut self, case: &Case, length: u32) {
        self.lengths.insert(length);
        if case.seed == 0 {
            self.own_cells += 1;
            return;
        }
        self.other_cells += 1;
        self.labels[case.labels as usize] += 1;
    }

    fn accepted(&mut self, file: &[u8]) {
        *self.loads.entry(0).or_default() += 1;
        let book = Book::decode(file).expect("it was accepted");
        self.versions[usize::from(book.version())] += 1;
        if let Some(labels) = &book.labels {
            *self.label_counts.entry(labels.len()).or_default() += 1;
        }
        let kinds: BTreeSet<u8> = book.nodes.iter().map(|node| node.kind).collect();
        for kind in kinds {
            *self.kinds.entry(kind).or_default() += 1;
        }
    }

    fn refused(&mut self, file: &[u8], Refusal { number, index }: Refusal) {
        *self.loads.entry(number).or_default() += 1;
        self.indexes.entry(number).or_default().insert(index);
        if number == 8 {
            let distance = &file[file.len() - 16..][..2];
            let distance = u16::from_le_bytes([distance[0], distance[1]]);
            let start = file.len() - usize::from(distance);
            let kind = file[start + 16 * index as usize];
            *self.bad_kinds.entry(kind).or_default() += 1;
        }
    }
}

#[test]
fn the_cases_meet_enough() {
    let mut met = Met::default();
    all().iter().for_each(|case| met.count(case));
    demand_numbers(&met);
    demand_indexes(&met);
    demand_kinds(&met);
    demand_versions(&met);
}

fn demand_versions(met: &Met) {
    assert!(
        met.versions[1] >= 1_200 && met.versions[2] >= 1_000,
        "{met:?}"
    );
    for (count, files) in [(0, 100), (1, 200), (2, 200), (511, 1), (512, 4)] {
        let label_counts = met.label_counts.get(&count);
        assert!(label_counts >= Some(&files), "{count}: {met:?}");
    }
    assert!(met.labels.iter().all(|&files| files >= 150), "{met:?}");
    // The shortest and the longest.
    for length in [40, 55_176] {
        assert!(met.lengths.contains(&length), "{length}: {:?}", met.lengths);
    }
}

fn demand_numbers(met: &Met) {
    assert!(met.loads[&0] >= 1_200, "{met:?}");
    assert!(met.own_cells >= 500 && met.other_cells >= 500, "{met:?}");
    for number in (1..=10).chain([32]) {
        assert!(met.loads[&number] >= 80, "refusal {number}: {met:?}");
        assert!(met.writes[&number] >= 80, "refusal {number}: {met:?}");
    }
}

fn demand_indexes(met: &Met) {
    for number in 1..=4 {
        assert_eq!(met.indexes[&number], BTreeSet::from([0]), "{number}");
    }
    let most = [
        (5, 512),
        (6, 64),
        (7, 64),
        (8, 1_024),
        (9, 8),
        (10, 8),
        (32, 512),
    ];
    for (number, most) in most {
        let middle = if number == 32 { 255 } else { most / 2 };
        for index in [0, 1, 2, middle, most - 1] {
            let indexes = &met.indexes[&number];
            assert!(indexes.contains(&index), "{number} {index}: {indexes:?}");
        }
    }
}

fn demand_kinds(met: &Met) {
    for kind in 0..=255 {
        let accepted = met.kinds.get(&kind);
        let bad = met.bad_kinds.get(&kind);
        let enough = match kind {
            1..=6 | 8..=11 | 16..=26 => accepted >= Some(&20) && bad >= Some(&20),
            _ => accepted.is_none() && bad >= Some(&1),
        };
        assert!(enough, "kind {kind}: {accepted:?} accepted, {bad:?} bad");
    }
}

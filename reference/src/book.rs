//! A book as records, and the bytes of its file.

use crate::places::Places;

/// A present cell and its amount.
#[derive(Clone, Copy, Debug, PartialEq, Eq)]
pub struct Cell {
    pub table: u8,
    pub owner: u8,
    pub line: u8,
    pub amount: i32,
}

/// A table with a range of owners and a range of lines, ends included.
#[derive(Clone, Copy, Debug, PartialEq, Eq)]
pub struct Region {
    pub table: u8,
    pub owner_first: u8,
    pub owner_last: u8,
    pub line_first: u8,
    pub line_last: u8,
}

/// A right at the start: `kind` is 0 public, 1 read, 2 write.
#[derive(Clone, Copy, Debug, PartialEq, Eq)]
pub struct Right {
    pub kind: u8,
    pub user: u8,
    pub region: u8,
}

/// An expression or a command.
#[derive(Clone, Copy, Debug, Default, PartialEq, Eq)]
pub struct Node {
    pub kind: u8,
    pub p: u8,
    pub a: u16,
    pub b: u16,
    pub c: u16,
    pub d: u16,
    pub k: i32,
}

/// A script: its user and its first command.
#[derive(Clone, Copy, Debug, PartialEq, Eq)]
pub struct Program {
    pub user: u8,
    pub root: u16,
}

/// A command that runs after writes to a region: `event` is 1 put, 2 clear.
#[derive(Clone, Copy, Debug, PartialEq, Eq)]
pub struct Trigger {
    pub region: u8,
    pub event: u8,
    pub user: u8,
    pub body: u16,
}

/// The label that a cell, present or absent, has at the start. Cells without
/// such a record are labelled by their own place alone.
#[derive(Clone, Copy, Debug, PartialEq, Eq)]
pub struct LabelRecord {
    pub place: u16,
    pub label: Places,
}

/// The records of a book file, section by section.
#[derive(Clone, Debug, Default, PartialEq, Eq)]
pub struct Book {
    pub cells: Vec<Cell>,
    pub regions: Vec<Region>,
    pub rights: Vec<Right>,
    pub nodes: Vec<Node>,
    pub programs: Vec<Program>,
    pub triggers: Vec<Trigger>,
    /// None in a book of version 1, which has no such section.
    pub labels: Option<Vec<LabelRecord>>,
}

/// Why a file is not run: the refusal's number and the first bad record's index.
#[derive(Clone, Copy, Debug, PartialEq, Eq)]
pub struct Refusal {
    pub number: u32,
    pub index: u32,
}

impl Region {
    /// Whether the cell lies in the region.
    pub fn holds(&self, table: u8, owner: u8, line: u8) -> bool {
        table == self.table
            && (self.owner_first..=self.owner_last).contains(&owner)
            && (self.line_first..=self.line_last).contains(&line)
    }
}

/// Node kinds by name.
pub mod kind {
    pub const CONSTANT: u8 = 1;
    pub const VARIABLE: u8 = 2;
    pub const ADD: u8 = 3;
    pub const SUBTRACT: u8 = 4;
    pub const EQUAL: u8 = 5;
    pub const LESS: u8 = 6;
    pub const COUNT: u8 = 8;
    pub const SUM: u8 = 9;
    pub const SMALLEST: u8 = 10;
    pub const LARGEST: u8 = 11;
    pub const SKIP: u8 = 16;
    pub const ASSIGN: u8 = 17;
    pub const THEN: u8 = 18;
    pub const IF: u8 = 19;
    pub const WHILE: u8 = 20;
    pub const PUT: u8 = 21;
    pub const CLEAR: u8 = 22;
    pub const OUT: u8 = 23;
    pub const GRANT: u8 = 24;
    pub const REVOKE: u8 = 25;
    pub const RAISE: u8 = 26;
}

/// How the trailer opens: the mark, the version and three zero bytes.
pub(crate) fn opening(version: u8) -> [u8; 8] {
    let [b, k, w, s] = *b"BKWS";
    [b, k, w, s, version, 0, 0, 0]
}

impl Book {
    /// The file of these records. Bad records and too many of them are written
    /// as they stand. Distances and counts wrap at 16 bits, which only happens
    /// to a file too long to be accepted.
    pub fn encode(&self) -> Vec<u8> {
        let sections = [
            join(&self.cells, cell_bytes),
            join(&self.regions, region_bytes),
            join(&self.rights, right_bytes),
            join(&self.nodes, node_bytes),
            join(&self.programs, program_bytes),
            join(&self.triggers, trigger_bytes),
            join(self.labels.as_deref().unwrap_or_default(), label_bytes),
        ];
        let mut file = sections.concat();
        let length = file.len() + self.tail();
        let mut pairs = Vec::with_capacity(28);
        let mut distance = length;
        for (section, count) in sections.iter().zip(self.counts()) {
            pairs.extend((distance as u16).to_le_bytes());
            pairs.extend((count as u16).to_le_bytes());
            distance -= section.len();
        }
        let (six, seventh) = pairs.split_at(24);
        if self.labels.is_some() {
            file.extend(seventh);
        }
        file.extend(opening(self.version()));
        file.extend(six);
        file.extend((length as u32).to_le_bytes());
        file
    }

    /// The version of its file.
    pub fn version(&self) -> u8 {
        match self.labels {
            None => 1,
            Some(_) => 2,
        }
    }

    /// The bytes of its file that follow the records: the trailer, and in version
    /// 2 the seventh pair before it.
    fn tail(&self) -> usize {
        match self.labels {
            None => 36,
            Some(_) => 40,
        }
    }

    /// How many records each section has.
    pub fn counts(&self) -> [usize; 7] {
        [
            self.cells.len(),
            self.regions.len(),
            self.rights.len(),
            self.nodes.len(),
            self.programs.len(),
            self.triggers.len(),
            self.labels.as_ref().map_or(0, Vec::len),
        ]
    }

    /// Makes the present cells, by place, the book's cells. Amounts of absent
    /// cells are dropped.
    pub fn replace_cells(&mut self, amounts: &[i32], presence: &[u64]) {
        self.cells.clear();
        for (place, &amount) in amounts.iter().enumerate() {
            if presence[place / 64] >> (place % 64) & 1 == 1 {
                self.cells.push(Cell {
                    table: (place / 64) as u8,
                    owner: (place / 8 % 8) as u8,
                    line: (place % 8) as u8,
                    amount,
                });
            }
        }
    }

    /// The label of each of the 512 cells at the start.
    pub fn start_labels(&self) -> Vec<Places> {
        let mut labels: Vec<Places> = (0..512).map(Places::single).collect();
        for record in self.labels.iter().flatten() {
            labels[usize::from(record.place)] = record.label;
        }
        labels
    }

    /// Makes these the labels at the start, eight words for each of the 512 cells,
    /// whether it is present or not. The book is then one of version 2.
    pub fn replace_labels(&mut self, labels: &[u64]) {
        let mut records = Vec::new();
        for (place, words) in labels.chunks_exact(8).enumerate() {
            let label = Places::from_words(words);
            if label != Places::single(place) {
                let place = place as u16;
                records.push(LabelRecord { place, label });
            }
        }
        self.labels = Some(records);
    }
}

fn join<T, const SIZE: usize>(records: &[T], bytes: fn(&T) -> [u8; SIZE]) -> Vec<u8> {
    records.iter().flat_map(bytes).collect()
}

fn cell_bytes(cell: &Cell) -> [u8; 8] {
    let [w, x, y, z] = cell.amount.to_le_bytes();
    [cell.table, cell.owner, cell.line, 0, w, x, y, z]
}

fn region_bytes(region: &Region) -> [u8; 8] {
    [
        region.table,
        region.owner_first,
        region.owner_last,
        region.line_first,
        region.line_last,
        0,
        0,
        0,
    ]
}

fn right_bytes(right: &Right) -> [u8; 4] {
    [right.kind, right.user, right.region, 0]
}

fn node_bytes(node: &Node) -> [u8; 16] {
    let mut bytes = [0; 16];
    bytes[0] = node.kind;
    bytes[1] = node.p;
    bytes[2..4].copy_from_slice(&node.a.to_le_bytes());
    bytes[4..6].copy_from_slice(&node.b.to_le_bytes());
    bytes[6..8].copy_from_slice(&node.c.to_le_bytes());
    bytes[8..10].copy_from_slice(&node.d.to_le_bytes());
    bytes[10..14].copy_from_slice(&node.k.to_le_bytes());
    bytes
}

fn program_bytes(program: &Program) -> [u8; 4] {
    let [low, high] = program.root.to_le_bytes();
    [program.user, 0, low, high]
}

fn trigger_bytes(trigger: &Trigger) -> [u8; 8] {
    let [low, high] = trigger.body.to_le_bytes();
    let Trigger {
        region,
        event,
        user,
        ..
    } = *trigger;
    [region, event, user, 0, low, high, 0, 0]
}

fn label_bytes(record: &LabelRecord) -> [u8; 66] {
    let mut bytes = [0; 66];
    bytes[..2].copy_from_slice(&record.place.to_le_bytes());
    for (eight, word) in bytes[2..].chunks_exact_mut(8).zip(record.label.0) {
        eight.copy_from_slice(&word.to_le_bytes());
    }
    bytes
}

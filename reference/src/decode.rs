//! Reading a book file: every check that can refuse it, in the fixed order.

use crate::book::{
    kind, opening, Book, Cell, LabelRecord, Node, Program, Refusal, Region, Right, Trigger,
};
use crate::places::{place, Places};

pub(crate) const TRAILER: usize = 36;
/// The bytes of a distance and a count.
pub(crate) const PAIR: usize = 4;
pub(crate) const LONGEST: usize = 60_000;

/// For each section, the most records it may have and the bytes of each. Only
/// files of version 2 have the last.
pub(crate) const SECTIONS: [(usize, usize); 7] = [
    (512, 8),
    (64, 8),
    (64, 4),
    (1_024, 16),
    (8, 4),
    (8, 8),
    (512, 66),
];

impl Book {
    /// The records of a file, or refusal 2–10 or 32 with the first bad record's
    /// index.
    pub fn decode(file: &[u8]) -> Result<Book, Refusal> {
        let (version, sections) = split(file)?;
        let mut last_place = None;
        let cells = read(5, sections[0], 8, |raw| cell(raw, &mut last_place))?;
        let regions = read(6, sections[1], 8, region)?;
        let rights = read(7, sections[2], 4, |raw| right(raw, regions.len()))?;
        let mut traits = Vec::new();
        let nodes = read(8, sections[3], 16, |raw| {
            node(raw, regions.len(), &mut traits)
        })?;
        let programs = read(9, sections[4], 4, |raw| program(raw, &traits))?;
        let triggers = read(10, sections[5], 8, |raw| {
            trigger(raw, regions.len(), &traits)
        })?;
        let mut last_labelled = None;
        let labels = read(32, sections[6], 66, |raw| label(raw, &mut last_labelled))?;
        Ok(Book {
            cells,
            regions,
            rights,
            nodes,
            programs,
            triggers,
            labels: (version == 2).then_some(labels),
        })
    }
}

/// Refusals 2–4; then the version and the bytes of each section, none for one
/// that the version does not have.
fn split(file: &[u8]) -> Result<(u8, [&[u8]; 7]), Refusal> {
    let refuse = |number| Err(Refusal { number, index: 0 });
    let length = file.len();
    if !(TRAILER..=LONGEST).contains(&length) {
        return refuse(2);
    }
    let trailer = &file[length - TRAILER..];
    let length_field = u32::from_le_bytes([trailer[32], trailer[33], trailer[34], trailer[35]]);
    if length_field as usize != length {
        return refuse(2);
    }
    let version = trailer[4];
    if !(1..=2).contains(&version) || trailer[..8] != opening(version) {
        return refuse(3);
    }
    match section_starts(file, version) {
        Some(starts) => {
            let section = |i: usize| &file[starts[i]..starts[i + 1]];
            Ok((version, std::array::from_fn(section)))
        }
        None => refuse(4),
    }
}

/// Where each section starts, and where the last one ends. None unless they
/// fill the file up to the pairs.
fn section_starts(file: &[u8], version: u8) -> Option<[usize; 8]> {
    let length = file.len();
    let mut pairs: Vec<&[u8]> = file[length - TRAILER + 8..length - 4]
        .chunks_exact(PAIR)
        .collect();
    let mut tail = TRAILER;
    if version == 2 {
        tail += PAIR;
        pairs.push(file.get(length.checked_sub(tail)?..)?);
    }
    let mut starts = [0; 8];
    let mut start = 0;
    for (section, (most, size)) in SECTIONS.into_iter().enumerate() {
        if let Some(pair) = pairs.get(section) {
            let distance = usize::from(word(pair, 0));
            let count = usize::from(word(pair, 2));
            if count > most || start + distance != length {
                return None;
            }
            start += count * size;
        }
        starts[section + 1] = start;
    }
    (start + tail == length).then_some(starts)
}

/// Reads a section record by record; the first that `record` turns down is
/// refused by its index.
fn read<T>(
    number: u32,
    bytes: &[u8],
    size: usize,
    mut record: impl FnMut(&[u8]) -> Option<T>,
) -> Result<Vec<T>, Refusal> {
    let mut records = Vec::with_capacity(bytes.len() / size);
    for (index, raw) in bytes.chunks_exact(size).enumerate() {
        let Some(good) = record(raw) else {
            let index = index as u32;
            return Err(Refusal { number, index });
        };
        records.push(good);
    }
    Ok(records)
}

fn word(bytes: &[u8], at: usize) -> u16 {
    u16::from_le_bytes([bytes[at], bytes[at + 1]])
}

fn signed(bytes: &[u8], at: usize) -> i32 {
    i32::from_le_bytes([bytes[at], bytes[at + 1], bytes[at + 2], bytes[at + 3]])
}

/// `last` is the place of the record before, which this one has to exceed.
fn cell(raw: &[u8], last: &mut Option<usize>) -> Option<Cell> {
    let (table, owner, line) = (raw[0], raw[1], raw[2]);
    if table > 7 || owner > 7 || line > 7 || raw[3] != 0 {
        return None;
    }
    let here = Some(place(table, owner, line));
    if here <= *last {
        return None;
    }
    *last = here;
    Some(Cell {
        table,
        owner,
        line,
        amount: signed(raw, 4),
    })
}

/// `last` is the place of the record before, which this one has to exceed. A
/// label that the cell would have anyway needs no record, so there may be none.
fn label(raw: &[u8], last: &mut Option<u16>) -> Option<LabelRecord> {
    let place = word(raw, 0);
    if place > 511 || Some(place) <= *last {
        return None;
    }
    *last = Some(place);
    let mut label = Places::EMPTY;
    for (word, bytes) in label.0.iter_mut().zip(raw[2..].chunks_exact(8)) {
        *word = bytes
            .iter()
            .rev()
            .fold(0, |w, &byte| w << 8 | u64::from(byte));
    }
    (label != Places::single(place.into())).then_some(LabelRecord { place, label })
}

fn region(raw: &[u8]) -> Option<Region> {
    let region = Region {
        table: raw[0],
        owner_first: raw[1],
        owner_last: raw[2],
        line_first: raw[3],
        line_last: raw[4],
    };
    let good = region.table <= 7
        && region.owner_first <= region.owner_last
        && region.owner_last <= 7
        && region.line_first <= region.line_last
        && region.line_last <= 7
        && raw[5..8] == [0, 0, 0];
    good.then_some(region)
}

fn right(raw: &[u8], regions: usize) -> Option<Right> {
    let right = Right {
        kind: raw[0],
        user: raw[1],
        region: raw[2],
    };
    // A public right is nobody's in particular, so it names no user.
    let last_user = if right.kind == 0 { 0 } else { 7 };
    let good = right.kind <= 2
        && right.user <= last_user
        && usize::from(right.region) < regions
        && raw[3] == 0;
    good.then_some(right)
}

fn program(raw: &[u8], nodes: &[Traits]) -> Option<Program> {
    let program = Program {
        user: raw[0],
        root: word(raw, 2),
    };
    let root = nodes.get(usize::from(program.root))?;
    let good = program.user <= 7 && raw[1] == 0 && root.command;
    good.then_some(program)
}

fn trigger(raw: &[u8], regions: usize, nodes: &[Traits]) -> Option<Trigger> {
    let trigger = Trigger {
        region: raw[0],
        event: raw[1],
        user: raw[2],
        body: word(raw, 4),
    };
    let body = nodes.get(usize::from(trigger.body))?;
    let good = usize::from(trigger.region) < regions
        && (trigger.event == 1 || trigger.event == 2)
        && trigger.user <= 7
        && raw[3] == 0
        && body.command
        && !body.barred
        && raw[6..8] == [0, 0];
    good.then_some(trigger)
}

/// What later records ask about a node.
struct Traits {
    command: bool,
    /// It is, or reaches, a command that a trigger body may not reach.
    barred: bool,
}

/// What the field p of a node means.
#[derive(Clone, Copy)]
enum Small {
    Unused,
    Variable,
    Table,
    User,
}

/// What one of the fields a to d of a node means.
#[derive(Clone, Copy)]
enum Wide {
    Unused,
    Expression,
    Command,
    Region,
    ReadOrWrite,
}

/// The meaning of p, a, b, c and d for a kind of node; `None` for a bad kind.
fn fields(kind: u8) -> Option<(Small, [Wide; 4])> {
    use Wide::{Command, Expression, ReadOrWrite, Region, Unused};
    Some(match kind {
        kind::CONSTANT => (Small::Unused, [Unused; 4]),
        kind::VARIABLE => (Small::Variable, [Unused; 4]),
        kind::ADD | kind::SUBTRACT | kind::EQUAL | kind::LESS => {
            (Small::Unused, [Expression, Expression, Unused, Unused])
        }
        kind::COUNT | kind::SUM | kind::SMALLEST | kind::LARGEST => (Small::Table, [Expression; 4]),
        kind::SKIP => (Small::Unused, [Unused; 4]),
        kind::ASSIGN => (Small::Variable, [Expression, Unused, Unused, Unused]),
        kind::THEN => (Small::Unused, [Command, Command, Unused, Unused]),
        kind::IF => (Small::Unused, [Expression, Command, Command, Unused]),
        kind::WHILE => (Small::Unused, [Expression, Command, Unused, Unused]),
        kind::PUT => (Small::Table, [Expression, Expression, Expression, Unused]),
        kind::CLEAR => (Small::Table, [Expression, Expression, Unused, Unused]),
        kind::OUT => (Small::User, [Expression, Unused, Unused, Unused]),
        kind::GRANT | kind::REVOKE => (Small::User, [Region, ReadOrWrite, Unused, Unused]),
        kind::RAISE => (Small::Variable, [Region, Unused, Unused, Unused]),
        _ => return None,
    })
}

/// `before` has the traits of all lower nodes and gains this node's. As a
/// child is always lower, one look at each child is enough, however often
/// nodes are shared.
fn node(raw: &[u8], regions: usize, before: &mut Vec<Traits>) -> Option<Node> {
    let node = Node {
        kind: raw[0],
        p: raw[1],
        a: word(raw, 2),
        b: word(raw, 4),
        c: word(raw, 6),
        d: word(raw, 8),
        k: signed(raw, 10),
    };
    let (small, wide) = fields(node.kind)?;
    if !small_fits(small, node.p) || raw[14..16] != [0, 0] {
        return None;
    }
    if node.k != 0 && node.kind != kind::CONSTANT {
        return None;
    }
    let mut barred = matches!(
        node.kind,
        kind::WHILE | kind::OUT | kind::GRANT | kind::REVOKE
    );
    for (meaning, value) in wide.into_iter().zip([node.a, node.b, node.c, node.d]) {
        if !wide_fits(meaning, usize::from(value), regions, before) {
            return None;
        }
        if matches!(meaning, Wide::Command) {
            barred |= before[usize::from(value)].barred;
        }
    }
    before.push(Traits {
        command: node.kind >= kind::SKIP,
        barred,
    });
    Some(node)
}

fn small_fits(meaning: Small, value: u8) -> bool {
    match meaning {
        Small::Unused => value == 0,
        Small::Variable => value <= 15,
        Small::Table | Small::User => value <= 7,
    }
}

fn wide_fits(meaning: Wide, value: usize, regions: usize, before: &[Traits]) -> bool {
    match meaning {
        Wide::Unused => value == 0,
        Wide::Expression => before.get(value).is_some_and(|child| !child.command),
        Wide::Command => before.get(value).is_some_and(|child| child.command),
        Wide::Region => value < regions,
        Wide::ReadOrWrite => value == 1 || value == 2,
    }
}

//! Files that are wrong, or just right, in one of many ways.

use crate::book::{Book, Cell, LabelRecord, Node, Program, Region, Right, Trigger};
use crate::places::Places;
use crate::random::Random;

/// The file of a book after some damage. A few such files are still accepted.
pub fn damaged(random: &mut Random, book: &Book) -> Vec<u8> {
    if random.chance(4) {
        return noise(random);
    }
    let mut book = book.clone();
    if random.chance(60) {
        damage_records(random, &mut book);
    }
    let mut file = book.encode();
    let tail = if book.labels.is_some() { 40 } else { 36 };
    for _ in 0..random.below(3) {
        damage_bytes(random, &mut file, tail);
    }
    file
}

fn noise(random: &mut Random) -> Vec<u8> {
    let length = random.below(400);
    (0..length).map(|_| random.word() as u8).collect()
}

/// A byte at or next to some limit, or any byte.
fn edge(random: &mut Random) -> u8 {
    let any = random.word() as u8;
    random.pick(&[0, 1, 2, 3, 7, 8, 15, 16, 26, 27, 63, 64, 255, any])
}

fn damage_records(random: &mut Random, book: &mut Book) {
    if let Some(labels) = &mut book.labels {
        match random.below(6) {
            0 => return shuffle(random, labels, 512),
            1..=2 => return change(random, labels, damage_label),
            _ => {}
        }
    }
    match random.below(12) {
        0 => shuffle(random, &mut book.cells, 512),
        1 => shuffle(random, &mut book.regions, 64),
        2 => shuffle(random, &mut book.rights, 64),
        3 => shuffle(random, &mut book.nodes, 1_024),
        4 => shuffle(random, &mut book.programs, 8),
        5 => shuffle(random, &mut book.triggers, 8),
        6 => change(random, &mut book.cells, damage_cell),
        7 => change(random, &mut book.regions, damage_region),
        8 => change(random, &mut book.rights, damage_right),
        9 => change(random, &mut book.nodes, damage_node),
        10 => change(random, &mut book.programs, damage_program),
        _ => change(random, &mut book.triggers, damage_trigger),
    }
}

/// Swaps two records, copies one over another, drops one, or adds copies until
/// the section is full or one too full.
fn shuffle<T: Copy>(random: &mut Random, records: &mut Vec<T>, most: usize) {
    if records.is_empty() {
        return;
    }
    let from = random.below(records.len());
    let to = random.below(records.len());
    match random.below(5) {
        0 | 1 => records.swap(from, to),
        2 => records[to] = records[from],
        3 => {
            records.remove(from);
        }
        _ => {
            let full = most + random.below(2);
            let copy = records[from];
            records.resize(full, copy);
        }
    }
}

fn change<T>(random: &mut Random, records: &mut [T], damage: fn(&mut Random, &mut T)) {
    if records.is_empty() {
        return;
    }
    let index = random.below(records.len());
    damage(random, &mut records[index]);
}

fn damage_cell(random: &mut Random, cell: &mut Cell) {
    let value = edge(random);
    match random.below(3) {
        0 => cell.table = value,
        1 => cell.owner = value,
        _ => cell.line = value,
    }
}

fn damage_region(random: &mut Random, region: &mut Region) {
    let value = edge(random);
    match random.below(5) {
        0 => region.table = value,
        1 => region.owner_first = value,
        2 => region.owner_last = value,
        3 => region.line_first = value,
        _ => region.line_last = value,
    }
}

fn damage_right(random: &mut Random, right: &mut Right) {
    let value = edge(random);
    match random.below(3) {
        0 => right.kind = value,
        1 => right.user = value,
        _ => right.region = value,
    }
}

fn damage_node(random: &mut Random, node: &mut Node) {
    let value = edge(random);
    let any = random.below(1_030) as u16;
    let wide = random.pick(&[u16::from(value), any]);
    match random.below(7) {
        0 => node.kind = value,
        1 => node.p = value,
        2 => node.a = wide,
        3 => node.b = wide,
        4 => node.c = wide,
        5 => node.d = wide,
        _ => node.k = i32::from(value),
    }
}

fn damage_program(random: &mut Random, program: &mut Program) {
    match random.below(2) {
        0 => program.user = edge(random),
        _ => program.root = random.below(1_030) as u16,
    }
}

fn damage_trigger(random: &mut Random, trigger: &mut Trigger) {
    let value = edge(random);
    match random.below(4) {
        0 => trigger.region = value,
        1 => trigger.event = value,
        2 => trigger.user = value,
        _ => trigger.body = random.below(1_030) as u16,
    }
}

fn damage_label(random: &mut Random, record: &mut LabelRecord) {
    match random.below(4) {
        0 => record.label = Places::single(usize::from(record.place) % 512),
        1 => record.place += 512,
        2 => record.place = random.below(520) as u16,
        _ => record.place = random.pick(&[0, 511, 512, u16::MAX]),
    }
}

/// `tail` is the length of the pairs and the trailer.
fn damage_bytes(random: &mut Random, file: &mut Vec<u8>, tail: usize) {
    if file.is_empty() {
        return;
    }
    let at = random.below(file.len());
    let in_trailer = file.len() - 1 - random.below(file.len().min(tail));
    match random.below(8) {
        0 => file[at] ^= 1 << random.below(8),
        1 => file[at] = edge(random),
        2 => file[in_trailer] ^= 1 << random.below(8),
        3 => file[in_trailer] = edge(random),
        4 => file.truncate(at),
        5 => file.insert(at, edge(random)),
        6 => {
            file.remove(at);
        }
        _ => {
            let longer = file.len() + random.pick(&[1, 4, 36, 100, 60_000]);
            file.resize(longer, 0);
        }
    }
}

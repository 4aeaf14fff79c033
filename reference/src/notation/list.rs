//! From a book to its text.

use super::label::words;
use crate::book::{kind, Book, Cell, LabelRecord, Node, Region, Right};

/// The text of an accepted book. Regions are named r0, r1 and so on, nodes
/// n0, n1 and so on.
pub fn list(book: &Book) -> String {
    let mut text = String::new();
    let mut line = |sentence: String| {
        text.push_str(&sentence);
        text.push('\n');
    };
    book.cells.iter().map(cell).for_each(&mut line);
    for (index, record) in book.regions.iter().enumerate() {
        line(format!("region r{index} = {}", region(record)));
    }
    book.rights.iter().map(right).for_each(&mut line);
    for (index, record) in book.nodes.iter().enumerate() {
        line(format!("node n{index} = {}", node(record)));
    }
    for program in &book.programs {
        line(format!("program {} n{}", program.user, program.root));
    }
    for trigger in &book.triggers {
        let event = if trigger.event == 1 { "put" } else { "clear" };
        let (region, user, body) = (trigger.region, trigger.user, trigger.body);
        line(format!("trigger r{region} {event} {user} n{body}"));
    }
    if let Some(labels) = &book.labels {
        line("version 2".to_string());
        labels.iter().map(label).for_each(&mut line);
    }
    text
}

fn cell(cell: &Cell) -> String {
    let (table, owner, line) = (cell.table, cell.owner, cell.line);
    format!("cell {table} {owner} {line} = {}", cell.amount)
}

fn label(record: &LabelRecord) -> String {
    let place = record.place;
    let (table, owner, line) = (place / 64, place / 8 % 8, place % 8);
    format!("label {table} {owner} {line} = {}", words(&record.label))
}

fn region(region: &Region) -> String {
    format!(
        "table {} owners {}-{} lines {}-{}",
        region.table, region.owner_first, region.owner_last, region.line_first, region.line_last
    )
}

fn right(right: &Right) -> String {
    let (user, region) = (right.user, right.region);
    match right.kind {
        0 => format!("public r{region}"),
        1 => format!("read {user} r{region}"),
        _ => format!("write {user} r{region}"),
    }
}

fn node(node: &Node) -> String {
    let Node {
        p, a, b, c, d, k, ..
    } = *node;
    let query = |word| format!("{word} table {p} owners n{a} to n{b} lines n{c} to n{d}");
    let set = if b == 1 { "read" } else { "write" };
    match node.kind {
        kind::CONSTANT => format!("constant {k}"),
        kind::VARIABLE => format!("variable {p}"),
        kind::ADD => format!("n{a} + n{b}"),
        kind::SUBTRACT => format!("n{a} - n{b}"),
        kind::EQUAL => format!("n{a} equals n{b}"),
        kind::LESS => format!("n{a} less n{b}"),
        kind::COUNT => query("count"),
        kind::SUM => query("sum"),
        kind::SMALLEST => query("smallest"),
        kind::LARGEST => query("largest"),
        kind::SKIP => "skip".to_string(),
        kind::ASSIGN => format!("set {p} to n{a}"),
        kind::THEN => format!("n{a} then n{b}"),
        kind::IF => format!("if n{a} then n{b} else n{c}"),
        kind::WHILE => format!("while n{a} do n{b}"),
        kind::PUT => format!("put n{c} at table {p} owner n{a} line n{b}"),
        kind::CLEAR => format!("clear table {p} owner n{a} line n{b}"),
        kind::OUT => format!("out n{a} to {p}"),
        kind::GRANT => format!("grant {set} r{a} to {p}"),
        kind::REVOKE => format!("revoke {set} r{a} from {p}"),
        kind::RAISE => format!("raise {p} by r{a}"),
        // No accepted book has another kind; the text says so, and does not assemble.
        other => format!("unknown {other}"),
    }
}

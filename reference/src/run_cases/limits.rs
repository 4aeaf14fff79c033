//! Every limit of a book, of the budget and of the trace, and one past it.

use super::office::{block, constant, doubled, query, tell};
use super::Case;
use crate::book::{kind, Book, Cell};
use crate::builder::Builder;

pub(super) fn cases() -> Vec<Case> {
    let mut cases = budgets();
    cases.extend(without_programs());
    cases.extend(traces());
    cases.extend(books());
    cases
}

/// A book that costs a million, with about that budget.
fn budgets() -> Vec<Case> {
    [999_998, 999_999, 1_000_000, 1_000_001]
        .map(|budget| Case::ample(million().encode()).with_budget(budget))
        .to_vec()
}

/// The shortest book, which costs nothing.
fn without_programs() -> Vec<Case> {
    [0, 1, 999_999, 1_000_000, 1_000_001]
        .map(|budget| Case::ample(Book::default().encode()).with_budget(budget))
        .to_vec()
}

/// Doubling a skip n times costs 2 to the n + 1 in all, less 1; and so does each
/// command that joins two of these. A second program costs the 1 that is left.
fn million() -> Book {
    let mut b = Builder::new();
    let skip = b.skip();
    let mut parts = Vec::new();
    let mut last = skip;
    for bit in 1..20 {
        if 1_000_000 >> bit & 1 == 1 {
            parts.push(last);
        }
        last = b.then(last, last);
    }
    let root = block(&mut b, &parts);
    b.program(0, root);
    b.program(0, skip);
    b.book
}

/// As many records as the longest trace holds, and one more, with traces of
/// many lengths.
fn traces() -> Vec<Case> {
    let near = [65_527, 65_528, 65_529, 65_535, 65_536, 65_537];
    let mut cases = Vec::new();
    for trace in [0, 1, 7, 8, 9, 15, 16, 17, 63, 64, 65]
        .into_iter()
        .chain(near)
    {
        cases.push(Case::ample(records(false)).with_trace(trace));
    }
    for trace in near {
        cases.push(Case::ample(records(true)).with_trace(trace));
    }
    let budget = 30_000;
    cases
        .into_iter()
        .map(|case| case.with_budget(budget))
        .collect()
}

/// 8,192 records, or one more, which grants.
fn records(more: bool) -> Vec<u8> {
    let mut b = Builder::new();
    let region = b.region(0, 0..=7, 0..=7);
    let out = tell(&mut b, 5, 0x0807_0605);
    let root = doubled(&mut b, out, 13);
    b.program(0, root);
    if more {
        let grant = b.grant_write(6, region);
        b.program(0, grant);
    }
    b.book.encode()
}

fn books() -> Vec<Case> {
    let past = PAST.into_iter().map(|change| {
        let mut book = at_limits();
        change(&mut book);
        book
    });
    past.chain(full_sections())
        .map(|book| Case::ample(book.encode()).with_trace(512))
        .collect()
}

/// A book in which every number is as large as it may be; the sections of
/// cells and nodes are not full.
fn at_limits() -> Book {
    let mut b = Builder::new();
    b.cell(7, 7, 7, i32::MAX);
    for _ in 0..63 {
        b.region(0, 0..=0, 0..=0);
    }
    let last = b.region(7, 7..=7, 7..=7);
    for region in 0..62 {
        b.read(0, region);
    }
    b.read(7, last);
    b.write(7, last);
    let seven = constant(&mut b, 7);
    let least = constant(&mut b, i32::MIN);
    let variable = b.variable(15);
    let sum = b.query(kind::SUM, 7, [seven; 4]);
    let commands = [
        b.assign(15, least),
        b.put(7, seven, seven, variable),
        b.out(7, sum),
        b.clear(7, seven, seven),
        b.raise(15, last),
    ];
    let grant = b.grant_write(7, last);
    let root = block(&mut b, &commands);
    b.program(0, grant);
    for _ in 0..7 {
        b.program(7, root);
        b.put_trigger(last, 7, commands[4]);
    }
    b.clear_trigger(last, 7, commands[0]);
    b.book
}

/// Where the nodes of that book stand.
const VARIABLE: usize = 2;
const SUM: usize = 3;
const ASSIGN: usize = 4;
const PUT: usize = 5;
const OUT: usize = 6;
const CLEAR: usize = 7;
const RAISE: usize = 8;
const GRANT: usize = 9;

/// Nothing, and then each number one larger, or a section with one more.
const PAST: [fn(&mut Book); 32] = [
    |_| {},
    |book| book.cells[0].table = 8,
    |book| book.cells[0].owner = 8,
    |book| book.cells[0].line = 8,
    |book| book.regions[63].table = 8,
    |book| book.regions[63].owner_last = 8,
    |book| book.regions[63].line_last = 8,
    |book| book.regions[0].owner_first = 1,
    |book| book.regions[0].line_first = 1,
    |book| book.regions.push(book.regions[0]),
    |book| book.rights[63].kind = 3,
    |book| book.rights[63].user = 8,
    |book| book.rights[62].region = 64,
    |book| book.rights.push(book.rights[0]),
    |book| book.nodes[VARIABLE].p = 16,
    |book| book.nodes[SUM].p = 8,
    |book| book.nodes[SUM].d = SUM as u16,
    |book| book.nodes[ASSIGN].p = 16,
    |book| book.nodes[PUT].p = 8,
    |book| book.nodes[OUT].p = 8,
    |book| book.nodes[CLEAR].p = 8,
    |book| book.nodes[RAISE].p = 16,
    |book| book.nodes[RAISE].a = 64,
    |book| book.nodes[GRANT].p = 8,
    |book| book.nodes[GRANT].b = 3,
    |book| book.programs[7].user = 8,
    |book| book.programs[7].root = book.nodes.len() as u16,
    |book| book.programs.push(book.programs[0]),
    |book| book.triggers[7].region = 64,
    |book| book.triggers[7].event = 3,
    |book| book.triggers[7].body = book.nodes.len() as u16,
    |book| book.triggers.push(book.triggers[0]),
];

/// All cells, and one more; all nodes, and one more.
fn full_sections() -> Vec<Book> {
    let cells = all_cells();
    let mut too_many_cells = cells.clone();
    too_many_cells.cells.push(cells.cells[511]);
    let mut nodes = at_limits();
    nodes.nodes.resize(1_024, nodes.nodes[0]);
    nodes.nodes[1_023] = nodes.nodes[RAISE];
    nodes.programs[7].root = 1_023;
    nodes.triggers[7].body = 1_023;
    let mut too_many_nodes = nodes.clone();
    too_many_nodes.nodes.push(nodes.nodes[0]);
    vec![cells, too_many_cells, nodes, too_many_nodes]
}

/// Every cell is present; a program for each table puts its sum and clears its
/// last cell.
fn all_cells() -> Book {
    let mut b = Builder::new();
    for place in 0..512 {
        b.book.cells.push(Cell {
            table: (place / 64) as u8,
            owner: (place / 8 % 8) as u8,
            line: (place % 8) as u8,
            amount: 100_003 * place - 25_600_000,
        });
    }
    let [first, last] = [0, 7].map(|key| constant(&mut b, key));
    for table in 0..8 {
        let region = b.region(table, 0..=7, 0..=7);
        b.write(table, region);
        let sum = query(&mut b, kind::SUM, table, [0, 7, 0, 7]);
        let put = b.put(table, first, last, sum);
        let clear = b.clear(table, last, last);
        let root = b.then(put, clear);
        b.program(table, root);
    }
    b.book
}

#[cfg(test)]
mod tests {
    use super::super::Outcome;
    use super::*;
    use crate::run::Answer;

    /// The answer's number, and the cost and trace bytes of a run.
    fn ended(case: &Case) -> (u32, u32, u32) {
        match Outcome::of(case).answer {
            Answer::Refused(refusal) => (refusal.number, 0, 0),
            Answer::Ended {
                number,
                cost,
                bytes,
                ..
            } => (number, cost, bytes),
        }
    }

    #[test]
    fn budgets_end_at_a_million() {
        let ends: Vec<_> = budgets().iter().map(ended).collect();
        let expected = [
            (21, 999_998, 0),
            (21, 999_999, 0),
            (0, 1_000_000, 0),
            (1, 0, 0),
        ];
        assert_eq!(ends, expected);
    }

    #[test]
    fn the_longest_trace_can_be_filled() {
        let finished = |case: &&Case| ended(case).0 == 0;
        let cases = traces();
        let full: Vec<_> = cases.iter().filter(finished).collect();
        assert_eq!(full.len(), 1);
        assert_eq!(full[0].lent.trace, 65_536);
        assert_eq!(ended(full[0]).2, 65_536);
    }

    #[test]
    fn a_book_at_its_limits_finishes_and_no_further_one_runs() {
        let numbers: Vec<u32> = books().iter().map(|case| ended(case).0).collect();
        let (past, full) = numbers.split_at(PAST.len());
        assert_eq!(past[0], 0);
        assert!(past[1..].iter().all(|number| (4..=10).contains(number)));
        assert_eq!(full, [0, 4, 0, 4]);
    }
}

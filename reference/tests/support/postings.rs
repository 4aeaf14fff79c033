//! One book: what a stop takes back, by runs that leave the failed posting or
//! that do not come to it.

use super::commands::reached;
use reference::book::{kind, Book};
use reference::generate;
use reference::notation::list;
use reference::places::Places;
use reference::random::Random;
use reference::run::{carry_out, explain, Answer, Explained, Failed, Memory, Tests};

const BUDGET: u32 = 1_500;
const TRACE: usize = 1_000;

/// Counts over all books tried.
#[derive(Debug, Default)]
pub struct Postings {
    pub finished: usize,
    /// Stops that took a posting back, and others.
    pub taken_back: usize,
    pub stopped: usize,
    /// Of the first, those that were held against a run up to the posting.
    pub cut_short: usize,
}

impl Postings {
    pub fn check(&mut self, seed: u64) -> Result<(), String> {
        let book = generate::often_failing(&mut Random::new(seed));
        let file = book.encode();
        let mut memory = Memory::new(TRACE);
        let explained = explain(&file, BUDGET, &mut memory);
        let Answer::Ended { number, cost, .. } = explained.answer else {
            return Err(format!("{explained:?}"));
        };
        let takes_back = explained.taken_back != Places::EMPTY;
        self.finished += usize::from(number == 0);
        self.taken_back += usize::from(takes_back);
        self.stopped += usize::from(number != 0 && !takes_back);
        let mut checked = compare_left(&file, &explained, &memory);
        if takes_back && checked.is_ok() {
            checked = self.compare_cut_short(&book, cost, &memory);
        }
        checked.map_err(|what| format!("{what}: {explained:?}\n{}", list(&book)))
    }

    /// With less and less budget the run stops on entering the command that is
    /// taken back. The cells that it leaves then are those before the command.
    fn compare_cut_short(&mut self, book: &Book, cost: u32, memory: &Memory) -> Result<(), String> {
        let programs = book.programs.iter().map(|program| program.root);
        let own = reached(book, programs.collect());
        let bodies = book.triggers.iter().map(|trigger| trigger.body);
        let others = reached(book, bodies.collect());
        if !own.is_disjoint(&others) {
            return Ok(());
        }
        let file = book.encode();
        for budget in (0..cost).rev() {
            let mut cut = Memory::new(TRACE);
            let Answer::Ended { number, node, .. } = explain(&file, budget, &mut cut).answer else {
                return Err("refused".to_string());
            };
            let node = node as u16;
            let write = matches!(book.nodes[usize::from(node)].kind, kind::PUT | kind::CLEAR);
            if number == 21 && write && own.contains(&node) {
                self.cut_short += 1;
                return same_cells(&cut, memory);
            }
        }
        Err("the program writes nothing".to_string())
    }
}

/// The posting is left, as far as it came: then the answer, the reason and the
/// trace are the same, and the cells too but for those that were taken back.
fn compare_left(file: &[u8], explained: &Explained, memory: &Memory) -> Result<(), String> {
    let mut left = Memory::new(TRACE);
    let other = carry_out(file, BUDGET, &mut left, Tests::Labelled, Failed::Left);
    let expected = Explained {
        taken_back: Places::EMPTY,
        ..*explained
    };
    if other != expected {
        return Err(format!("{other:?} where the posting is left"));
    }
    if left.trace != memory.trace {
        return Err("another trace where the posting is left".to_string());
    }
    let changed = (0..512).filter(|&place| !same_cell(&left, memory, place));
    match changed.eq(explained.taken_back.members()) {
        true => Ok(()),
        false => Err("other cells changed".to_string()),
    }
}

fn same_cell(one: &Memory, other: &Memory, place: usize) -> bool {
    let presence = |memory: &Memory| memory.presence[place / 64] >> (place % 64) & 1;
    let label = 8 * place..8 * place + 8;
    one.amounts[place] == other.amounts[place]
        && presence(one) == presence(other)
        && one.labels[label.clone()] == other.labels[label]
}

fn same_cells(one: &Memory, other: &Memory) -> Result<(), String> {
    match (0..512).find(|&place| !same_cell(one, other, place)) {
        Some(place) => Err(format!("not as before the posting at place {place}")),
        None => Ok(()),
    }
}

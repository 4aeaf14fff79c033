//! Whether the place that an explanation names is a true reason, by what other
//! runs of nearly the same book do.

use super::Ended;
use reference::book::{kind, Book, Node, Region, Right};
use reference::generate;
use reference::notation::list;
use reference::places::Places;
use reference::random::Random;
use reference::run::{carry_out, explain, Explained, Failed, Memory, Tests};

const BUDGET: u32 = 2_500;
const TRACE: usize = 2_000;

/// Counts over all books tried.
#[derive(Debug, Default)]
pub struct Reasons {
    /// Stops 27 and 29 that were tried with the named place made public.
    pub made_public: usize,
    /// Stops 26 that were held against the cell's label in memory.
    pub in_memory: usize,
    /// Stops 25 and 26 that were tried with an out in place of the command.
    pub told: usize,
}

impl Reasons {
    pub fn check(&mut self, seed: u64) -> Result<(), String> {
        let book = generate::often_failing(&mut Random::new(seed));
        let explained = explain(&book.encode(), BUDGET, &mut Memory::new(TRACE));
        let ended = Ended::of(&explained)?;
        let checked = match ended.number {
            25 => self.tell(&book, &explained, &ended),
            26 => self
                .look(&book, &explained, &ended)
                .and_then(|_| self.tell(&book, &explained, &ended)),
            27 | 29 => self.publish(&book, &explained),
            _ => Ok(()),
        };
        checked.map_err(|what| format!("{what}: {explained:?}\n{}", list(&book)))
    }

    /// Where the named place is public, the run goes the same way up to the same
    /// test, which lacks this place no more; if it lacked no other, the run goes
    /// on.
    fn publish(&mut self, book: &Book, explained: &Explained) -> Result<(), String> {
        let mut book = book.clone();
        let place = explained.place().ok_or("no place")?;
        if book.regions.len() == 64 || book.rights.len() == 64 {
            return Ok(());
        }
        book.rights.push(Right {
            kind: 0,
            user: 0,
            region: book.regions.len() as u8,
        });
        book.regions.push(only(place));
        self.made_public += 1;
        let other = explain(&book.encode(), BUDGET, &mut Memory::new(TRACE));
        let mut rest = explained.lacking;
        rest.remove(&Places::single(place));
        let expected = match rest {
            Places::EMPTY => other.answer != explained.answer,
            _ => other.answer == explained.answer && other.lacking == rest,
        };
        demand(expected, "made public")
    }

    /// A cell that is not written has the label that it was tested against, until
    /// the posting that failed is taken back.
    fn look(&mut self, book: &Book, explained: &Explained, ended: &Ended) -> Result<(), String> {
        let command = book.nodes[ended.node as usize];
        let [owner, line] = [command.a, command.b].map(|key| book.nodes[usize::from(key)]);
        if owner.kind != kind::CONSTANT || line.kind != kind::CONSTANT {
            return Ok(());
        }
        self.in_memory += 1;
        let mut memory = Memory::new(TRACE);
        let (file, failed) = (book.encode(), Failed::Left);
        carry_out(&file, BUDGET, &mut memory, Tests::Labelled, failed);
        let place = 64 * usize::from(command.p) + (8 * owner.k + line.k) as usize;
        let label = Places::from_words(&memory.labels[8 * place..8 * place + 8]);
        let mut lacking = explained.lacking;
        lacking.remove(&label);
        demand(lacking == explained.lacking, "in the cell's label")
    }

    /// What may not flow to a variable or a cell, may not flow to a user who has
    /// no right to read it: an out in place of the command lacks it too.
    fn tell(&mut self, book: &Book, explained: &Explained, ended: &Ended) -> Result<(), String> {
        let place = explained.place().ok_or("no place")?;
        let Some(user) = (0..8).find(|&user| !ever_reads(book, user, place)) else {
            return Ok(());
        };
        let Some((other, cost)) = told(book, ended, user) else {
            return Ok(());
        };
        let explained = explain(&other.encode(), BUDGET, &mut Memory::new(TRACE));
        // A trigger's body may have no out.
        let Ok(found) = Ended::of(&explained) else {
            return Ok(());
        };
        let stop = [found.number, found.node, found.cost, found.bytes];
        // Where an earlier turn came to the node, it stopped there or has told
        // something, and the two runs are not at the same test.
        if stop != [27, ended.node, cost, ended.bytes] {
            return Ok(());
        }
        self.told += 1;
        demand(explained.lacking.holds(place), "not lacking in an out")
    }
}

fn demand(holds: bool, what: &str) -> Result<(), String> {
    match holds {
        true => Ok(()),
        false => Err(what.to_string()),
    }
}

/// The region of one place.
fn only(place: usize) -> Region {
    let [owner, line] = [place / 8 % 8, place % 8].map(|key| key as u8);
    Region {
        table: (place / 64) as u8,
        owner_first: owner,
        owner_last: owner,
        line_first: line,
        line_last: line,
    }
}

/// Whether the user may read the place at the start, or by any grant that the
/// book has.
fn ever_reads(book: &Book, user: u8, place: usize) -> bool {
    let holds = |region: u16| Places::of_region(&book.regions[usize::from(region)]).holds(place);
    let by_record = book.rights.iter().any(|right| {
        let concerned = right.kind == 0 || (right.kind == 1 && right.user == user);
        concerned && holds(right.region.into())
    });
    by_record
        || book.nodes.iter().any(|node| {
            let concerned = node.kind == kind::GRANT && node.b == 1 && node.p == user;
            concerned && holds(node.a)
        })
}

/// The book with an out to the user in place of the command that stopped, and
/// the cost of a stop there. The out has the label of the command's context,
/// and that of the key. None where this cannot be had.
fn told(book: &Book, ended: &Ended, user: u8) -> Option<(Book, u32)> {
    let command = book.nodes[ended.node as usize];
    let constant = |number: u16| book.nodes[usize::from(number)].kind == kind::CONSTANT;
    let value = match command.kind {
        kind::RAISE => (0..ended.node as u16).find(|&number| constant(number))?,
        kind::PUT | kind::CLEAR if !constant(command.b) => return None,
        _ => command.a,
    };
    let children: &[u16] = match command.kind {
        kind::ASSIGN => &[command.a],
        kind::RAISE => &[],
        kind::CLEAR => &[command.a, command.b],
        _ => &[command.a, command.b, command.c],
    };
    let before: u32 = children.iter().map(|&child| price(book, child)).sum();
    let mut other = book.clone();
    other.nodes[ended.node as usize] = Node {
        kind: kind::OUT,
        p: user,
        a: value,
        ..Node::default()
    };
    Some((other, ended.cost + price(book, value) - before))
}

/// What evaluating an expression costs.
fn price(book: &Book, expression: u16) -> u32 {
    let node = book.nodes[usize::from(expression)];
    let (own, parts): (u32, &[u16]) = match node.kind {
        kind::CONSTANT | kind::VARIABLE => (1, &[]),
        kind::ADD..=kind::LESS => (1, &[node.a, node.b]),
        _ => (4, &[node.a, node.b, node.c, node.d]),
    };
    own + parts.iter().map(|&part| price(book, part)).sum::<u32>()
}

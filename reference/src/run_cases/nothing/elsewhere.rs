//! Ranges with no present cell, and with one, asked for by a trigger and as a
//! bound of another query.

use super::super::office::{block, constant, put, query, set};
use super::super::Case;
use super::boxes::{cell, with_cells, AMOUNTS};
use super::{finishes, stops, Story, EXTREMES, NOTHINGS};
use crate::book::kind;
use crate::builder::Builder;

pub(super) fn stories() -> Vec<Story> {
    let mut stories = Vec::new();
    for extreme in EXTREMES {
        for range in NOTHINGS {
            stories.extend(asked(extreme, range, None));
        }
        for amount in AMOUNTS {
            stories.extend(asked(extreme, [2, 4, 2, 4], Some(amount)));
        }
    }
    stories
}

/// The extreme of a range of table 3, in which a cell is present with this amount
/// or none is: in a trigger, and as each bound of a count.
fn asked(extreme: u8, range: [i32; 4], amount: Option<i32>) -> Vec<Story> {
    let book = || {
        with_cells(
            amount
                .map(|amount| cell(3, 3, 4, amount))
                .into_iter()
                .collect(),
        )
    };
    let mut stories = vec![by_trigger(book(), extreme, range)];
    stories.extend((0..4).map(|at| as_bound(book(), extreme, range, at)));
    stories
        .into_iter()
        .map(|story| ends(story, amount))
        .collect()
}

/// A story stops as it says, but finishes where there is an amount.
fn ends((number, node, case): Story, amount: Option<i32>) -> Story {
    match amount {
        Some(_) => finishes(case),
        None => stops(number, node, case),
    }
}

/// The trigger notes the posting before it asks: a stop takes both back.
fn by_trigger(mut b: Builder, extreme: u8, range: [i32; 4]) -> Story {
    let note = set(&mut b, 1, [1, 1], 8);
    let value = query(&mut b, extreme, 3, range);
    let keep = put(&mut b, 1, [1, 2], value);
    let body = block(&mut b, &[note, keep]);
    b.put_trigger(0, 0, body);
    let posting = set(&mut b, 1, [0, 0], 7);
    b.program(0, posting);
    stops(31, value, Case::ample(b.book.encode()))
}

fn as_bound(mut b: Builder, extreme: u8, range: [i32; 4], at: usize) -> Story {
    let mut bounds = [0, 7, 0, 7].map(|k| constant(&mut b, k));
    let value = query(&mut b, extreme, 3, range);
    bounds[at] = value;
    let count = b.query(kind::COUNT, 3, bounds);
    let keep = put(&mut b, 1, [0, 0], count);
    b.program(0, keep);
    stops(31, value, Case::ample(b.book.encode()))
}

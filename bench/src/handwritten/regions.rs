//! Areas of owners and lines, and regions: an area in a table.

use std::ops::{Range, RangeInclusive};

/// Owners and lines from a first to a last one, all of 0 to 7. Not empty.
pub struct Area {
    owners: RangeInclusive<usize>,
    lines: RangeInclusive<usize>,
}

impl Area {
    /// The cells that exist between these bounds, if any do.
    pub fn between(owners: [i32; 2], lines: [i32; 2]) -> Option<Area> {
        Some(Area {
            owners: existing(owners)?,
            lines: existing(lines)?,
        })
    }

    /// The cells as bits of the table's word.
    pub fn bits(&self) -> u64 {
        let (first, last) = (*self.lines.start(), *self.lines.end());
        let row = (0xFF_u64 >> (7 - (last - first))) << first;
        let (first, last) = (*self.owners.start(), *self.owners.end());
        let owners = (u64::MAX >> (8 * (7 - (last - first)))) << (8 * first);
        (row * 0x0101_0101_0101_0101) & owners
    }

    /// Where the cells stand in the table, as runs of neighbours: all in one if
    /// the lines are all eight, and else one run for each owner.
    pub fn runs(&self) -> impl Iterator<Item = Range<usize>> {
        let (owner, last_owner) = (*self.owners.start(), *self.owners.end());
        let (line, last_line) = (*self.lines.start(), *self.lines.end());
        let (runs, length) = match last_line - line + 1 {
            8 => (1, 8 * (last_owner - owner + 1)),
            lines => (last_owner - owner + 1, lines),
        };
        (0..runs).map(move |run| {
            let start = 8 * (owner + run) + line;
            start..start + length
        })
    }
}

fn existing([first, last]: [i32; 2]) -> Option<RangeInclusive<usize>> {
    let (first, last) = (first.max(0), last.min(7));
    (first <= last).then_some(first as usize..=last as usize)
}

/// A region's table, and its cells as bits of that table's word.
#[derive(Clone, Copy, Default)]
pub struct Region {
    pub table: usize,
    pub cells: u64,
}

impl Region {
    /// A region of an accepted book.
    pub fn of(record: &[u8; 8]) -> Region {
        let [table, owner_first, owner_last, line_first, line_last, ..] = record.map(usize::from);
        let cells = Area {
            owners: owner_first..=owner_last,
            lines: line_first..=line_last,
        };
        Region {
            table,
            cells: cells.bits(),
        }
    }
}

//! Expressions. Each joins the labels of its parts to a label that its caller
//! gathers, so no label is made, handed up or copied on the way.

use super::machine::{Frame, Machine};
use super::nodes::{Node, Stop};
use super::regions::Area;
use super::sets::Label;
use reference::book::kind::{
    ADD, CONSTANT, COUNT, EQUAL, LARGEST, LESS, SMALLEST, SUBTRACT, SUM, VARIABLE,
};

impl Machine<'_> {
    /// The value of an expression; its label is joined to `label`.
    #[inline(always)]
    pub fn eval<L: Label>(
        &mut self,
        frame: &Frame<L>,
        number: u16,
        label: &mut L,
    ) -> Result<i32, Stop> {
        let node = self.node(number);
        match node.kind {
            CONSTANT => {
                self.pay(1, node)?;
                Ok(node.k)
            }
            VARIABLE => {
                self.pay(1, node)?;
                let variable = usize::from(node.p) % 16;
                label.join(&frame.labels[variable]);
                Ok(frame.values[variable])
            }
            _ => self.compound(frame, node, label),
        }
    }

    /// An expression with children. Apart from `eval`, so that the compiler can
    /// put the leaves, which are most nodes, in line.
    #[inline(never)]
    fn compound<L: Label>(
        &mut self,
        frame: &Frame<L>,
        node: &Node,
        label: &mut L,
    ) -> Result<i32, Stop> {
        if node.kind >= COUNT {
            return self.query(frame, node, label);
        }
        self.pay(1, node)?;
        let a = self.eval(frame, node.a, label)?;
        let b = self.eval(frame, node.b, label)?;
        match node.kind {
            ADD => a.checked_add(b).ok_or(node.stop(22)),
            SUBTRACT => a.checked_sub(b).ok_or(node.stop(22)),
            EQUAL => Ok((a == b).into()),
            LESS => Ok((a < b).into()),
            _ => unreachable!("the reader accepts no other kind of expression"),
        }
    }

    #[inline(never)]
    fn query<L: Label>(
        &mut self,
        frame: &Frame<L>,
        node: &Node,
        label: &mut L,
    ) -> Result<i32, Stop> {
        self.pay(4, node)?;
        let owners = [
            self.eval(frame, node.a, label)?,
            self.eval(frame, node.b, label)?,
        ];
        let lines = [
            self.eval(frame, node.c, label)?,
            self.eval(frame, node.d, label)?,
        ];
        let Some(cells) = Area::between(owners, lines) else {
            return of_nothing(node);
        };
        let table = usize::from(node.p) % 8;
        label.join_area(part(self.cells.labels, table), &cells);
        let present = self.cells.presence[table] & cells.bits();
        if present == 0 {
            return of_nothing(node);
        }
        let amounts = part(self.cells.amounts, table);
        match node.kind {
            COUNT => Ok(present.count_ones() as i32),
            SUM => sum(amounts, &cells).ok_or(node.stop(22)),
            SMALLEST => Ok(present_amounts(amounts, present).fold(i32::MAX, i32::min)),
            LARGEST => Ok(present_amounts(amounts, present).fold(i32::MIN, i32::max)),
            _ => unreachable!("the reader accepts no other kind of expression"),
        }
    }
}

/// A query where no cell is present: 0 for a count or a sum, and a stop for a
/// smallest or a largest, as there is none.
fn of_nothing(node: &Node) -> Result<i32, Stop> {
    match node.kind {
        COUNT | SUM => Ok(0),
        _ => Err(node.stop(31)),
    }
}

/// The 64 items of a table.
fn part<T>(all: &[T; 512], table: usize) -> &[T; 64] {
    let (tables, _) = all.as_chunks();
    &tables[table]
}

/// Absent cells hold 0, so they need not be left out.
fn sum(amounts: &[i32; 64], cells: &Area) -> Option<i32> {
    let mut sum = 0;
    for run in cells.runs() {
        sum += amounts[run].iter().copied().map(i64::from).sum::<i64>();
    }
    sum.try_into().ok()
}

/// The amounts of the present cells, which are given as bits.
fn present_amounts(amounts: &[i32; 64], present: u64) -> impl Iterator<Item = i32> + '_ {
    let mut rest = present;
    std::iter::from_fn(move || {
        let bit = rest.trailing_zeros() as usize;
        let amount = *amounts.get(bit)?;
        rest &= rest - 1;
        Some(amount)
    })
}

//! Commands.

use super::machine::{Frame, Machine};
use super::nodes::{Node, Stop};
use super::sets::Label;
use super::triggers::Write;
use reference::book::kind::{ASSIGN, CLEAR, GRANT, IF, OUT, PUT, RAISE, REVOKE, SKIP, THEN, WHILE};

impl Machine<'_> {
    /// Executes a command in a context. The second of two commands is the next
    /// turn of a loop, so that long scripts do not nest.
    pub fn exec<L: Label>(
        &mut self,
        frame: &mut Frame<L>,
        number: u16,
        context: &L,
    ) -> Result<(), Stop> {
        let mut number = number;
        loop {
            let node = self.node(number);
            self.pay(1, node)?;
            if node.kind != THEN {
                return self.command(frame, node, context);
            }
            self.exec(frame, node.a, context)?;
            number = node.b;
        }
    }

    /// Executes a command other than a sequence, which is paid for already.
    #[inline(always)]
    fn command<L: Label>(
        &mut self,
        frame: &mut Frame<L>,
        node: &Node,
        context: &L,
    ) -> Result<(), Stop> {
        match node.kind {
            SKIP => Ok(()),
            ASSIGN => self.assign(frame, node, context),
            IF => self.branch(frame, node, context),
            WHILE => self.repeat(frame, node, context),
            PUT | CLEAR => self.post(frame, node, context),
            OUT => self.out(frame, node, context),
            GRANT | REVOKE => self.alter(frame, node, context),
            RAISE => self.raise(frame, node, context),
            _ => unreachable!("the reader accepts no other kind of command"),
        }
    }

    fn assign<L: Label>(
        &mut self,
        frame: &mut Frame<L>,
        node: &Node,
        context: &L,
    ) -> Result<(), Stop> {
        let mut label = *context;
        let value = self.eval(frame, node.a, &mut label)?;
        let variable = usize::from(node.p) % 16;
        if !context.within(&frame.labels[variable]) {
            return Err(node.stop(25));
        }
        frame.values[variable] = value;
        frame.labels[variable] = label;
        Ok(())
    }

    fn raise<L: Label>(
        &mut self,
        frame: &mut Frame<L>,
        node: &Node,
        context: &L,
    ) -> Result<(), Stop> {
        let label = &mut frame.labels[usize::from(node.p) % 16];
        if !context.within(label) {
            return Err(node.stop(25));
        }
        label.join_region(&self.region(node.a));
        Ok(())
    }

    fn branch<L: Label>(
        &mut self,
        frame: &mut Frame<L>,
        node: &Node,
        context: &L,
    ) -> Result<(), Stop> {
        let mut inner = *context;
        let condition = self.eval(frame, node.a, &mut inner)?;
        let taken = if condition != 0 { node.b } else { node.c };
        self.exec(frame, taken, &inner)
    }

    /// A while, whose first test is paid for already.
    fn repeat<L: Label>(
        &mut self,
        frame: &mut Frame<L>,
        node: &Node,
        context: &L,
    ) -> Result<(), Stop> {
        let mut inner = *context;
        while self.eval(frame, node.a, &mut inner)? != 0 {
            self.exec(frame, node.b, &inner)?;
            self.pay(1, node)?;
        }
        Ok(())
    }

    /// A put or a clear.
    fn post<L: Label>(
        &mut self,
        frame: &mut Frame<L>,
        node: &Node,
        context: &L,
    ) -> Result<(), Stop> {
        let mut key = *context;
        let owner = self.eval(frame, node.a, &mut key)?;
        let line = self.eval(frame, node.b, &mut key)?;
        let mut label = key;
        let amount = match node.kind {
            PUT => Some(self.eval(frame, node.c, &mut label)?),
            _ => None,
        };
        if (owner | line) & !7 != 0 {
            return Err(node.stop(23));
        }
        let write = Write {
            table: usize::from(node.p) % 8,
            owner: owner as u8,
            line: line as u8,
            amount,
            key,
            label,
        };
        if !self.rights.may_write(frame.user, write.table, write.bit()) {
            return Err(node.stop(24));
        }
        if !key.within_set(&self.cells.labels[write.place()]) {
            return Err(node.stop(26));
        }
        if frame.fires_from == 0 {
            return self.post_own(&write);
        }
        self.kept.keep::<L>(&self.cells, write.place());
        self.store(&write);
        self.fire(frame.fires_from, &write)
    }

    pub fn store<L: Label>(&mut self, write: &Write<L>) {
        let place = write.place();
        let (word, bit) = (&mut self.cells.presence[write.table], 1 << write.bit());
        match write.amount {
            Some(_) => *word |= bit,
            None => *word &= !bit,
        }
        self.cells.amounts[place] = write.amount.unwrap_or(0);
        write.label.store(&mut self.cells.labels[place]);
    }

    fn out<L: Label>(&mut self, frame: &Frame<L>, node: &Node, context: &L) -> Result<(), Stop> {
        let mut label = *context;
        let value = self.eval(frame, node.a, &mut label)?;
        let user = node.p;
        if !label.within_set(&self.rights.read[usize::from(user) % 8]) {
            return Err(node.stop(27));
        }
        self.tell(node, [1, user, 0, 0], value)
    }

    /// A grant or a revoke. The record comes last of the tests.
    fn alter<L: Label>(&mut self, frame: &Frame<L>, node: &Node, context: &L) -> Result<(), Stop> {
        if frame.user != 0 {
            return Err(node.stop(28));
        }
        if !context.within_set(&self.rights.public) {
            return Err(node.stop(29));
        }
        let (user, number, right) = (node.p, node.a, node.b);
        let grants = node.kind == GRANT;
        let kind = if grants { 1 + right } else { 3 + right };
        self.tell(node, [kind as u8, user, number as u8, 0], 0)?;
        let region = self.region(number);
        if grants {
            self.rights.grant(user, right, &region);
        } else {
            self.rights.revoke(user, right, &region);
        }
        Ok(())
    }
}

//! The rules by which nodes are evaluated and executed.

use crate::book::{kind, Book, Node};
use crate::places::{place, Places};
use crate::rights::Rights;
use crate::run::{Failed, Memory, Tests};

const PUT_EVENT: u8 = 1;
const CLEAR_EVENT: u8 = 2;
const READ: u16 = 1;

const TRACE_OUT: u8 = 1;
const TRACE_READ_GRANTED: u8 = 2;
const TRACE_WRITE_GRANTED: u8 = 3;
const TRACE_READ_REVOKED: u8 = 4;
const TRACE_WRITE_REVOKED: u8 = 5;

/// Why and at which node a run stopped.
pub(crate) struct Stop {
    pub(crate) number: u32,
    pub(crate) node: u16,
    /// Boxed, as every command and expression has room for a stop.
    pub(crate) flow: Box<Flow>,
}

/// The sets of a failed test on labels, as they were at the stop; both are
/// empty for any other stop.
#[derive(Default)]
pub(crate) struct Flow {
    pub(crate) tested: Places,
    pub(crate) bound: Places,
}

impl Stop {
    fn without_flow(number: u32, node: u16) -> Stop {
        Stop {
            number,
            node,
            flow: Box::default(),
        }
    }
}

fn require(condition: bool, number: u32, node: u16) -> Result<(), Stop> {
    if condition {
        return Ok(());
    }
    Err(Stop::without_flow(number, node))
}

/// A value with the places it may depend on.
#[derive(Clone, Copy)]
struct Labelled {
    value: i32,
    label: Places,
}

impl Labelled {
    /// A value that depends on no cell.
    fn unlabelled(value: i32) -> Labelled {
        Labelled {
            value,
            label: Places::EMPTY,
        }
    }
}

/// What belongs to one program or one firing of a trigger.
struct Scope {
    user: u8,
    variables: [Labelled; 16],
    /// Writes fire the triggers from this number on: all of them for a
    /// program, those above n for trigger n.
    first_trigger: usize,
}

impl Scope {
    fn is_program(&self) -> bool {
        self.first_trigger == 0
    }
}

/// A put or clear whose tests are passed.
struct Write {
    event: u8,
    table: u8,
    owner: u8,
    line: u8,
    /// For a clear, 0 with an empty label.
    amount: Labelled,
    /// The context with the labels of the key.
    context: Places,
}

/// All of a cell.
#[derive(Clone, Copy, PartialEq, Eq)]
struct Cell {
    amount: i32,
    present: bool,
    label: Places,
}

/// A run under way.
pub(crate) struct Interpreter<'a> {
    book: &'a Book,
    memory: &'a mut Memory,
    budget: u32,
    tests: Tests,
    failed: Failed,
    rights: Rights,
    cost: u32,
    bytes: usize,
    /// What each write of the last posting found, in order: that of the
    /// program's own command first, then those of its triggers.
    found: Vec<(usize, Cell)>,
    taken_back: Places,
}

impl<'a> Interpreter<'a> {
    /// Begins a run in `memory`, which holds the state at the start.
    pub(crate) fn new(
        book: &'a Book,
        memory: &'a mut Memory,
        budget: u32,
        tests: Tests,
        failed: Failed,
    ) -> Interpreter<'a> {
        Interpreter {
            book,
            memory,
            budget,
            tests,
            failed,
            rights: Rights::at_start(book),
            cost: 0,
            bytes: 0,
            found: Vec::new(),
            taken_back: Places::EMPTY,
        }
    }

    /// The cost spent so far.
    pub(crate) fn cost(&self) -> u32 {
        self.cost
    }

    /// The trace bytes written so far.
    pub(crate) fn bytes(&self) -> usize {
        self.bytes
    }

    /// The places of the cells that a posting's being taken back has changed.
    pub(crate) fn taken_back(&self) -> Places {
        self.taken_back
    }

    /// Runs every program in order. Cells, labels, rights, cost and trace carry
    /// over from one to the next; variables do not.
    pub(crate) fn programs(&mut self) -> Result<(), Stop> {
        for program in &self.book.programs {
            let mut scope = Scope {
                user: program.user,
                variables: [Labelled::unlabelled(0); 16],
                first_trigger: 0,
            };
            self.execute(program.root, &Places::EMPTY, &mut scope)?;
        }
        Ok(())
    }

    /// Pays for a node before anything else happens in it.
    fn enter(&mut self, number: u16) -> Result<Node, Stop> {
        let node = self.book.nodes[usize::from(number)];
        let cost = match node.kind {
            kind::COUNT | kind::SUM | kind::SMALLEST | kind::LARGEST => 4,
            _ => 1,
        };
        require(cost <= self.budget - self.cost, 21, number)?;
        self.cost += cost;
        Ok(node)
    }

    fn evaluate(&mut self, number: u16, scope: &Scope) -> Result<Labelled, Stop> {
        let node = self.enter(number)?;
        match node.kind {
            kind::CONSTANT => Ok(Labelled::unlabelled(node.k)),
            kind::VARIABLE => Ok(scope.variables[usize::from(node.p)]),
            kind::ADD | kind::SUBTRACT | kind::EQUAL | kind::LESS => {
                self.operate(number, &node, scope)
            }
            _ => self.query(number, &node, scope),
        }
    }

    fn operate(&mut self, number: u16, node: &Node, scope: &Scope) -> Result<Labelled, Stop> {
        let left = self.evaluate(node.a, scope)?;
        let right = self.evaluate(node.b, scope)?;
        let (a, b) = (i64::from(left.value), i64::from(right.value));
        let exact = match node.kind {
            kind::ADD => a + b,
            kind::SUBTRACT => a - b,
            kind::EQUAL => i64::from(a == b),
            _ => i64::from(a < b),
        };
        in_32_bits(exact, left.label.union(&right.label), number)
    }

    /// Count, sum, smallest or largest over a region of a table. The last two
    /// stop the run where no cell of it is present.
    fn query(&mut self, number: u16, node: &Node, scope: &Scope) -> Result<Labelled, Stop> {
        let owner_first = self.evaluate(node.a, scope)?;
        let owner_last = self.evaluate(node.b, scope)?;
        let line_first = self.evaluate(node.c, scope)?;
        let line_last = self.evaluate(node.d, scope)?;
        let mut label = owner_first.label;
        label.add(&owner_last.label);
        label.add(&line_first.label);
        label.add(&line_last.label);
        let mut gathered = None;
        for owner in clip(owner_first.value, owner_last.value) {
            for line in clip(line_first.value, line_last.value) {
                let place = place(node.p, owner, line);
                // That a cell is absent tells something too, so its label counts.
                label.add(&self.cell_label(place));
                if self.is_present(place) {
                    let amount = i64::from(self.memory.amounts[place]);
                    gathered = Some(gather(node.kind, gathered, amount));
                }
            }
        }
        match answer(node.kind, gathered) {
            Some(exact) => in_32_bits(exact, label, number),
            None => Err(Stop::without_flow(31, number)),
        }
    }

    fn execute(&mut self, number: u16, context: &Places, scope: &mut Scope) -> Result<(), Stop> {
        let node = self.enter(number)?;
        match node.kind {
            kind::SKIP => Ok(()),
            kind::ASSIGN => self.assign(number, &node, context, scope),
            kind::THEN => {
                self.execute(node.a, context, scope)?;
                self.execute(node.b, context, scope)
            }
            kind::IF => self.choose(&node, context, scope),
            kind::WHILE => self.repeat(number, &node, context, scope),
            kind::PUT | kind::CLEAR => self.write(number, &node, context, scope),
            kind::OUT => self.out(number, &node, context, scope),
            kind::GRANT | kind::REVOKE => self.change_right(number, &node, context, scope),
            _ => self.raise(number, &node, context, scope),
        }
    }

    fn choose(&mut self, node: &Node, context: &Places, scope: &mut Scope) -> Result<(), Stop> {
        let condition = self.evaluate(node.a, scope)?;
        let branch = if condition.value != 0 { node.b } else { node.c };
        self.execute(branch, &condition.label.union(context), scope)
    }

    /// The caller has entered the node for the first test; each further test
    /// enters it again. That the body runs once more depends on every test so
    /// far, so the context only grows until the loop is left.
    fn repeat(
        &mut self,
        number: u16,
        node: &Node,
        context: &Places,
        scope: &mut Scope,
    ) -> Result<(), Stop> {
        let mut context = *context;
        loop {
            let test = self.evaluate(node.a, scope)?;
            if test.value == 0 {
                return Ok(());
            }
            context.add(&test.label);
            self.execute(node.b, &context, scope)?;
            self.enter(number)?;
        }
    }

    /// The new label replaces the old one, which may hold more.
    fn assign(
        &mut self,
        number: u16,
        node: &Node,
        context: &Places,
        scope: &mut Scope,
    ) -> Result<(), Stop> {
        let Labelled { value, label } = self.evaluate(node.a, scope)?;
        let variable = &mut scope.variables[usize::from(node.p)];
        self.require_flow(context, &variable.label, 25, number)?;
        *variable = Labelled {
            value,
            label: label.union(context),
        };
        Ok(())
    }

    fn raise(
        &mut self,
        number: u16,
        node: &Node,
        context: &Places,
        scope: &mut Scope,
    ) -> Result<(), Stop> {
        let variable = &mut scope.variables[usize::from(node.p)];
        self.require_flow(context, &variable.label, 25, number)?;
        variable.label.add(&self.region_places(node.a));
        Ok(())
    }

    fn out(
        &mut self,
        number: u16,
        node: &Node,
        context: &Places,
        scope: &Scope,
    ) -> Result<(), Stop> {
        let Labelled { value, label } = self.evaluate(node.a, scope)?;
        let rights = &self.rights;
        let readable = rights.readable[usize::from(node.p)].union(&rights.public);
        self.require_flow(&label.union(context), &readable, 27, number)?;
        self.record([TRACE_OUT, node.p, 0, 0], value, number)
    }

    /// Grants or revokes. The public set is kept apart from what users have, so
    /// a revoke cannot reach it.
    fn change_right(
        &mut self,
        number: u16,
        node: &Node,
        context: &Places,
        scope: &Scope,
    ) -> Result<(), Stop> {
        require(scope.user == 0, 28, number)?;
        self.require_flow(context, &self.rights.public, 29, number)?;
        let grant = node.kind == kind::GRANT;
        let read = node.b == READ;
        let trace_kind = match (grant, read) {
            (true, true) => TRACE_READ_GRANTED,
            (true, false) => TRACE_WRITE_GRANTED,
            (false, true) => TRACE_READ_REVOKED,
            (false, false) => TRACE_WRITE_REVOKED,
        };
        self.record([trace_kind, node.p, node.a as u8, 0], 0, number)?;
        let places = self.region_places(node.a);
        let sets = if read {
            &mut self.rights.readable
        } else {
            &mut self.rights.writable
        };
        let set = &mut sets[usize::from(node.p)];
        if grant {
            set.add(&places);
        } else {
            set.remove(&places);
        }
        Ok(())
    }

    /// Puts or clears a cell, then runs the triggers. If one of them stops, at
    /// whatever depth, all that the program's own command began is taken back.
    fn write(
        &mut self,
        number: u16,
        node: &Node,
        context: &Places,
        scope: &Scope,
    ) -> Result<(), Stop> {
        let write = self.checked_write(number, node, context, scope)?;
        if scope.is_program() {
            self.found.clear();
        }
        self.store(&write);
        let fired = self.fire(&write, scope.first_trigger);
        if fired.is_err() && scope.is_program() && self.failed == Failed::TakenBack {
            self.take_back();
        }
        fired
    }

    /// Gives every cell that the last posting wrote what it held before: the
    /// latest write first, so that a cell written more than once ends with what
    /// its first write found.
    fn take_back(&mut self) {
        let written: Vec<(usize, Cell)> = self
            .found
            .iter()
            .map(|&(place, _)| (place, self.cell(place)))
            .collect();
        for (place, cell) in std::mem::take(&mut self.found).into_iter().rev() {
            self.set_cell(place, &cell);
        }
        for (place, cell) in written {
            if self.cell(place) != cell {
                self.taken_back.insert(place);
            }
        }
    }

    /// The children of a put or clear, then its tests.
    fn checked_write(
        &mut self,
        number: u16,
        node: &Node,
        context: &Places,
        scope: &Scope,
    ) -> Result<Write, Stop> {
        let owner = self.evaluate(node.a, scope)?;
        let line = self.evaluate(node.b, scope)?;
        let (event, amount) = if node.kind == kind::PUT {
            (PUT_EVENT, self.evaluate(node.c, scope)?)
        } else {
            (CLEAR_EVENT, Labelled::unlabelled(0))
        };
        let keys = 0..=7;
        let key_exists = keys.contains(&owner.value) && keys.contains(&line.value);
        require(key_exists, 23, number)?;
        let write = Write {
            event,
            table: node.p,
            owner: owner.value as u8,
            line: line.value as u8,
            amount,
            context: context.union(&owner.label).union(&line.label),
        };
        let place = write.place();
        let allowed = self.rights.writable[usize::from(scope.user)].holds(place);
        require(allowed, 24, number)?;
        self.require_flow(&write.context, &self.cell_label(place), 26, number)?;
        Ok(write)
    }

    /// Changes the cell. Its new label replaces the old one; a clear of an
    /// absent cell changes the label all the same.
    fn store(&mut self, write: &Write) {
        let place = write.place();
        self.found.push((place, self.cell(place)));
        let cell = Cell {
            amount: write.amount.value,
            present: write.event == PUT_EVENT,
            label: write.context.union(&write.amount.label),
        };
        self.set_cell(place, &cell);
    }

    /// Runs the triggers from number `first` on that this write sets off. Kept
    /// out of line so that the variables of a trigger take stack space only
    /// while one runs, and not in every nested command.
    #[inline(never)]
    fn fire(&mut self, write: &Write, first: usize) -> Result<(), Stop> {
        let book = self.book;
        for (number, trigger) in book.triggers.iter().enumerate().skip(first) {
            let region = &book.regions[usize::from(trigger.region)];
            let inside = region.holds(write.table, write.owner, write.line);
            if trigger.event != write.event || !inside {
                continue;
            }
            let mut scope = Scope {
                user: trigger.user,
                variables: write.trigger_variables(),
                first_trigger: number + 1,
            };
            self.execute(trigger.body, &write.context, &mut scope)?;
        }
        Ok(())
    }

    /// A test on labels, which the run with no labels omits.
    fn require_flow(
        &self,
        tested: &Places,
        bound: &Places,
        number: u32,
        node: u16,
    ) -> Result<(), Stop> {
        if self.tests == Tests::Unlabelled || tested.within(bound) {
            return Ok(());
        }
        let (tested, bound) = (*tested, *bound);
        Err(Stop {
            number,
            node,
            flow: Box::new(Flow { tested, bound }),
        })
    }

    /// Adds one record to the trace, if it fits whole.
    fn record(&mut self, head: [u8; 4], amount: i32, number: u16) -> Result<(), Stop> {
        let rest = &mut self.memory.trace[self.bytes..];
        require(rest.len() >= 8, 30, number)?;
        rest[..4].copy_from_slice(&head);
        rest[4..8].copy_from_slice(&amount.to_le_bytes());
        self.bytes += 8;
        Ok(())
    }

    fn cell(&self, place: usize) -> Cell {
        Cell {
            amount: self.memory.amounts[place],
            present: self.is_present(place),
            label: self.cell_label(place),
        }
    }

    fn set_cell(&mut self, place: usize, cell: &Cell) {
        let bit = 1 << (place % 64);
        self.memory.amounts[place] = cell.amount;
        if cell.present {
            self.memory.presence[place / 64] |= bit;
        } else {
            self.memory.presence[place / 64] &= !bit;
        }
        self.memory.labels[8 * place..8 * place + 8].copy_from_slice(&cell.label.0);
    }

    fn is_present(&self, place: usize) -> bool {
        self.memory.presence[place / 64] >> (place % 64) & 1 == 1
    }

    fn cell_label(&self, place: usize) -> Places {
        Places::from_words(&self.memory.labels[8 * place..8 * place + 8])
    }

    fn region_places(&self, region: u16) -> Places {
        Places::of_region(&self.book.regions[usize::from(region)])
    }
}

impl Write {
    fn place(&self) -> usize {
        place(self.table, self.owner, self.line)
    }

    /// The variables a trigger starts with. That it runs at all, and for which
    /// cell, depends on the context and key; only the amount depends on more.
    fn trigger_variables(&self) -> [Labelled; 16] {
        let with_value = |value| Labelled {
            value,
            label: self.context,
        };
        let mut variables = [with_value(0); 16];
        variables[0] = with_value(i32::from(self.owner));
        variables[1] = with_value(i32::from(self.line));
        variables[2] = with_value(self.amount.value);
        variables[2].label.add(&self.amount.label);
        variables
    }
}

fn in_32_bits(exact: i64, label: Places, number: u16) -> Result<Labelled, Stop> {
    let value = i32::try_from(exact).map_err(|_| Stop::without_flow(22, number))?;
    Ok(Labelled { value, label })
}

/// The owners or lines that exist between two bounds; none if first is above
/// last.
fn clip(first: i32, last: i32) -> impl Iterator<Item = u8> {
    (0..8).filter(move |&key| (first..=last).contains(&i32::from(key)))
}

/// What a query answers with what it has gathered, which is nothing where no
/// cell is present. Nothing has a count and a sum, but no smallest or largest.
fn answer(query: u8, gathered: Option<i64>) -> Option<i64> {
    match query {
        kind::SMALLEST | kind::LARGEST => gathered,
        _ => Some(gathered.unwrap_or(0)),
    }
}

/// One more present cell's amount taken into what a query has gathered.
fn gather(query: u8, so_far: Option<i64>, amount: i64) -> i64 {
    match (query, so_far) {
        (kind::COUNT, _) => so_far.unwrap_or(0) + 1,
        (_, None) => amount,
        (kind::SUM, Some(sum)) => sum + amount,
        (kind::SMALLEST, Some(least)) => least.min(amount),
        (_, Some(most)) => most.max(amount),
    }
}

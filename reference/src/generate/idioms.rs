//! Turns of phrase in which secrets flow: each is one that a runner with a
//! missing label or test would leak through. Also loops and deep nests.

use super::guess::Label;
use super::script::{Script, Value, CLEAR_EVENT, PUT_EVENT};
use crate::book::kind;

impl Script<'_> {
    /// Raises a variable by a region, then branches on a query of that region.
    /// Inside, that variable is one of the few things that may change.
    pub(super) fn secret_branch(&mut self, depth: usize) -> Option<u16> {
        if !self.in_the_open() && !self.careless() {
            return None;
        }
        let region = self.world.small_region(self.random);
        let variable = self.any_variable();
        let ready = if self.careless() {
            self.skip()
        } else {
            self.raise_by(variable, region)
        };
        let query = self.region_query(region);
        let spot = self.world.covers[region].trailing_zeros() as usize;
        let condition = self.compared(query, spot);
        let choice = self.branch(condition, depth);
        let block = self.then(ready, choice);
        let probe = self.probe(variable);
        Some(self.then(block, probe))
    }

    /// Whether the context is empty.
    fn in_the_open(&self) -> bool {
        self.guess.context.within(Label::EMPTY)
    }

    /// Something that the rules forbid, in one branch on a cell, so that the
    /// run stops for one amount and goes on for another. Then a use of a
    /// variable that may have been set there.
    pub(super) fn leak(&mut self) -> u16 {
        let spot = self.random.below(self.world.spots.len());
        let query = self.spot_query(spot);
        let condition = self.compared(query, spot);
        let outside = self.guess.context;
        self.guess.context = outside | condition.label;
        let before = *self.guess;
        self.bold = true;
        let act = self.act();
        self.bold = false;
        self.guess.join(&before);
        self.guess.context = outside;
        let skip = self.skip();
        let (yes, no) = self.random.pick(&[(act, skip), (skip, act)]);
        let choice = self.push(kind::IF, 0, [condition.node, yes, no, 0]);
        let node = self.pool.nodes[usize::from(act)];
        if !matches!(node.kind, kind::ASSIGN | kind::RAISE) {
            return choice;
        }
        let probe = self.probe(node.p);
        self.then(choice, probe)
    }

    /// A use of a variable by which its label would be told.
    fn probe(&mut self, variable: u8) -> u16 {
        let value = self.variable(variable);
        if self.random.chance(50) {
            if let Some(spot) = self.changeable_spot(PUT_EVENT) {
                return self.put_value(spot, value);
            }
        }
        self.branch(value, 0)
    }

    /// The value itself, or how it compares with a constant: often with what the
    /// spot holds at the start, so that another amount gives another outcome.
    fn compared(&mut self, value: Value, spot: usize) -> Value {
        let held = self.world.amounts.get(spot).copied().flatten();
        let held = held.unwrap_or(0);
        let k = match self.random.below(10) {
            0..=4 => held,
            5..=6 => held.saturating_add(1),
            _ => self.random.below(4) as i32,
        };
        let k = self.constant(k);
        match self.random.below(7) {
            0 => value,
            1..=4 => self.operation(kind::EQUAL, value, k),
            _ => self.operation(kind::LESS, value, k),
        }
    }

    /// Writes at an owner or line that depends on a cell. The cells with key 0
    /// and 1 first get an amount from that cell, so that their labels hold it.
    pub(super) fn secret_key(&mut self) -> Option<u16> {
        if !self.in_the_open() && !self.careless() {
            return None;
        }
        let target = self.changeable_spot(PUT_EVENT)?;
        let spot = self.random.below(self.world.spots.len());
        let secret = self.spot_query(spot);
        let by_owner = self.random.chance(70);
        let unready = self.random.chance(12);
        let mut block = self.skip();
        for key in 0..2 {
            if unready || self.careless() {
                continue;
            }
            let key = self.constant(key);
            let ready = self.put_beside(target, by_owner, key, secret);
            block = self.then(block, ready);
        }
        let key = self.compared(secret, spot);
        let shown = self.expression(1);
        let write = self.put_beside(target, by_owner, key, shown);
        if self.random.chance(35) {
            self.turn_into_clear(write);
        }
        Some(self.then(block, write))
    }

    /// Reads a cell whose owner or line depends on another cell, into a variable.
    pub(super) fn secret_read(&mut self) -> Option<u16> {
        let variable = self.changeable_variable()?;
        let spot = self.random.below(self.world.spots.len());
        let secret = self.spot_query(spot);
        let key = self.compared(secret, spot);
        let place = self.random.pick(&self.world.spots);
        let owner = self.constant(i32::from(place.owner)).node;
        let line = self.constant(i32::from(place.line)).node;
        let bounds = self.random.pick(&[
            [key.node, key.node, line, line],
            [owner, owner, key.node, key.node],
            [key.node, owner, line, line],
            [owner, owner, line, key.node],
        ]);
        let kind = self
            .random
            .weighted(&[(6, kind::SUM), (1, kind::SMALLEST), (1, kind::LARGEST)]);
        let read = Value {
            node: self.push(kind, place.table, bounds),
            label: key.label | self.guess.cells(self.table_spots(place.table)),
        };
        let set = self.assign_value(variable, read);
        let probe = self.probe(variable);
        Some(self.then(set, probe))
    }

    /// Puts a value at a spot, but with another owner or line.
    fn put_beside(&mut self, spot: usize, by_owner: bool, key: Value, value: Value) -> u16 {
        let place = self.world.spots[spot];
        let [owner, line] = if by_owner {
            [key, self.constant(i32::from(place.line))]
        } else {
            [self.constant(i32::from(place.owner)), key]
        };
        let mut beside = 0;
        for (index, other) in self.world.spots.iter().enumerate() {
            let same = if by_owner {
                other.line == place.line
            } else {
                other.owner == place.owner
            };
            if same && other.table == place.table {
                beside |= 1 << index;
            }
        }
        self.guess.write_one_of(beside, key.label | value.label);
        self.touched |= beside;
        self.push(
            kind::PUT,
            place.table,
            [owner.node, line.node, value.node, 0],
        )
    }

    fn turn_into_clear(&mut self, put: u16) {
        let node = &mut self.pool.nodes[usize::from(put)];
        node.kind = kind::CLEAR;
        node.c = 0;
    }

    /// Copies one cell to another.
    pub(super) fn copy(&mut self) -> Option<u16> {
        let target = self.changeable_spot(PUT_EVENT)?;
        let source = self.random.below(self.world.spots.len());
        let value = self.spot_query(source);
        Some(self.put_value(target, value))
    }

    /// The smallest or largest amount of a region, kept in a variable and used.
    /// Whether a cell is there may be a secret: where it decides that the run
    /// stops, or where it is asked first.
    pub(super) fn doubtful(&mut self) -> Option<u16> {
        let region = self.world.small_region(self.random);
        let variable = self.changeable_variable()?;
        let likely = self.world.has_present(self.world.covers[region]);
        let keep = if self.random.chance(if likely { 80 } else { 20 }) {
            let extreme = self.extreme_of_region(region);
            self.assign_value(variable, extreme)
        } else {
            self.asked_first(variable, region)
        };
        let probe = self.probe(variable);
        Some(self.then(keep, probe))
    }

    /// The variable gets the amount only if a cell is present. For that it is
    /// raised by the region.
    fn asked_first(&mut self, variable: u8, region: usize) -> u16 {
        let ready = self.raise_by(variable, region);
        let count = self.query_of_region(kind::COUNT, region);
        let outside = self.guess.context;
        self.guess.context = outside | count.label;
        let before = *self.guess;
        let extreme = self.extreme_of_region(region);
        let set = self.assign_value(variable, extreme);
        self.guess.join(&before);
        self.guess.context = outside;
        let skip = self.skip();
        let choice = self.push(kind::IF, 0, [count.node, set, skip, 0]);
        self.then(ready, choice)
    }

    fn extreme_of_region(&mut self, region: usize) -> Value {
        let kind = self.random.pick(&[kind::SMALLEST, kind::LARGEST]);
        self.query_of_region(kind, region)
    }

    /// In a trigger: puts the amount it runs for at the same key of some table,
    /// or counts its turns in a cell.
    pub(super) fn react(&mut self) -> Option<u16> {
        if !self.in_the_open() && !self.careless() {
            return None;
        }
        if self.random.chance(50) {
            let spot = self.changeable_spot(PUT_EVENT)?;
            let turns = self.spot_query(spot);
            let one = self.constant(1);
            let more = self.operation(kind::ADD, turns, one);
            return Some(self.put_value(spot, more));
        }
        let table = self.random.pick(&self.world.spots).table;
        self.touched |= self.table_spots(table);
        let [owner, line, amount] = [0, 1, 2].map(|variable| self.variable(variable).node);
        Some(self.push(kind::PUT, table, [owner, line, amount, 0]))
    }

    /// In a trigger: writes, and then what may stop: for some amounts of a cell,
    /// where a cell is absent, or always.
    pub(super) fn failing_body(&mut self, length: usize) -> u16 {
        let writes = self.react().unwrap_or_else(|| self.skip());
        let more = self.block(length, 0);
        let before = self.then(writes, more);
        let stop = match self.random.below(10) {
            0 => self.too_large(),
            1 => self.outside(),
            2..=5 => self.of_nothing(),
            _ => self.leak(),
        };
        self.then(before, stop)
    }

    /// An assignment of the smallest or largest of one cell: mostly of a spot that
    /// is absent at the start, or else of the last place of a table.
    fn of_nothing(&mut self) -> u16 {
        let count = self.world.spots.len();
        let first = self.random.below(count);
        let absent = (0..count)
            .map(|step| (first + step) % count)
            .find(|&spot| self.world.amounts[spot].is_none());
        let kind = self.random.pick(&[kind::SMALLEST, kind::LARGEST]);
        let extreme = match absent {
            _ if self.random.chance(25) => self.query_of_spot(kind, first),
            Some(spot) => self.query_of_spot(kind, spot),
            None => self.query_of_last_place(kind, self.world.spots[first].table),
        };
        let variable = self.any_variable();
        self.assign_value(variable, extreme)
    }

    fn query_of_last_place(&mut self, kind: u8, table: u8) -> Value {
        let seven = self.constant(7).node;
        Value {
            node: self.push(kind, table, [seven; 4]),
            label: self.guess.cells(self.table_spots(table)),
        }
    }

    /// An assignment of an amount that leaves 32 bits.
    fn too_large(&mut self) -> u16 {
        let [most, one] = [i32::MAX, 1].map(|k| self.constant(k));
        let sum = self.operation(kind::ADD, most, one);
        let variable = self.any_variable();
        self.assign_value(variable, sum)
    }

    /// A clear at an owner that there is none of.
    fn outside(&mut self) -> u16 {
        let table = self.random.pick(&self.world.spots).table;
        let [owner, line] = [8, 0].map(|k| self.constant(k).node);
        self.push(kind::CLEAR, table, [owner, line, 0, 0])
    }

    /// A put or clear that sets a trigger off, or nothing if there is none.
    pub(super) fn posting(&mut self) -> u16 {
        let count = self.world.spots.len();
        let first = self.random.below(count);
        let events = [PUT_EVENT, CLEAR_EVENT];
        let found = (0..2 * count)
            .map(|step| (events[step / count], (first + step) % count))
            .find(|&(event, spot)| self.guess.reacts(event, spot));
        match found {
            Some((PUT_EVENT, spot)) => {
                let value = self.expression(1);
                self.put_value(spot, value)
            }
            Some((_, spot)) => self.clear_spot(spot),
            None => self.skip(),
        }
    }

    /// A while loop, most often one that ends.
    pub(super) fn repeat(&mut self, depth: usize) -> Option<u16> {
        match self.random.below(12) {
            0..=2 => self.count_down(depth),
            3..=4 => self.drain(),
            5..=6 => self.clear_while_present(),
            7..=10 => self.late_secret(depth),
            _ => {
                let test = self.expression(2);
                Some(self.while_loop(test, |script| script.command(depth)))
            }
        }
    }

    fn while_loop(&mut self, test: Value, body: impl FnOnce(&mut Self) -> u16) -> u16 {
        let outside = self.guess.context;
        self.guess.context = outside | test.label;
        let before = *self.guess;
        let body = body(self);
        self.guess.join(&before);
        self.guess.context = outside;
        self.push(kind::WHILE, 0, [test.node, body, 0, 0])
    }

    /// Counts a variable down from a small constant or from a cell.
    fn count_down(&mut self, depth: usize) -> Option<u16> {
        let variable = self.changeable_variable()?;
        let start = if self.random.chance(50) {
            let k = self.random.between(1, 4) as i32;
            self.constant(k)
        } else {
            let spot = self.random.below(self.world.spots.len());
            self.spot_query(spot)
        };
        let set = self.assign_value(variable, start);
        let counter = self.variable(variable);
        let zero = self.constant(0);
        let test = self.operation(kind::LESS, zero, counter);
        let turns = self.while_loop(test, |script| {
            let body = script.command(depth);
            let one = script.constant(1);
            let less = script.operation(kind::SUBTRACT, counter, one);
            let step = script.assign_value(variable, less);
            script.then(body, step)
        });
        Some(self.then(set, turns))
    }

    /// Takes a cell down to 0 by ones, so that the cost tells its amount.
    fn drain(&mut self) -> Option<u16> {
        let spot = self.changeable_spot(PUT_EVENT)?;
        let amount = self.spot_query(spot);
        let zero = self.constant(0);
        let test = self.operation(kind::LESS, zero, amount);
        Some(self.while_loop(test, |script| {
            let one = script.constant(1);
            let less = script.operation(kind::SUBTRACT, amount, one);
            script.put_value(spot, less)
        }))
    }

    fn clear_while_present(&mut self) -> Option<u16> {
        let spot = self.changeable_spot(CLEAR_EVENT)?;
        let present = self.spot_query(spot);
        Some(self.while_loop(present, |script| script.clear_spot(spot)))
    }

    /// A loop whose first test is open and whose second one is secret: a cell's
    /// amount is handed from one variable to the next, and to the test.
    fn late_secret(&mut self, depth: usize) -> Option<u16> {
        if !self.in_the_open() && !self.careless() {
            return None;
        }
        let region = self.random.below(self.world.regions.len());
        let (tested, waiting) = (self.random.between(0, 1) as u8, 2);
        let secret = self.region_query(region);
        let one = self.constant(1);
        let set = self.assign_value(tested, one);
        let hand = self.assign_value(waiting, secret);
        let start = self.then(set, hand);
        let test = Value {
            label: secret.label,
            ..self.variable(tested)
        };
        let turns = self.while_loop(test, |script| {
            let value = script.variable(waiting);
            let next = script.assign_value(tested, value);
            let zero = script.constant(0);
            let empty = script.assign_value(waiting, zero);
            let raise = script.raise_by(waiting, region);
            let rest = script.then(empty, raise);
            let hand = script.then(next, rest);
            script.bold = script.random.chance(40);
            let body = if script.bold {
                script.act()
            } else {
                script.command(depth)
            };
            script.bold = false;
            script.then(body, hand)
        });
        Some(self.then(start, turns))
    }

    /// A long chain of nodes, or a command run twice as often at each level.
    pub(super) fn deep(&mut self) -> Option<u16> {
        let room = self.pool.room();
        match self.random.below(4) {
            0 => {
                let levels = self.random.below(room.min(14));
                let mut command = self.command(0);
                for _ in 0..levels {
                    command = self.then(command, command);
                }
                Some(command)
            }
            1 => {
                let mut command = self.command(0);
                let skip = self.skip();
                for _ in 0..self.random.below(room / 2 + 1) {
                    command = self.then(skip, command);
                }
                Some(command)
            }
            _ => {
                let variable = self.changeable_variable()?;
                let one = self.constant(1);
                let mut value = self.expression(1);
                for _ in 0..self.random.below(room / 2 + 1) {
                    value = self.operation(kind::ADD, value, one);
                }
                Some(self.assign_value(variable, value))
            }
        }
    }
}

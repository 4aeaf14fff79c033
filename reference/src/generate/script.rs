//! One script: the body of a trigger or the root of a program.

use super::guess::{Guess, Label};
use super::pool::Pool;
use super::world::{amount, elsewhere, Spots, World};
use crate::book::{kind, Node};
use crate::random::Random;

pub(super) const PUT_EVENT: u8 = 1;
pub(super) const CLEAR_EVENT: u8 = 2;

/// An expression's node and its guessed label.
#[derive(Clone, Copy)]
pub(super) struct Value {
    pub(super) node: u16,
    pub(super) label: Label,
}

pub(super) struct Script<'a> {
    pub(super) random: &'a mut Random,
    pub(super) world: &'a World,
    pub(super) pool: &'a mut Pool,
    pub(super) guess: &'a mut Guess,
    user: u8,
    pub(super) is_trigger: bool,
    /// Every choice is made without regard to the rules.
    pub(super) bold: bool,
    /// This script's first node: only later commands are its own to share.
    first: usize,
    /// The spots that the script writes, as far as they are known.
    pub(super) touched: Spots,
}

/// The commands and idioms that a script is made of.
#[derive(Clone, Copy)]
enum Choice {
    Assign,
    Raise,
    Put,
    Clear,
    Out,
    Rights,
    If,
    SecretBranch,
    SecretKey,
    SecretRead,
    Leak,
    Copy,
    Doubtful,
    React,
    Loop,
    Repeat,
    Deep,
}

impl<'a> Script<'a> {
    pub(super) fn for_trigger(
        random: &'a mut Random,
        world: &'a World,
        pool: &'a mut Pool,
        guess: &'a mut Guess,
        user: u8,
    ) -> Script<'a> {
        let mut script = Script::for_program(random, world, pool, guess, user);
        script.is_trigger = true;
        // The amount that was put may come from anywhere.
        script.guess.variables[2] = Label::ANY;
        script
    }

    pub(super) fn for_program(
        random: &'a mut Random,
        world: &'a World,
        pool: &'a mut Pool,
        guess: &'a mut Guess,
        user: u8,
    ) -> Script<'a> {
        guess.variables = [Label::EMPTY; 16];
        guess.context = Label::EMPTY;
        Script {
            first: pool.nodes.len(),
            random,
            world,
            pool,
            guess,
            user,
            is_trigger: false,
            bold: false,
            touched: 0,
        }
    }

    /// A whole program, which mostly ends by showing something.
    pub(super) fn program(&mut self, length: usize) -> u16 {
        let mut root = self.block(length, 3);
        if self.world.failing {
            let posting = self.posting();
            let (first, second) = self.random.pick(&[(root, posting), (posting, root)]);
            root = self.then(first, second);
        }
        for _ in 0..self.random.below(4) {
            if self.pool.room() == 0 {
                break;
            }
            if let Some(last) = self.out() {
                root = self.then(root, last);
            }
        }
        root
    }

    /// Commands one after the other.
    pub(super) fn block(&mut self, length: usize, depth: usize) -> u16 {
        let mut block = self.command(depth);
        for _ in 1..length {
            if self.pool.room() == 0 {
                break;
            }
            let next = self.command(depth);
            block = self.then(block, next);
        }
        block
    }

    /// A command that nests at most `depth` further ones.
    pub(super) fn command(&mut self, depth: usize) -> u16 {
        for _ in 0..10 {
            if self.pool.room() == 0 {
                break;
            }
            let choice = self.choose(depth);
            if let Some(command) = self.make(choice, depth) {
                return command;
            }
        }
        self.skip()
    }

    /// A command that nests no others.
    pub(super) fn act(&mut self) -> u16 {
        let program = usize::from(!self.is_trigger);
        let choice = self.random.weighted(&[
            (4, Choice::Assign),
            (2, Choice::Raise),
            (3, Choice::Put),
            (2, Choice::Clear),
            (3 * program, Choice::Out),
            (3 * program, Choice::Rights),
        ]);
        self.make(choice, 0).unwrap_or_else(|| self.skip())
    }

    fn choose(&mut self, depth: usize) -> Choice {
        let nested = usize::from(depth > 0);
        let program = usize::from(!self.is_trigger);
        self.random.weighted(&[
            (8, Choice::Assign),
            (3, Choice::Raise),
            (9, Choice::Put),
            (5, Choice::Clear),
            (12 * program, Choice::Out),
            (5 * program, Choice::Rights),
            (8 * nested, Choice::If),
            (18 * nested, Choice::SecretBranch),
            (12 * nested, Choice::SecretKey),
            (5 * nested, Choice::SecretRead),
            (10 * nested, Choice::Leak),
            (6, Choice::Copy),
            (5, Choice::Doubtful),
            (20 * (1 - program), Choice::React),
            (10 * nested * program, Choice::Loop),
            (2, Choice::Repeat),
            (nested, Choice::Deep),
        ])
    }

    fn make(&mut self, choice: Choice, depth: usize) -> Option<u16> {
        match choice {
            Choice::Assign => self.assign(),
            Choice::Raise => self.raise(),
            Choice::Put => self.put(),
            Choice::Clear => self.clear(),
            Choice::Out => self.out(),
            Choice::Rights => self.change_rights(),
            Choice::If => {
                let condition = self.expression(2);
                Some(self.branch(condition, depth - 1))
            }
            Choice::SecretBranch => self.secret_branch(depth - 1),
            Choice::SecretKey => self.secret_key(),
            Choice::SecretRead => self.secret_read(),
            Choice::Leak => Some(self.leak()),
            Choice::Copy => self.copy(),
            Choice::Doubtful => self.doubtful(),
            Choice::React => self.react(),
            Choice::Loop => self.repeat(depth - 1),
            Choice::Repeat => self.shared_command(),
            Choice::Deep => self.deep(),
        }
    }

    /// Whether to make the next choice without regard to the rules.
    pub(super) fn careless(&mut self) -> bool {
        self.bold || self.random.chance(self.world.careless)
    }

    pub(super) fn push(&mut self, kind: u8, p: u8, children: [u16; 4]) -> u16 {
        let [a, b, c, d] = children;
        self.pool.push(Node {
            kind,
            p,
            a,
            b,
            c,
            d,
            k: 0,
        })
    }

    pub(super) fn constant(&mut self, k: i32) -> Value {
        Value {
            node: self.pool.constant(k),
            label: Label::EMPTY,
        }
    }

    pub(super) fn variable(&mut self, variable: u8) -> Value {
        Value {
            node: self.push(kind::VARIABLE, variable, [0; 4]),
            label: self.guess.variables[usize::from(variable)],
        }
    }

    pub(super) fn operation(&mut self, kind: u8, left: Value, right: Value) -> Value {
        Value {
            node: self.push(kind, 0, [left.node, right.node, 0, 0]),
            label: left.label | right.label,
        }
    }

    /// An expression with at most `depth` operations above one another.
    pub(super) fn expression(&mut self, depth: usize) -> Value {
        match self.random.below(100) {
            0..=19 => {
                let k = amount(self.random);
                self.constant(k)
            }
            20..=44 => {
                let variable = self.any_variable();
                self.variable(variable)
            }
            45..=66 => {
                let spot = self.random.below(self.world.spots.len());
                self.spot_query(spot)
            }
            67..=76 => {
                let region = self.random.below(self.world.regions.len());
                self.region_query(region)
            }
            77..=80 => self.odd_query(depth),
            _ if depth == 0 => self.constant(1),
            _ => {
                let kind = self.random.between(3, 6) as u8;
                let left = self.expression(depth - 1);
                let right = self.expression(depth - 1);
                self.operation(kind, left, right)
            }
        }
    }

    /// Some variable; the low ones more often, so that scripts use one again.
    pub(super) fn any_variable(&mut self) -> u8 {
        let last = self.random.weighted(&[(8, 3), (1, 15)]);
        self.random.between(0, last) as u8
    }

    /// One cell's amount, mostly, or whether it is present.
    pub(super) fn spot_query(&mut self, spot: usize) -> Value {
        let kind = self.query_kind(1 << spot);
        self.query_of_spot(kind, spot)
    }

    pub(super) fn query_of_spot(&mut self, kind: u8, spot: usize) -> Value {
        let place = self.world.spots[spot];
        let owner = self.constant(i32::from(place.owner)).node;
        let line = self.constant(i32::from(place.line)).node;
        Value {
            node: self.push(kind, place.table, [owner, owner, line, line]),
            label: self.guess.cells(1 << spot),
        }
    }

    /// Mostly a sum: for one cell that is its amount. Rarely a smallest or
    /// largest if none of the spots is present at the start, as a run stops where
    /// there is none.
    fn query_kind(&mut self, spots: Spots) -> u8 {
        let likely = self.world.has_present(spots) || self.random.chance(10);
        let extreme = usize::from(likely);
        self.random.weighted(&[
            (2, kind::COUNT),
            (6, kind::SUM),
            (extreme, kind::SMALLEST),
            (extreme, kind::LARGEST),
        ])
    }

    pub(super) fn region_query(&mut self, region: usize) -> Value {
        let kind = self.query_kind(self.world.covers[region]);
        self.query_of_region(kind, region)
    }

    pub(super) fn query_of_region(&mut self, kind: u8, region: usize) -> Value {
        let bounds = self.world.regions[region];
        let children = [
            self.constant(i32::from(bounds.owner_first)).node,
            self.constant(i32::from(bounds.owner_last)).node,
            self.constant(i32::from(bounds.line_first)).node,
            self.constant(i32::from(bounds.line_last)).node,
        ];
        Value {
            node: self.push(kind, bounds.table, children),
            label: self.guess.cells(self.world.covers[region]),
        }
    }

    /// A query with any bounds: far outside, crossed, or taken from cells.
    fn odd_query(&mut self, depth: usize) -> Value {
        // Such bounds often hold no cell.
        let kind = self.query_kind(0);
        let spot = self.random.pick(&self.world.spots);
        let mut label = self.guess.cells(self.table_spots(spot.table));
        let mut bound = |usual: u8| {
            let odd = [i32::MIN, -1, 0, 3, 7, 8, i32::MAX];
            let value = match self.random.below(10) {
                0..=4 => self.constant(i32::from(usual)),
                5..=7 => {
                    let k = self.random.pick(&odd);
                    self.constant(k)
                }
                _ => self.expression(depth.saturating_sub(1).min(1)),
            };
            label = label | value.label;
            value.node
        };
        let owner = [bound(spot.owner), bound(spot.owner)];
        let line = [bound(spot.line), bound(spot.line)];
        Value {
            node: self.push(kind, spot.table, [owner[0], owner[1], line[0], line[1]]),
            label,
        }
    }

    /// All places of a table.
    pub(super) fn table_spots(&self, table: u8) -> Spots {
        let mut spots = elsewhere(table);
        for (index, other) in self.world.spots.iter().enumerate() {
            if other.table == table {
                spots |= 1 << index;
            }
        }
        spots
    }

    pub(super) fn skip(&mut self) -> u16 {
        self.push(kind::SKIP, 0, [0; 4])
    }

    pub(super) fn then(&mut self, first: u16, second: u16) -> u16 {
        self.push(kind::THEN, 0, [first, second, 0, 0])
    }

    /// A variable that the context lets change, or any one.
    pub(super) fn changeable_variable(&mut self) -> Option<u8> {
        let first = self.any_variable();
        if self.careless() {
            return Some(first);
        }
        (0..16)
            .map(|step| (first + step) % 16)
            .find(|&variable| self.guess.may_assign(variable))
    }

    fn assign(&mut self) -> Option<u16> {
        let variable = self.changeable_variable()?;
        let value = self.expression(2);
        Some(self.assign_value(variable, value))
    }

    pub(super) fn assign_value(&mut self, variable: u8, value: Value) -> u16 {
        self.guess.variables[usize::from(variable)] = self.guess.context | value.label;
        self.push(kind::ASSIGN, variable, [value.node, 0, 0, 0])
    }

    fn raise(&mut self) -> Option<u16> {
        let variable = self.changeable_variable()?;
        let region = self.random.below(self.world.regions.len());
        Some(self.raise_by(variable, region))
    }

    pub(super) fn raise_by(&mut self, variable: u8, region: usize) -> u16 {
        let more = Label::exactly(self.world.covers[region]);
        let label = &mut self.guess.variables[usize::from(variable)];
        *label = *label | more;
        self.push(kind::RAISE, variable, [region as u16, 0, 0, 0])
    }

    /// A spot that the context and the user's rights let change, often one that
    /// sets off a trigger; or any one.
    pub(super) fn changeable_spot(&mut self, event: u8) -> Option<usize> {
        let count = self.world.spots.len();
        let first = self.random.below(count);
        if self.careless() {
            return Some(first);
        }
        let may = |spot: &usize| self.guess.may_write(self.user, event, *spot);
        let mut spots = (0..count).map(|step| (first + step) % count).filter(may);
        let reacts = |spot: &usize| self.guess.reacts(event, *spot);
        let reacting = spots.clone().find(reacts);
        if reacting.is_some() && self.random.chance(40) {
            return reacting;
        }
        spots.next()
    }

    fn put(&mut self) -> Option<u16> {
        let spot = self.changeable_spot(PUT_EVENT)?;
        let value = self.expression(2);
        Some(self.put_value(spot, value))
    }

    pub(super) fn put_value(&mut self, spot: usize, value: Value) -> u16 {
        let [owner, line] = self.key(spot);
        self.wrote(PUT_EVENT, spot, owner.label | line.label | value.label);
        let table = self.world.spots[spot].table;
        self.push(kind::PUT, table, [owner.node, line.node, value.node, 0])
    }

    fn clear(&mut self) -> Option<u16> {
        let spot = self.changeable_spot(CLEAR_EVENT)?;
        Some(self.clear_spot(spot))
    }

    pub(super) fn clear_spot(&mut self, spot: usize) -> u16 {
        let [owner, line] = self.key(spot);
        self.wrote(CLEAR_EVENT, spot, owner.label | line.label);
        let table = self.world.spots[spot].table;
        self.push(kind::CLEAR, table, [owner.node, line.node, 0, 0])
    }

    fn wrote(&mut self, event: u8, spot: usize, label: Label) {
        self.touched |= 1 << spot;
        self.guess.write(event, spot, label);
    }

    /// The owner and line of a spot; without care, any other key.
    fn key(&mut self, spot: usize) -> [Value; 2] {
        let place = self.world.spots[spot];
        [place.owner, place.line].map(|usual| {
            if !self.random.chance(self.world.careless) {
                return self.constant(i32::from(usual));
            }
            match self.random.below(4) {
                0 => self.constant(8),
                1 => self.constant(-1),
                _ => self.expression(1),
            }
        })
    }

    /// Shows an expression to a client that may read it, or to anyone.
    pub(super) fn out(&mut self) -> Option<u16> {
        for attempt in 0..4 {
            let user = self.random.pick(&self.world.clients);
            let value = if attempt < 3 && self.random.chance(70) {
                self.expression(1)
            } else {
                let k = amount(self.random);
                self.constant(k)
            };
            if self.guess.may_read(user, value.label) || self.careless() {
                return Some(self.push(kind::OUT, user, [value.node, 0, 0, 0]));
            }
        }
        None
    }

    /// A grant or revoke; mostly a grant, and mostly only if it will pass.
    fn change_rights(&mut self) -> Option<u16> {
        let may = self.guess.may_change_rights();
        let allowed = may && (self.user == 0 || self.random.chance(10));
        if !allowed && !self.careless() {
            return None;
        }
        let user = self.random.pick(&self.world.clients);
        let region = self.random.below(self.world.regions.len());
        let grant = self.random.chance(65);
        let read = self.random.chance(70);
        let places = self.world.covers[region];
        self.guess.change_right(user, places, read, grant);
        let kind = if grant { kind::GRANT } else { kind::REVOKE };
        let which = if read { 1 } else { 2 };
        Some(self.push(kind, user, [region as u16, which, 0, 0]))
    }

    /// An if with both branches made anew.
    pub(super) fn branch(&mut self, condition: Value, depth: usize) -> u16 {
        let outside = self.guess.context;
        self.guess.context = outside | condition.label;
        let before = *self.guess;
        let length = self.random.between(1, 2);
        let yes = self.block(length, depth);
        let after_yes = *self.guess;
        *self.guess = before;
        let no = if self.random.chance(40) {
            self.skip()
        } else {
            self.command(depth)
        };
        self.guess.join(&after_yes);
        self.guess.context = outside;
        self.push(kind::IF, 0, [condition.node, yes, no, 0])
    }

    /// A command of this script once more.
    fn shared_command(&mut self) -> Option<u16> {
        let count = self.pool.nodes.len() - self.first;
        for _ in 0..8.min(count) {
            let number = self.first + self.random.below(count);
            if self.pool.nodes[number].kind >= kind::SKIP {
                return Some(number as u16);
            }
        }
        None
    }
}

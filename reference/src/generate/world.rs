//! Cells, regions and rights, and the few cells that scripts work on.

use super::Size;
use crate::book::{Cell, LabelRecord, Region, Right};
use crate::places::{place, Places};
use crate::random::Random;

/// A set of spots: bit n for spot n. Each table also has a bit for all its
/// places that are no spots.
pub(super) type Spots = u32;

/// The bit for the places of a table that are no spots. There are fewer spots
/// than the first of these.
pub(super) fn elsewhere(table: u8) -> Spots {
    1 << (24 + table)
}

/// A cell that scripts work on.
#[derive(Clone, Copy)]
pub(super) struct Spot {
    pub(super) table: u8,
    pub(super) owner: u8,
    pub(super) line: u8,
}

pub(super) struct World {
    pub(super) spots: Vec<Spot>,
    pub(super) cells: Vec<Cell>,
    /// By spot, its amount at the start, if it is present.
    pub(super) amounts: Vec<Option<i32>>,
    pub(super) regions: Vec<Region>,
    /// By region, the spots in it.
    pub(super) covers: Vec<Spots>,
    pub(super) rights: Vec<Right>,
    /// None for a book of version 1.
    pub(super) labels: Option<Vec<LabelRecord>>,
    /// The users that scripts show amounts to.
    pub(super) clients: [u8; 4],
    /// Percent of choices made without regard to the rules.
    pub(super) careless: usize,
    /// Whether triggers are made to stop the run after they have written cells.
    pub(super) failing: bool,
}

impl World {
    pub(super) fn new(random: &mut Random, size: Size, failing: bool) -> World {
        let spots = spots(random);
        let cells = cells(random, size, &spots);
        let regions = regions(random, size, &spots);
        let mut world = World {
            amounts: spots.iter().map(|spot| amount_at(spot, &cells)).collect(),
            covers: regions.iter().map(|region| cover(region, &spots)).collect(),
            cells,
            spots,
            regions,
            rights: Vec::with_capacity(64),
            labels: None,
            clients: clients(random),
            careless: random.weighted(&[(6, 0), (4, 2), (3, 6), (1, 25)]),
            failing,
        };
        world.add_rights(random, size);
        world
    }

    /// Other rights, and now and then other regions too.
    pub(super) fn change_rights(&mut self, random: &mut Random, size: Size) {
        if random.chance(30) {
            self.regions = regions(random, size, &self.spots);
            let covers = self.regions.iter().map(|region| cover(region, &self.spots));
            self.covers = covers.collect();
        }
        self.rights.clear();
        self.add_rights(random, size);
    }

    fn add_rights(&mut self, random: &mut Random, size: Size) {
        self.add_public(random);
        self.add_reads(random);
        self.add_writes(random);
        while size == Size::Full && self.rights.len() < 64 {
            let client = random.pick(&self.clients);
            let region = random.below(self.regions.len());
            self.add_right(random.between(1, 2) as u8, client, region);
        }
    }

    /// The bit for a place: its spot's, or that of its table.
    pub(super) fn bit(&self, place_of: usize) -> usize {
        let is_here = |spot: &Spot| place(spot.table, spot.owner, spot.line) == place_of;
        let spot = self.spots.iter().position(is_here);
        spot.unwrap_or(24 + place_of / 64)
    }

    /// The bits for a set of places.
    pub(super) fn bits(&self, places: &Places) -> Spots {
        places
            .members()
            .fold(0, |bits, at| bits | 1 << self.bit(at))
    }

    /// User 0 mostly, as only that user's grants and revokes pass.
    pub(super) fn script_user(&self, random: &mut Random) -> u8 {
        if random.chance(65) {
            return 0;
        }
        random.below(8) as u8
    }

    fn add_right(&mut self, kind: u8, user: u8, region: usize) {
        if self.rights.len() < 64 {
            let region = region as u8;
            self.rights.push(Right { kind, user, region });
        }
    }

    /// Mostly little is public, so that much can be secret.
    fn add_public(&mut self, random: &mut Random) {
        for _ in 0..random.weighted(&[(5, 0), (5, 1), (1, 3)]) {
            let region = self.small_region(random);
            self.add_right(0, 0, region);
        }
    }

    /// A few small regions for some users, now and then everything.
    fn add_reads(&mut self, random: &mut Random) {
        for user in 0..8 {
            for _ in 0..random.weighted(&[(6, 0), (4, 1), (1, 2)]) {
                let region = self.small_region(random);
                self.add_right(1, user, region);
            }
            if random.chance(4) {
                self.add_everything(1, user);
            }
        }
    }

    /// Most users may write everywhere, as a denied write ends the run.
    fn add_writes(&mut self, random: &mut Random) {
        for user in 0..8 {
            if random.chance(80) {
                self.add_everything(2, user);
                continue;
            }
            for _ in 0..random.below(3) {
                let region = random.below(self.regions.len());
                self.add_right(2, user, region);
            }
        }
    }

    /// Rights on the whole tables of the spots, which are the first regions.
    fn add_everything(&mut self, kind: u8, user: u8) {
        for region in 0..self.regions.len().min(3) {
            let table = self.regions[region].table;
            if self.regions[region] == whole_table(table) {
                self.add_right(kind, user, region);
            }
        }
    }

    /// Whether one of these spots is present at the start.
    pub(super) fn has_present(&self, spots: Spots) -> bool {
        let mut amounts = self.amounts.iter().enumerate();
        amounts.any(|(spot, amount)| spots >> spot & 1 == 1 && amount.is_some())
    }

    /// The smallest of a few regions, as most secrets and rights are small.
    pub(super) fn small_region(&self, random: &mut Random) -> usize {
        let mut smallest = random.below(self.regions.len());
        for _ in 0..2 {
            let other = random.below(self.regions.len());
            if self.covers[other].count_ones() < self.covers[smallest].count_ones() {
                smallest = other;
            }
        }
        smallest
    }
}

/// Two users, the first of them three times as likely to be picked.
fn clients(random: &mut Random) -> [u8; 4] {
    let often = random.below(8) as u8;
    [often, often, often, random.below(8) as u8]
}

/// A few keys in a few tables. Owners and lines mostly start from 0, so that
/// the outcome of a comparison is often a key too.
fn spots(random: &mut Random) -> Vec<Spot> {
    let tables = random.between(1, 3);
    let owners = random.between(1, 3);
    let lines = random.between(1, 2);
    let first_table = random.below(8);
    let first_owner = if random.chance(75) {
        0
    } else {
        random.below(6)
    };
    let first_line = if random.chance(75) {
        0
    } else {
        random.below(7)
    };
    let mut spots = Vec::with_capacity(tables * owners * lines);
    for table in 0..tables {
        for owner in 0..owners {
            for line in 0..lines {
                spots.push(Spot {
                    table: ((first_table + table) % 8) as u8,
                    owner: (first_owner + owner) as u8,
                    line: (first_line + line) as u8,
                });
            }
        }
    }
    spots
}

/// The whole tables of the spots first, then mostly small regions.
fn regions(random: &mut Random, size: Size, spots: &[Spot]) -> Vec<Region> {
    let mut regions = Vec::with_capacity(64);
    for spot in spots {
        let region = whole_table(spot.table);
        if !regions.contains(&region) {
            regions.push(region);
        }
    }
    let more = match size {
        Size::Tiny => random.between(1, 5),
        Size::Full => 64 - regions.len(),
        _ => random.between(2, 10),
    };
    for _ in 0..more {
        let spot = random.pick(spots);
        regions.push(region_near(random, spot));
    }
    regions
}

fn whole_table(table: u8) -> Region {
    Region {
        table,
        owner_first: 0,
        owner_last: 7,
        line_first: 0,
        line_last: 7,
    }
}

fn region_near(random: &mut Random, spot: Spot) -> Region {
    let single = Region {
        table: spot.table,
        owner_first: spot.owner,
        owner_last: spot.owner,
        line_first: spot.line,
        line_last: spot.line,
    };
    let all = whole_table(spot.table);
    match random.below(20) {
        0..=10 => single,
        11..=14 => Region {
            line_first: 0,
            line_last: 7,
            ..single
        },
        15..=16 => Region {
            owner_first: 0,
            owner_last: 7,
            ..single
        },
        17..=18 => {
            let (owner_first, owner_last) = ends(random);
            let (line_first, line_last) = ends(random);
            Region {
                owner_first,
                owner_last,
                line_first,
                line_last,
                ..single
            }
        }
        _ => all,
    }
}

/// A random first and last, in order.
fn ends(random: &mut Random) -> (u8, u8) {
    let (one, other) = (random.below(8) as u8, random.below(8) as u8);
    (one.min(other), one.max(other))
}

fn cover(region: &Region, spots: &[Spot]) -> Spots {
    let mut cover: Spots = 0;
    for (index, spot) in spots.iter().enumerate() {
        if region.holds(spot.table, spot.owner, spot.line) {
            cover |= 1 << index;
        }
    }
    let owners = region.owner_last - region.owner_first + 1;
    let lines = region.line_last - region.line_first + 1;
    if cover.count_ones() < u32::from(owners * lines) {
        cover |= elsewhere(region.table);
    }
    cover
}

/// Most spots are present, and a few cells elsewhere.
fn cells(random: &mut Random, size: Size, spots: &[Spot]) -> Vec<Cell> {
    let elsewhere = match size {
        Size::Full => 100,
        _ => random.weighted(&[(6, 0), (3, 1), (1, 40)]),
    };
    let mut cells = Vec::new();
    for place in 0..512_usize {
        let (table, owner, line) = (place / 64, place / 8 % 8, place % 8);
        let (table, owner, line) = (table as u8, owner as u8, line as u8);
        let is_spot = spots
            .iter()
            .any(|spot| (spot.table, spot.owner, spot.line) == (table, owner, line));
        let percent = if is_spot {
            elsewhere.max(70)
        } else {
            elsewhere
        };
        if percent > 0 && random.chance(percent) {
            cells.push(Cell {
                table,
                owner,
                line,
                amount: amount(random),
            });
        }
    }
    cells
}

fn amount_at(spot: &Spot, cells: &[Cell]) -> Option<i32> {
    cells
        .iter()
        .find(|cell| (cell.table, cell.owner, cell.line) == (spot.table, spot.owner, spot.line))
        .map(|cell| cell.amount)
}

/// Mostly an amount that is also a key, sometimes one at the edge of the range.
pub(super) fn amount(random: &mut Random) -> i32 {
    match random.below(40) {
        0..=23 => random.below(4) as i32,
        24..=29 => random.below(10) as i32 - 1,
        30..=35 => random.below(2_000) as i32 - 500,
        36 => i32::MAX - random.below(3) as i32,
        37 => i32::MIN + random.below(3) as i32,
        38 => random.word() as i32,
        _ => 1 << random.below(31),
    }
}

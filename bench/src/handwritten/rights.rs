//! Who may read and write which places.

use super::book::Book;
use super::regions::Region;
use super::sets::{Label, Set};

pub struct Rights {
    pub public: Set,
    /// Each user's read set with the public set.
    pub read: [Set; 8],
    pub write: [Set; 8],
}

impl Rights {
    /// The rights at the start of a run.
    pub fn of(book: &Book) -> Rights {
        let mut public = Set::EMPTY;
        let mut read = [Set::EMPTY; 8];
        let mut write = [Set::EMPTY; 8];
        for &[kind, user, region, _] in book.rights {
            let set = match kind {
                0 => &mut public,
                1 => &mut read[usize::from(user)],
                _ => &mut write[usize::from(user)],
            };
            set.join_region(&Region::of(&book.regions[usize::from(region)]));
        }
        for set in &mut read {
            set.join(&public);
        }
        Rights {
            public,
            read,
            write,
        }
    }

    pub fn may_write(&self, user: u8, table: usize, bit: u32) -> bool {
        self.write[usize::from(user)][table] >> bit & 1 == 1
    }

    pub fn grant(&mut self, user: u8, right: u16, region: &Region) {
        self.set(user, right)[region.table] |= region.cells;
    }

    /// What is public stays readable.
    pub fn revoke(&mut self, user: u8, right: u16, region: &Region) {
        let public = self.public[region.table];
        let word = &mut self.set(user, right)[region.table];
        *word &= !region.cells;
        if right == 1 {
            *word |= public;
        }
    }

    fn set(&mut self, user: u8, right: u16) -> &mut Set {
        let sets = if right == 1 {
            &mut self.read
        } else {
            &mut self.write
        };
        &mut sets[usize::from(user)]
    }
}

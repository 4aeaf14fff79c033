//! Who may read and write what.

use crate::book::Book;
use crate::places::Places;

/// The public set and the users' own sets.
pub struct Rights {
    pub public: Places,
    /// By user, without the public set.
    pub readable: [Places; 8],
    /// By user.
    pub writable: [Places; 8],
}

impl Rights {
    /// The regions of a book's rights records.
    pub fn at_start(book: &Book) -> Rights {
        let mut rights = Rights {
            public: Places::EMPTY,
            readable: [Places::EMPTY; 8],
            writable: [Places::EMPTY; 8],
        };
        for right in &book.rights {
            let user = usize::from(right.user);
            let set = match right.kind {
                0 => &mut rights.public,
                1 => &mut rights.readable[user],
                _ => &mut rights.writable[user],
            };
            set.add(&Places::of_region(&book.regions[usize::from(right.region)]));
        }
        rights
    }
}

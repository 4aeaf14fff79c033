//! Sets of places: labels, rights and presence all have this form.

use crate::book::Region;

/// The number of a cell among all 512; it is also its bit in a set.
pub fn place(table: u8, owner: u8, line: u8) -> usize {
    64 * usize::from(table) + 8 * usize::from(owner) + usize::from(line)
}

/// A set of places: one word for each table, bit 8·owner + line within it.
#[derive(Clone, Copy, Debug, Default, PartialEq, Eq)]
pub struct Places(pub [u64; 8]);

/// What comparing one set with another answers.
#[derive(Clone, Copy, Debug, PartialEq, Eq)]
pub struct Comparison {
    /// Whether every member of the one is also in the other.
    pub inside: bool,
    /// How many words were looked at to tell.
    pub looked_at: usize,
}

impl Places {
    pub const EMPTY: Places = Places([0; 8]);

    /// The set with one member.
    pub fn single(place: usize) -> Places {
        let mut set = Places::EMPTY;
        set.insert(place);
        set
    }

    /// The set that is stored as these eight words.
    pub fn from_words(words: &[u64]) -> Places {
        let mut set = Places::EMPTY;
        set.0.copy_from_slice(words);
        set
    }

    /// Every place of a region whose ends are 0–7.
    pub fn of_region(region: &Region) -> Places {
        let mut set = Places::EMPTY;
        for owner in region.owner_first..=region.owner_last {
            for line in region.line_first..=region.line_last {
                set.insert(place(region.table, owner, line));
            }
        }
        set
    }

    pub fn insert(&mut self, place: usize) {
        self.0[place / 64] |= 1 << (place % 64);
    }

    pub fn holds(&self, place: usize) -> bool {
        self.0[place / 64] >> (place % 64) & 1 == 1
    }

    /// Looks for members that `other` lacks, from word 0 up, and no further than
    /// the first word that has one.
    pub fn compare(&self, other: &Places) -> Comparison {
        let mut words = self.0.iter().zip(&other.0);
        match words.position(|(own, theirs)| own & !theirs != 0) {
            Some(word) => Comparison {
                inside: false,
                looked_at: word + 1,
            },
            None => Comparison {
                inside: true,
                looked_at: self.0.len(),
            },
        }
    }

    /// Whether every member is also in `other`.
    pub fn within(&self, other: &Places) -> bool {
        self.compare(other).inside
    }

    pub fn add(&mut self, other: &Places) {
        for (own, more) in self.0.iter_mut().zip(&other.0) {
            *own |= more;
        }
    }

    pub fn remove(&mut self, other: &Places) {
        for (own, less) in self.0.iter_mut().zip(&other.0) {
            *own &= !less;
        }
    }

    pub fn union(mut self, other: &Places) -> Places {
        self.add(other);
        self
    }

    /// The members, rising.
    pub fn members(&self) -> impl Iterator<Item = usize> + '_ {
        (0..512).filter(|&place| self.holds(place))
    }
}

#[cfg(test)]
mod tests {
    use super::*;

    #[test]
    fn place_counts_lines_then_owners_then_tables() {
        assert_eq!(place(0, 0, 0), 0);
        assert_eq!(place(1, 2, 3), 83);
        assert_eq!(place(7, 7, 7), 511);
    }

    #[test]
    fn single_sets_one_bit_of_the_tables_word() {
        assert_eq!(Places::single(83).0, [0, 1 << 19, 0, 0, 0, 0, 0, 0]);
        assert!(Places::single(83).holds(83));
        assert!(!Places::single(83).holds(19));
    }

    #[test]
    fn region_covers_both_ends() {
        let region = Region {
            table: 2,
            owner_first: 6,
            owner_last: 7,
            line_first: 1,
            line_last: 2,
        };
        let word = 0x0606_0000_0000_0000;
        assert_eq!(Places::of_region(&region).0, [0, 0, word, 0, 0, 0, 0, 0]);
    }

    #[test]
    fn within_union_and_remove() {
        let low = Places::single(0);
        let both = low.union(&Places::single(511));
        assert!(Places::EMPTY.within(&Places::EMPTY));
        assert!(low.within(&both));
        assert!(!both.within(&low));
        let mut rest = both;
        rest.remove(&low);
        assert_eq!(rest, Places::single(511));
    }

    /// What the set with these words compares to, with one that has 6 in every
    /// word.
    fn compared(words: [u64; 8]) -> (bool, usize) {
        let Comparison { inside, looked_at } = Places(words).compare(&Places([6; 8]));
        (inside, looked_at)
    }

    #[test]
    fn a_missing_place_ends_a_comparison_at_its_word() {
        assert_eq!(compared([1, 0, 0, 0, 0, 0, 0, 0]), (false, 1));
        assert_eq!(compared([6, 6, 14, 6, 6, 6, 6, 6]), (false, 3));
        assert_eq!(compared([0, 2, 4, 0, 7, 6, 0, 1]), (false, 5));
        assert_eq!(compared([6, 0, 6, 0, 6, 0, 6, 1 << 63]), (false, 8));
        assert_eq!(compared([u64::MAX; 8]), (false, 1));
    }

    #[test]
    fn a_comparison_without_a_missing_place_looks_at_every_word() {
        assert_eq!(compared([6; 8]), (true, 8));
        assert_eq!(compared([0; 8]), (true, 8));
        assert_eq!(compared([2, 4, 6, 0, 0, 6, 4, 2]), (true, 8));
    }

    #[test]
    fn members_rise() {
        assert_eq!(Places::EMPTY.members().next(), None);
        let set = Places([1 << 63, 5, 0, 0, 0, 0, 0, 1 << 63]);
        assert_eq!(set.members().collect::<Vec<_>>(), [63, 64, 66, 511]);
    }
}

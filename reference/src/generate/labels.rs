//! Labels that cells have at the start of a book of version 2.

use super::world::Spot;
use super::Size;
use crate::book::LabelRecord;
use crate::places::{place, Places};
use crate::random::Random;

/// Records for some of the spots, present or absent, and for a few cells
/// elsewhere. Now and then there are none.
pub(super) fn records(random: &mut Random, size: Size, spots: &[Spot]) -> Vec<LabelRecord> {
    let often = random.weighted(&[(1, 0), (3, 15), (4, 40), (2, 80)]);
    let elsewhere = match size {
        Size::Full => 100,
        _ => random.weighted(&[(12, 0), (3, 1), (1, 8)]),
    };
    let spots: Vec<usize> = spots
        .iter()
        .map(|spot| place(spot.table, spot.owner, spot.line))
        .collect();
    let mut records = Vec::new();
    for place in 0..512 {
        let percent = match spots.contains(&place) {
            true => often.max(elsewhere),
            false => elsewhere,
        };
        if percent > 0 && random.chance(percent) {
            let label = label(random, place, &spots);
            if label != Places::single(place) {
                let place = place as u16;
                records.push(LabelRecord { place, label });
            }
        }
    }
    records
}

/// A label for the cell at a place, mostly of a few of these others. It may be
/// the own place alone.
pub(super) fn label(random: &mut Random, own: usize, others: &[usize]) -> Places {
    let other = Places::single(random.pick(others));
    let own = Places::single(own);
    match random.below(24) {
        0..=6 => own.union(&other),
        7..=13 => other,
        14..=16 => Places::EMPTY,
        17..=19 => other.union(&Places::single(random.pick(others))),
        20..=21 => own.union(&Places::single(random.below(512))),
        22 => Places(std::array::from_fn(|_| random.word())),
        _ => Places([u64::MAX; 8]),
    }
}

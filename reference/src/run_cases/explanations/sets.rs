//! The sets of a test on labels.

/// Table, first and last owner, first and last line.
pub(super) type Area = [u8; 5];

pub(super) const fn whole(table: u8) -> Area {
    [table, 0, 7, 0, 7]
}

pub(super) const fn one(table: u8, owner: u8, line: u8) -> Area {
    [table, owner, owner, line, line]
}

/// A set that is tested, and the set that it has to lie within.
#[derive(Clone, Default)]
pub(super) struct Sets {
    pub(super) tested: Vec<Area>,
    pub(super) bound: Vec<Area>,
}

pub(super) fn sets(tested: &[Area], bound: &[Area]) -> Sets {
    Sets {
        tested: tested.to_vec(),
        bound: bound.to_vec(),
    }
}

/// Both ends of every word alone; one, some and all places of the first, a
/// middle and the last word; and several words.
pub(super) fn all_sets() -> Vec<Sets> {
    let tables: Vec<Area> = (0..8).map(whole).collect();
    let mut all = few_sets();
    for table in 0..8 {
        let ends = [one(table, 0, 0), one(table, 7, 7)];
        all.push(sets(&ends[..1], &[]));
        all.push(sets(&ends, &[ends[0], one(7 - table, 3, 4)]));
    }
    for table in [0, 4, 7] {
        let row = [table, 2, 2, 0, 7];
        let column = [table, 0, 7, 5, 5];
        all.push(sets(&[row], &[[table, 3, 7, 0, 7]]));
        all.push(sets(&[row, column], &[row, [table, 0, 7, 4, 4]]));
        all.push(sets(&[whole(table)], &[whole((table + 3) % 8)]));
        all.push(sets(&[whole(table)], &[one(table, 0, 0)]));
    }
    let next = [one(0, 7, 7), one(1, 0, 0)];
    all.push(sets(&next, &[[0, 0, 7, 0, 6], [1, 1, 7, 0, 7]]));
    all.push(sets(&[whole(3), one(4, 0, 0)], &[]));
    all.push(sets(&tables, &[]));
    all.push(sets(&tables, &tables[..4]));
    all.push(sets(&tables, &tables[1..]));
    let diagonal: Vec<Area> = (0..8).map(|table| one(table, table, 7 - table)).collect();
    all.push(sets(&diagonal, &[]));
    all
}

/// Sets of which neither lies within the other, with the lowest place in the
/// first, a middle and the last word.
pub(super) fn few_sets() -> Vec<Sets> {
    vec![
        sets(
            &[whole(0), [6, 0, 3, 0, 3]],
            &[[0, 0, 6, 0, 7], [6, 2, 7, 2, 7], whole(7)],
        ),
        sets(
            &[[2, 0, 7, 0, 7], [5, 3, 3, 0, 7]],
            &[[2, 0, 6, 0, 7], whole(0), [7, 0, 0, 0, 7]],
        ),
        sets(
            &[whole(0), whole(3), whole(7)],
            &[
                whole(0),
                whole(3),
                [7, 0, 6, 0, 7],
                [7, 7, 7, 0, 6],
                whole(5),
            ],
        ),
    ]
}

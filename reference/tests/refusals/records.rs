//! Refusals 5–7, 9 and 10: cells, regions, rights, programs and triggers.

use crate::{after, with_byte};
use reference::book::{kind, Node};

// Where the sections of the sound book start.
const CELLS: usize = 0;
const REGIONS: usize = 24;
const RIGHTS: usize = 48;
const PROGRAMS: usize = 156;
const TRIGGERS: usize = 168;

#[test]
fn cell_keys_end_at_7() {
    assert_eq!(after(|book| book.cells[2].table = 7), None);
    assert_eq!(after(|book| book.cells[2].owner = 7), None);
    assert_eq!(after(|book| book.cells[2].line = 7), None);
    for past in [8, 255] {
        assert_eq!(after(|book| book.cells[2].table = past), Some((5, 2)));
        assert_eq!(after(|book| book.cells[1].owner = past), Some((5, 1)));
        assert_eq!(after(|book| book.cells[0].line = past), Some((5, 0)));
    }
}

#[test]
fn cell_amounts_are_any() {
    for amount in [i32::MIN, -1, 0, i32::MAX] {
        assert_eq!(after(|book| book.cells[1].amount = amount), None);
    }
}

#[test]
fn cell_places_rise_strictly() {
    assert_eq!(after(|book| book.cells[1].line = 2), Some((5, 1)), "same");
    assert_eq!(after(|book| book.cells[1].line = 1), Some((5, 1)), "lower");
    assert_eq!(after(|book| book.cells[2].table = 0), Some((5, 2)), "table");
    assert_eq!(after(|book| book.cells[0].owner = 2), Some((5, 1)), "owner");
    assert_eq!(after(|book| book.cells.swap(0, 2)), Some((5, 1)));
}

#[test]
fn cell_filler_is_zero() {
    for index in 0..3 {
        let at = CELLS + 8 * index + 3;
        assert_eq!(with_byte(at, 1), Some((5, index as u32)));
        assert_eq!(with_byte(at, 128), Some((5, index as u32)));
    }
}

#[test]
fn region_fields_end_at_7() {
    assert_eq!(after(|book| book.regions[1].table = 7), None);
    assert_eq!(after(|book| book.regions[1].owner_last = 7), None);
    assert_eq!(after(|book| book.regions[1].line_last = 7), None);
    assert_eq!(after(|book| book.regions[1].owner_first = 0), None);
    assert_eq!(after(|book| book.regions[1].line_first = 0), None);
    for past in [8, 255] {
        assert_eq!(after(|book| book.regions[0].table = past), Some((6, 0)));
        assert_eq!(
            after(|book| book.regions[1].owner_last = past),
            Some((6, 1))
        );
        assert_eq!(after(|book| book.regions[2].line_last = past), Some((6, 2)));
    }
}

#[test]
fn region_first_is_at_most_last() {
    assert_eq!(after(|book| book.regions[1].owner_first = 3), None);
    assert_eq!(after(|book| book.regions[1].line_first = 5), None);
    assert_eq!(after(|book| book.regions[1].owner_first = 4), Some((6, 1)));
    assert_eq!(after(|book| book.regions[1].line_first = 6), Some((6, 1)));
    assert_eq!(after(|book| book.regions[2].owner_last = 6), Some((6, 2)));
}

#[test]
fn region_filler_is_zero() {
    for index in 0..3 {
        for byte in 5..8 {
            let at = REGIONS + 8 * index + byte;
            assert_eq!(with_byte(at, 1), Some((6, index as u32)));
        }
    }
}

#[test]
fn right_fields_have_limits() {
    assert_eq!(after(|book| book.rights[1].kind = 2), None);
    assert_eq!(after(|book| book.rights[1].kind = 3), Some((7, 1)));
    assert_eq!(after(|book| book.rights[1].user = 0), None);
    assert_eq!(after(|book| book.rights[1].user = 7), None);
    assert_eq!(after(|book| book.rights[1].user = 8), Some((7, 1)));
    assert_eq!(after(|book| book.rights[2].user = 8), Some((7, 2)));
    assert_eq!(after(|book| book.rights[0].region = 2), None);
    assert_eq!(after(|book| book.rights[0].region = 3), Some((7, 0)));
    assert_eq!(after(|book| book.rights[2].region = 255), Some((7, 2)));
}

#[test]
fn public_right_names_no_user() {
    for user in [1, 7, 8] {
        assert_eq!(after(|book| book.rights[0].user = user), Some((7, 0)));
    }
    assert_eq!(after(|book| book.rights[1].kind = 0), Some((7, 1)));
}

#[test]
fn right_filler_is_zero() {
    for index in 0..3 {
        let at = RIGHTS + 4 * index + 3;
        assert_eq!(with_byte(at, 1), Some((7, index as u32)));
    }
}

#[test]
fn program_fields_have_limits() {
    assert_eq!(after(|book| book.programs[0].user = 7), None);
    assert_eq!(after(|book| book.programs[0].user = 8), Some((9, 0)));
    assert_eq!(after(|book| book.programs[1].root = 5), None);
    assert_eq!(after(|book| book.programs[1].root = 6), Some((9, 1)));
    assert_eq!(after(|book| book.programs[2].root = 65_535), Some((9, 2)));
    assert_eq!(
        after(|book| book.programs[2].root = 1),
        Some((9, 2)),
        "sort"
    );
}

#[test]
fn program_filler_is_zero() {
    for index in 0..3 {
        let at = PROGRAMS + 4 * index + 1;
        assert_eq!(with_byte(at, 1), Some((9, index as u32)));
    }
}

#[test]
fn trigger_fields_have_limits() {
    assert_eq!(after(|book| book.triggers[0].region = 2), None);
    assert_eq!(after(|book| book.triggers[0].region = 3), Some((10, 0)));
    assert_eq!(after(|book| book.triggers[1].event = 0), Some((10, 1)));
    assert_eq!(after(|book| book.triggers[1].event = 1), None);
    assert_eq!(after(|book| book.triggers[1].event = 3), Some((10, 1)));
    assert_eq!(after(|book| book.triggers[2].user = 7), None);
    assert_eq!(after(|book| book.triggers[2].user = 8), Some((10, 2)));
    assert_eq!(after(|book| book.triggers[0].body = 3), None);
    assert_eq!(after(|book| book.triggers[0].body = 6), Some((10, 0)));
    assert_eq!(
        after(|book| book.triggers[0].body = 1),
        Some((10, 0)),
        "sort"
    );
}

#[test]
fn trigger_filler_is_zero() {
    for index in 0..3 {
        for byte in [3, 6, 7] {
            let at = TRIGGERS + 8 * index + byte;
            assert_eq!(with_byte(at, 1), Some((10, index as u32)));
        }
    }
}

/// The verdict if a trigger's body reaches this command: as the body itself,
/// second of a pair, or in either branch.
fn body_reaching(command: Node) -> [Option<(u32, u32)>; 4] {
    let pair = Node {
        kind: kind::THEN,
        a: 2,
        b: 6,
        ..Node::default()
    };
    let branch = |b, c| Node {
        kind: kind::IF,
        a: 0,
        b,
        c,
        ..Node::default()
    };
    let skip = Node {
        kind: kind::SKIP,
        ..Node::default()
    };
    [skip, pair, branch(6, 2), branch(2, 6)].map(|parent| {
        after(|book| {
            book.nodes.extend([command, parent]);
            book.triggers[1].body = if parent == skip { 6 } else { 7 };
        })
    })
}

#[test]
fn trigger_bodies_do_not_loop_or_speak_or_change_rights() {
    let node = |kind, p, a, b, c| Node {
        kind,
        p,
        a,
        b,
        c,
        d: 0,
        k: 0,
    };
    for barred in [
        node(kind::WHILE, 0, 0, 2, 0),
        node(kind::OUT, 0, 1, 0, 0),
        node(kind::GRANT, 0, 0, 1, 0),
        node(kind::REVOKE, 0, 0, 2, 0),
    ] {
        assert_eq!(body_reaching(barred), [Some((10, 1)); 4]);
    }
    for fine in [
        node(kind::SKIP, 0, 0, 0, 0),
        node(kind::ASSIGN, 15, 1, 0, 0),
        node(kind::THEN, 0, 2, 3, 0),
        node(kind::IF, 0, 0, 2, 3),
        node(kind::PUT, 7, 0, 1, 1),
        node(kind::CLEAR, 7, 0, 1, 0),
        node(kind::RAISE, 15, 2, 0, 0),
    ] {
        assert_eq!(body_reaching(fine), [None; 4]);
    }
}

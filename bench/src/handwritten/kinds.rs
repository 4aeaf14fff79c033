//! The kinds of node, and whether nodes are good: refusal 8.

use super::book::Refusal;
use reference::book::kind::{
    ADD, ASSIGN, CLEAR, CONSTANT, COUNT, GRANT, IF, LARGEST, LESS, OUT, PUT, RAISE, REVOKE, SKIP,
    THEN, VARIABLE, WHILE,
};

/// What is known of each node; 0 where there is none.
pub type Flags = [u8; 1_024];

const EXPRESSION: u8 = 1;
pub const COMMAND: u8 = 2;
/// Reaches a kind that no trigger body may reach.
pub const BARRED: u8 = 4;

/// What a kind asks of its record.
#[derive(Clone, Copy)]
struct Row {
    /// The node's own flags; 0 if there is no such kind.
    flags: u8,
    /// For each of the fields a to d, from the low byte on, the sort of child that
    /// it names, or 0.
    children: u32,
    /// Which flags the node takes over from these children.
    inherits: u32,
    /// The bits that must be 0, of the record's bytes as one number.
    zeros: u128,
    /// Whether field a names a region.
    names_region: bool,
    /// Whether field b is 1 or 2, for a right to read or to write.
    names_right: bool,
}

const ROWS: [Row; 27] = rows();

const fn rows() -> [Row; 27] {
    const E: u8 = EXPRESSION;
    const C: u8 = COMMAND;
    let mut rows = [row(0, 1, [0; 4]); 27];
    rows[CONSTANT as usize] = with_number(row(E, 1, [0; 4]));
    rows[VARIABLE as usize] = row(E, 16, [0; 4]);
    let mut kind = ADD;
    while kind <= LESS {
        rows[kind as usize] = row(E, 1, [E, E, 0, 0]);
        kind += 1;
    }
    let mut kind = COUNT;
    while kind <= LARGEST {
        rows[kind as usize] = row(E, 8, [E; 4]);
        kind += 1;
    }
    rows[SKIP as usize] = row(C, 1, [0; 4]);
    rows[ASSIGN as usize] = row(C, 16, [E, 0, 0, 0]);
    rows[THEN as usize] = row(C, 1, [C, C, 0, 0]);
    rows[IF as usize] = row(C, 1, [E, C, C, 0]);
    rows[WHILE as usize] = row(C | BARRED, 1, [E, C, 0, 0]);
    rows[PUT as usize] = row(C, 8, [E, E, E, 0]);
    rows[CLEAR as usize] = row(C, 8, [E, E, 0, 0]);
    rows[OUT as usize] = row(C | BARRED, 8, [E, 0, 0, 0]);
    rows[GRANT as usize] = with_right(row(C | BARRED, 8, [0; 4]));
    rows[REVOKE as usize] = with_right(row(C | BARRED, 8, [0; 4]));
    rows[RAISE as usize] = with_region(row(C, 16, [0; 4]));
    rows
}

/// A kind with fewer than `p_end` values of p, a power of two, and these
/// children. All else is 0, and so are the high bits of a child's number.
const fn row(flags: u8, p_end: u8, children: [u8; 4]) -> Row {
    let mut zeros = !0xFF & !(((p_end - 1) as u128) << 8);
    let mut inherits = [0; 4];
    let mut field = 0;
    while field < 4 {
        if children[field] != 0 {
            zeros &= !(1_023 << (16 + 16 * field));
        }
        if children[field] == COMMAND {
            inherits[field] = BARRED;
        }
        field += 1;
    }
    Row {
        flags,
        children: u32::from_le_bytes(children),
        inherits: u32::from_le_bytes(inherits),
        zeros,
        names_region: false,
        names_right: false,
    }
}

const fn with_number(row: Row) -> Row {
    let zeros = row.zeros & !(0xFFFF_FFFF << 80);
    Row { zeros, ..row }
}

const fn with_region(row: Row) -> Row {
    Row {
        zeros: row.zeros & !(63 << 16),
        names_region: true,
        ..row
    }
}

const fn with_right(row: Row) -> Row {
    let row = with_region(row);
    Row {
        zeros: row.zeros & !(3 << 32),
        names_right: true,
        ..row
    }
}

/// The flags of all nodes, or the refusal of the first bad one. One pass, as
/// children come before their parents.
pub fn check_nodes(nodes: &[[u8; 16]], regions: usize) -> Result<Flags, Refusal> {
    let mut flags = [0; 1_024];
    for (number, record) in nodes.iter().enumerate() {
        let found = flags_of(record, &flags, regions);
        if found == 0 {
            let at = number as u32;
            return Err(Refusal { number: 8, at });
        }
        flags[number] = found;
    }
    Ok(flags)
}

/// The flags of a node, given those of the nodes before it; 0 if it is bad. A
/// child that is not before it has no flags yet, so it is not of any sort.
fn flags_of(record: &[u8; 16], flags: &Flags, regions: usize) -> u8 {
    let Some(row) = ROWS.get(usize::from(record[0])) else {
        return 0;
    };
    let bits = u128::from_le_bytes(*record);
    let child = |field: u32| flags[(bits >> (16 + 16 * field)) as usize % 1_024];
    let below = u32::from_le_bytes([child(0), child(1), child(2), child(3)]);
    let barred = below & row.inherits != 0;
    let (a, b) = ((bits >> 16) as u16, (bits >> 32) as u16);
    if bits & row.zeros != 0
        || row.children & !below != 0
        || (row.names_region && usize::from(a) >= regions)
        || (row.names_right && b != 1 && b != 2)
    {
        return 0;
    }
    row.flags | if barred { BARRED } else { 0 }
}

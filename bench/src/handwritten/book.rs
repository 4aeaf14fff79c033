//! The file as sections of records: refusals 2 to 10, and then 32, in order.

use super::kinds::{self, Flags};
use super::records;

/// A refusal's number, and the index of the first bad record.
#[derive(Clone, Copy)]
pub struct Refusal {
    pub number: u32,
    pub at: u32,
}

/// The records of an accepted book, as they stand in the file.
#[derive(Clone, Copy)]
pub struct Book<'a> {
    pub cells: &'a [[u8; 8]],
    pub regions: &'a [[u8; 8]],
    pub rights: &'a [[u8; 4]],
    pub nodes: &'a [[u8; 16]],
    pub programs: &'a [[u8; 4]],
    pub triggers: &'a [[u8; 8]],
    /// None in a file of version 1.
    pub labels: &'a [[u8; LABEL]],
    /// The bytes of all sections but the cells and the labels.
    pub between: &'a [u8],
}

pub const TRAILER: usize = 36;
/// The bytes of a distance and a count.
pub const PAIR: usize = 4;
/// The bytes of a label record.
pub const LABEL: usize = 66;
const MARK_1: [u8; 8] = *b"BKWS\x01\0\0\0";
pub const MARK_2: [u8; 8] = *b"BKWS\x02\0\0\0";

/// The most records of each section that every version has, and the bytes of
/// one.
const SECTIONS: [(usize, usize); 6] = [(512, 8), (64, 8), (64, 4), (1_024, 16), (8, 4), (8, 8)];
const MOST_LABELS: usize = 512;

impl<'a> Book<'a> {
    /// Reads a file of any bytes.
    pub fn read(file: &'a [u8]) -> Result<Book<'a>, Refusal> {
        let trailer = trailer(file).ok_or(Refusal { number: 2, at: 0 })?;
        let version_2 = trailer[..8] == MARK_2;
        if !version_2 && trailer[..8] != MARK_1 {
            return Err(Refusal { number: 3, at: 0 });
        }
        let book = sections(file, trailer, version_2).ok_or(Refusal { number: 4, at: 0 })?;
        records::check_cells(book.cells)?;
        records::check_regions(book.regions)?;
        records::check_rights(book.rights, book.regions.len())?;
        let flags: Flags = kinds::check_nodes(book.nodes, book.regions.len())?;
        records::check_programs(book.programs, &flags)?;
        records::check_triggers(book.triggers, book.regions.len(), &flags)?;
        records::check_labels(book.labels)?;
        Ok(book)
    }
}

fn trailer(file: &[u8]) -> Option<&[u8; TRAILER]> {
    let trailer: &[u8; TRAILER] = file.last_chunk()?;
    let length = u32::from_le_bytes(*trailer.last_chunk()?);
    (file.len() <= 60_000 && length as usize == file.len()).then_some(trailer)
}

/// The section that starts at a byte, if its pair says so and it fits.
fn section<'a>(
    file: &'a [u8],
    at: usize,
    pair: &[u8; PAIR],
    (most, size): (usize, usize),
) -> Option<&'a [u8]> {
    let distance = usize::from(u16::from_le_bytes([pair[0], pair[1]]));
    let count = usize::from(u16::from_le_bytes([pair[2], pair[3]]));
    if at + distance != file.len() || count > most {
        return None;
    }
    file.get(at..at + size * count)
}

/// Cuts the file into its sections, if they lie as they have to.
fn sections<'a>(file: &'a [u8], trailer: &[u8; TRAILER], version_2: bool) -> Option<Book<'a>> {
    let mut parts: [&[u8]; 6] = [&[]; 6];
    let mut at = 0;
    let (pairs, _) = trailer[8..32].as_chunks();
    for ((part, pair), sizes) in parts.iter_mut().zip(pairs).zip(SECTIONS) {
        *part = section(file, at, pair, sizes)?;
        at += part.len();
    }
    let [cells, regions, rights, nodes, programs, triggers] = parts;
    let between = file.get(cells.len()..at)?;
    let mut labels: &[u8] = &[];
    let mut tail = TRAILER;
    if version_2 {
        tail += PAIR;
        let pair = file.last_chunk::<{ PAIR + TRAILER }>()?.first_chunk()?;
        labels = section(file, at, pair, (MOST_LABELS, LABEL))?;
        at += labels.len();
    }
    (at + tail == file.len()).then_some(Book {
        cells: cells.as_chunks().0,
        regions: regions.as_chunks().0,
        rights: rights.as_chunks().0,
        nodes: nodes.as_chunks().0,
        programs: programs.as_chunks().0,
        triggers: triggers.as_chunks().0,
        labels: labels.as_chunks().0,
        between,
    })
}

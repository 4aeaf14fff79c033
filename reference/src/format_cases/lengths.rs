//! Files too short, too long, or of another length than they say: refusal 2;
//! and files whose sections do not fill them: refusal 4.

use super::base::{plus, small, starts, with_bytes, with_true_length};
use crate::book::Book;
use crate::decode::TRAILER;

pub(super) fn files() -> Vec<Vec<u8>> {
    let whole = small().encode();
    [
        truncated(&whole),
        lengthened(&small()),
        length_fields(&whole),
        without_records(),
    ]
    .concat()
}

/// The first bytes only, and the last bytes only; the latter also with the
/// length field made right.
fn truncated(whole: &[u8]) -> Vec<Vec<u8>> {
    let mut files: Vec<Vec<u8>> = (0..whole.len()).map(|end| whole[..end].to_vec()).collect();
    let trailer = whole.len() - TRAILER;
    for start in [1, 8, 16, trailer - 1, trailer, trailer + 1, trailer + 32] {
        files.push(whole[start..].to_vec());
        files.push(with_true_length(whole[start..].to_vec()));
    }
    files
}

/// Zeros after the trailer; and zeros before each section and before the
/// trailer, where the length field is made right and the distances tell where
/// the sections are.
fn lengthened(book: &Book) -> Vec<Vec<u8>> {
    let mut files = Vec::new();
    for more in [1, 4, 8, 36, 256] {
        let mut longer = book.encode();
        longer.resize(longer.len() + more, 0);
        files.push(longer);
        for (section, at) in starts(book).into_iter().take(7).enumerate() {
            let mut file = book.encode();
            for earlier in 0..section {
                let pair = file.len() - TRAILER + 8 + 4 * earlier;
                file = plus(&file, pair, more as isize);
            }
            file.splice(at..at, vec![0; more]);
            files.push(with_true_length(file));
        }
    }
    files
}

fn length_fields(whole: &[u8]) -> Vec<Vec<u8>> {
    let mut files = Vec::new();
    for at in whole.len() - 4..whole.len() {
        let (up, down) = (whole[at].wrapping_add(1), whole[at].wrapping_sub(1));
        files.extend(with_bytes(whole, at, &[0, 1, 16, 128, 255, up, down]));
    }
    files
}

/// Nothing but zeros and a trailer, up to the longest file and one byte more.
fn without_records() -> Vec<Vec<u8>> {
    let mut files = vec![vec![0], empty(TRAILER)[1..].to_vec()];
    files.extend([TRAILER, TRAILER + 1, 60_000, 60_001].map(empty));
    files.push(empty(TRAILER - 1)[1..].to_vec());
    files
}

/// A trailer without records whose distances and length field are for a file
/// of this length, after zeros; at least the trailer.
pub(super) fn empty(length: usize) -> Vec<u8> {
    let mut trailer = Book::default().encode();
    for section in 0..6 {
        let at = 8 + 4 * section;
        trailer[at..at + 2].copy_from_slice(&(length as u16).to_le_bytes());
    }
    trailer[32..].copy_from_slice(&(length as u32).to_le_bytes());
    let mut file = vec![0; length.saturating_sub(TRAILER)];
    file.extend(trailer);
    file
}

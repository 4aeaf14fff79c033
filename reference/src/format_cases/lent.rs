//! Lent lengths: refusal 1, for the loader and the writer apart.

use super::base::{labelled, reserved, small, with_byte};
use super::{Case, Labels, Lent};

pub(super) fn cases() -> Vec<Case> {
    let good = small().encode();
    let bad = with_byte(&good, reserved(&small(), 5, 1), 1);
    let mut cases = Vec::new();
    for (number, lent) in neighbours().into_iter().enumerate() {
        cases.push(Case {
            lent,
            ..Case::ample(good.clone(), number as u32, Labels::Left)
        });
    }
    for lent in far() {
        for (file, seed) in [(&good, 0), (&good, u32::MAX), (&bad, 0), (&Vec::new(), 1)] {
            cases.push(Case {
                lent,
                ..Case::ample(file.clone(), seed, Labels::Left)
            });
        }
    }
    cases
}

/// The same with label records, good and bad, and with labels to be drawn.
pub(super) fn cases_of_version_2() -> Vec<Case> {
    let book = labelled(small(), 4);
    let good = book.encode();
    let bad = with_byte(&good, reserved(&book, 6, 2), 8);
    let mut cases = Vec::new();
    for (number, lent) in neighbours().into_iter().chain(far()).enumerate() {
        let file = if number % 5 == 4 { &bad } else { &good };
        let labels = [Labels::Left, Labels::Drawn, Labels::FewDrawn][number % 3];
        cases.push(Case {
            lent,
            ..Case::ample(file.clone(), number as u32, labels)
        });
    }
    cases
}

/// Each length right, one too few or one too many, in every combination.
fn neighbours() -> Vec<Lent> {
    let mut all = Vec::new();
    for amounts in 511..=513 {
        for presence in 7..=9 {
            for labels in 4_095..=4_097 {
                for output in 59_999..=60_001 {
                    all.push(Lent {
                        amounts,
                        presence,
                        labels,
                        output,
                    });
                }
            }
        }
    }
    all
}

/// One length far off, or at the end of what may be lent in a case; and an output
/// one byte short.
fn far() -> Vec<Lent> {
    let right = Lent::ACCEPTED;
    let mut all = vec![right];
    all.extend([0, 256, 520].map(|amounts| Lent { amounts, ..right }));
    all.extend([0, 4, 16].map(|presence| Lent { presence, ..right }));
    all.extend([0, 512, 4_104].map(|labels| Lent { labels, ..right }));
    all.extend([0, 236, 59_999, 60_008].map(|output| Lent { output, ..right }));
    all
}

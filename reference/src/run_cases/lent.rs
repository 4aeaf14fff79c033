//! Lent lengths and budgets: refusal 1.

use super::scripts::book_w;
use super::{Case, Lent};

pub(super) fn cases() -> Vec<Case> {
    let good = book_w().encode();
    let mut bad = good.clone();
    bad.pop();
    let mut cases = Vec::new();
    for (number, lent) in neighbours().into_iter().chain(far()).enumerate() {
        let file = if number % 5 == 4 { &bad } else { &good };
        for budget in [1_000_000, 1_000_001] {
            cases.push(case(file, budget, lent));
        }
    }
    for budget in [0, 1_000_000, 1_000_001, 16_777_216, u32::MAX] {
        for file in [&good, &bad, &Vec::new()] {
            cases.push(case(file, budget, Lent::with_trace(40)));
        }
    }
    cases
}

fn case(file: &[u8], budget: u32, lent: Lent) -> Case {
    Case {
        lent,
        ..Case::ample(file.to_vec()).with_budget(budget)
    }
}

/// Each length right, one too few or one too many, in every combination; the
/// trace also empty.
fn neighbours() -> Vec<Lent> {
    let mut all = Vec::new();
    for amounts in 511..=513 {
        for presence in 7..=9 {
            for labels in 4_095..=4_097 {
                for trace in [0, 65_535, 65_536, 65_537] {
                    all.push(Lent {
                        amounts,
                        presence,
                        labels,
                        trace,
                    });
                }
            }
        }
    }
    all
}

/// One length far off, or at the end of what may be lent in a case.
fn far() -> Vec<Lent> {
    let right = Lent::with_trace(40);
    let mut all = vec![right, Lent::with_trace(65_544)];
    all.extend([0, 256, 520].map(|amounts| Lent { amounts, ..right }));
    all.extend([0, 4, 16].map(|presence| Lent { presence, ..right }));
    all.extend([0, 512, 4_104].map(|labels| Lent { labels, ..right }));
    all
}

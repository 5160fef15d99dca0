//! Fixed constraints with known node counts, found by search.

use crate::constraint::{Constraint, Term};

const TERMS: [(i64, i64); 13] = [
    (4099, 5),
    (3571, 7),
    (2801, 6),
    (4603, 7),
    (1999, 5),
    (2503, 7),
    (3301, 6),
    (1709, 7),
    (4211, 5),
    (2999, 6),
    (3803, 7),
    (1301, 4),
    (907, 5),
];

/// The terms (a, d) and a bound as a constraint.
pub fn constraint(terms: &[(i64, i64)], bound: i64) -> Constraint {
    Constraint { bound, terms: terms.iter().map(|(a, d)| Term { a: *a, d: *d }).collect() }
}

/// The last terms of the fixed list.
fn last(from: usize, bound: i64) -> Constraint {
    constraint(&TERMS[from..], bound)
}

/// A diagram of 65,535 nodes with `more` first terms 1[0..1]. All coefficients of the others and the labels are three times as wide, so for up to two such terms each
/// choice of theirs stays within one label, and each adds one node.
pub fn full_with(more: usize) -> Constraint {
    let mut terms = vec![(1, 1); more];
    terms.extend(TERMS.iter().map(|(a, d)| (3 * a, *d)));
    constraint(&terms, 3 * 79_984 + 2)
}

/// Diagrams of 3 to 65,536 nodes.
pub fn sizes() -> Vec<(usize, Constraint)> {
    vec![
        (3, constraint(&[(2, 2), (5, 3)], 12)),
        (20, last(9, 12_025)),
        (250, last(7, 34_730)),
        (3_978, last(3, 53_412)),
        (29_874, last(1, 66_267)),
        (65_536, full_with(1)),
    ]
}

/// A constraint with far more nodes than any table takes.
pub fn beyond() -> Constraint {
    let terms: Vec<(i64, i64)> = (0..24).map(|k| (40_009 + 613 * k, 15)).collect();
    let bound = terms.iter().map(|(a, d)| a * d).sum::<i64>() / 2;
    constraint(&terms, bound)
}

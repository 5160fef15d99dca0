//! The diagram from sets of sums. Two right-hand sides allow the same values from a level on exactly when no sum of values from that level on lies above the one and not above
//! the other; so the labels of a level are the gaps between neighbouring sums. The sets are bit strings, made from the last level up; the nodes are met level by level from the root.

use crate::constraint::Constraint;
use crate::diagram::{Diagram, Node, FALSE, TRUE};
use std::collections::BTreeSet;

/// A set of numbers from 0 to its greatest, a bit each.
struct Sums {
    bits: Vec<u64>,
    greatest: i64,
}

impl Sums {
    /// The set of 0 alone.
    fn zero() -> Sums {
        Sums { bits: vec![1], greatest: 0 }
    }

    /// All sums of a member and `a` times a value from 0 to `d`.
    fn with_term(&self, a: i64, d: i64) -> Sums {
        let greatest = self.greatest + a * d;
        let mut bits = vec![0u64; greatest as usize / 64 + 1];
        for j in 0..=d {
            let (skip, turn) = ((a * j) as usize / 64, (a * j) as usize % 64);
            for (k, w) in self.bits.iter().enumerate() {
                bits[k + skip] |= w << turn;
                if turn > 0 && w >> (64 - turn) != 0 {
                    bits[k + skip + 1] |= w >> (64 - turn);
                }
            }
        }
        Sums { bits, greatest }
    }

    /// The greatest member that is at most `r`, for r of at least 0.
    fn at_most(&self, r: i64) -> i64 {
        let mut k = r as usize / 64;
        let mut w = self.bits[k] & (u64::MAX >> (63 - r % 64));
        while w == 0 {
            k -= 1;
            w = self.bits[k];
        }
        k as i64 * 64 + 63 - w.leading_zeros() as i64
    }

    /// The least member above `r`, for r below the greatest.
    fn above(&self, r: i64) -> i64 {
        let mut k = (r + 1) as usize / 64;
        let mut w = self.bits[k] & (u64::MAX << ((r + 1) % 64));
        while w == 0 {
            k += 1;
            w = self.bits[k];
        }
        k as i64 * 64 + w.trailing_zeros() as i64
    }
}

/// T or F where the bound alone decides, so that there is no node.
fn decided(c: &Constraint) -> Option<u32> {
    match c.bound {
        ..0 => Some(FALSE),
        b if b >= c.rest(0) => Some(TRUE),
        _ => None,
    }
}

/// The diagram, or nothing where it has more than `most` nodes.
pub fn build(c: &Constraint, most: usize) -> Option<Diagram> {
    if let Some(root) = decided(c) {
        return Some(Diagram { root, nodes: Vec::new(), edges: Vec::new() });
    }
    let n = c.terms.len();
    let mut sums = vec![Sums::zero()];
    for t in c.terms.iter().rev() {
        sums.push(sums.last().unwrap().with_term(t.a, t.d));
    }
    sums.reverse();
    let mut level = BTreeSet::from([sums[0].at_most(c.bound)]);
    let mut diagram = Diagram { root: 0, nodes: Vec::new(), edges: Vec::new() };
    for i in 0..n {
        let behind = diagram.nodes.len() + level.len();
        if behind > most {
            return None;
        }
        let t = c.terms[i];
        let below = &sums[i + 1];
        let child = |r: i64| if 0 <= r && r < below.greatest { Some(below.at_most(r)) } else { None };
        let next: BTreeSet<i64> = level.iter().flat_map(|low| (0..=t.d).filter_map(move |j| child(low - t.a * j))).collect();
        let order: Vec<i64> = next.iter().copied().collect();
        for low in &level {
            let high = sums[i].above(*low) - 1;
            diagram.nodes.push(Node { level: i + 1, low: *low, high, first: diagram.edges.len() });
            for j in 0..=t.d {
                let r = low - t.a * j;
                diagram.edges.push(match child(r) {
                    Some(l) => (behind + order.binary_search(&l).unwrap()) as u32,
                    None if r < 0 => FALSE,
                    None => TRUE,
                });
            }
        }
        level = next;
    }
    Some(diagram)
}

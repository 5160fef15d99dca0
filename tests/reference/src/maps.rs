//! The diagram with an ordered map a level, from lower ends to nodes: a remainder is looked up, and only where no label holds it are its children built. This is the
//! usual way to build such a diagram and the yardstick for timing.

use crate::constraint::Constraint;
use crate::diagram::{Diagram, Node, FALSE, TRUE};
use std::collections::BTreeMap;

/// An interval, open ended towards T and F, and what it belongs to: T, F or a node in order of making.
#[derive(Clone, Copy)]
struct Seen {
    low: i64,
    high: i64,
    what: u32,
}

struct Builder<'a> {
    c: &'a Constraint,
    rest: Vec<i64>,
    levels: Vec<BTreeMap<i64, Seen>>,
    rows: Vec<u32>,
    first: Vec<usize>,
    most: usize,
}

impl Builder<'_> {
    /// What the remainder `r` at level index `i` leads to; nothing where that takes too many nodes.
    fn node(&mut self, i: usize, r: i64) -> Option<Seen> {
        if r < 0 {
            return Some(Seen { low: i64::MIN / 2, high: -1, what: FALSE });
        }
        if r >= self.rest[i] {
            return Some(Seen { low: self.rest[i], high: i64::MAX / 2, what: TRUE });
        }
        if let Some((_, s)) = self.levels[i].range(..=r).next_back() {
            if r <= s.high {
                return Some(*s);
            }
        }
        let t = self.c.terms[i];
        let mut row = [0u32; 16];
        let mut seen = Seen { low: i64::MIN / 2, high: i64::MAX / 2, what: 0 };
        for j in 0..=t.d {
            let child = self.node(i + 1, r - t.a * j)?;
            seen.low = seen.low.max(child.low + t.a * j);
            seen.high = seen.high.min(child.high + t.a * j);
            row[j as usize] = child.what;
        }
        if self.first.len() == self.most {
            return None;
        }
        seen.what = self.first.len() as u32;
        self.first.push(self.rows.len());
        self.rows.extend_from_slice(&row[..=t.d as usize]);
        self.levels[i].insert(seen.low, seen);
        Some(seen)
    }
}

/// The diagram, or nothing where it has more than `most` nodes.
pub fn build(c: &Constraint, most: usize) -> Option<Diagram> {
    let n = c.terms.len();
    let rest = (0..=n).map(|i| c.rest(i)).collect();
    let mut b = Builder { c, rest, levels: vec![BTreeMap::new(); n], rows: Vec::new(), first: Vec::new(), most };
    let root = b.node(0, c.bound)?.what;
    let mut number = vec![0u32; b.first.len()];
    let all = b.levels.iter().flat_map(|level| level.values());
    for (k, s) in all.clone().enumerate() {
        number[s.what as usize] = k as u32;
    }
    let final_number = |w: &u32| if *w >= FALSE { *w } else { number[*w as usize] };
    let mut diagram =
        Diagram { root: final_number(&root), nodes: Vec::with_capacity(number.len()), edges: Vec::with_capacity(b.rows.len()) };
    for (i, level) in b.levels.iter().enumerate() {
        let children = c.terms[i].d as usize + 1;
        for s in level.values() {
            diagram.nodes.push(Node { level: i + 1, low: s.low, high: s.high, first: diagram.edges.len() });
            let first = b.first[s.what as usize];
            diagram.edges.extend(b.rows[first..first + children].iter().map(final_number));
        }
    }
    Some(diagram)
}

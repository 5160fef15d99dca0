//! Right drawings that the encoder does not make: one node for each remainder, narrower labels, nodes that repeat, nodes that nothing leads to, records and rows of edges in
//! any order. All are right by how they are made.

use super::{HandIn, Tally, RIGHT};
use crate::signed::{few, spelled};
use reference::constraint::Constraint;
use reference::diagram::{Diagram, FALSE, RECORD, TRUE};
use reference::random::Random;
use reference::starts::shuffled;
use reference::sums;
use std::collections::BTreeMap;

/// A node: its level, from 1, both ends of its label, and its children, each a number of a node, T or F.
#[derive(Clone)]
struct Node {
    level: usize,
    low: i64,
    high: i64,
    row: Vec<u32>,
}

/// The nodes of a drawing, the root first.
pub struct Drawing {
    nodes: Vec<Node>,
}

impl Drawing {
    /// The encoder's.
    pub fn own(c: &Constraint, d: &Diagram) -> Drawing {
        let row = |level: usize, first: usize| d.edges[first..=first + c.terms[level - 1].d as usize].to_vec();
        let node = |n: &reference::diagram::Node| Node { level: n.level, low: n.low, high: n.high, row: row(n.level, n.first) };
        Drawing { nodes: d.nodes.iter().map(node).collect() }
    }

    /// One node for each remainder that a level meets, the bound's too where it is decided; of the others that are T's some have nodes and some have not.
    pub fn naive(r: &mut Random, c: &Constraint) -> Drawing {
        let node = |level, rest| Node { level, low: rest, high: rest, row: Vec::new() };
        let (mut nodes, mut met) = (vec![node(1, c.bound)], BTreeMap::new());
        let mut k = 0;
        while k < nodes.len() {
            let (level, rest) = (nodes[k].level, nodes[k].low);
            let term = c.terms[level - 1];
            for j in 0..=term.d {
                let left = rest - term.a * j;
                let child = match left {
                    ..0 => FALSE,
                    _ if level == c.terms.len() || c.rest(level) <= left && r.once_in(2) => TRUE,
                    _ => *met.entry((level + 1, left)).or_insert_with(|| {
                        nodes.push(node(level + 1, left));
                        nodes.len() as u32 - 1
                    }),
                };
                nodes[k].row.push(child);
            }
            k += 1;
        }
        Drawing { nodes }
    }

    /// Repeats a node; some of the edges to it lead to the other one.
    fn repeat(&mut self, r: &mut Random) {
        let number = self.nodes.len() as u32;
        let old = r.below(number.into()) as u32;
        self.nodes.push(self.nodes[old as usize].clone());
        let to_old = self.nodes.iter_mut().flat_map(|n| &mut n.row).filter(|edge| **edge == old);
        to_old.for_each(|edge| *edge = if r.once_in(2) { number } else { old });
    }

    /// Adds a node that nothing leads to, for a remainder of any level, where its children have nodes; or one with all numbers that are T's.
    fn add(&mut self, r: &mut Random, c: &Constraint) {
        let level = r.from(1, c.terms.len() as i64) as usize;
        let term = c.terms[level - 1];
        let top = c.rest(level - 1);
        if r.once_in(4) {
            self.nodes.push(Node { level, low: top, high: u32::MAX.into(), row: vec![TRUE; term.d as usize + 1] });
            return;
        }
        let rest = r.from(0, top + 3);
        let child = |j| match rest - term.a * j {
            ..0 => Some(FALSE),
            left if c.rest(level) <= left => Some(TRUE),
            left => self.nodes.iter().position(|n| n.level == level + 1 && (n.low..=n.high).contains(&left)).map(|k| k as u32),
        };
        if let Some(row) = (0..=term.d).map(child).collect() {
            self.nodes.push(Node { level, low: rest, high: rest, row });
        }
    }

    /// Makes labels narrower, level by level, down to what the nodes above need of them; one that nothing leads to keeps some number.
    fn narrow(&mut self, r: &mut Random, c: &Constraint) {
        let mut needed: Vec<Option<(i64, i64)>> = vec![None; self.nodes.len()];
        needed[0] = Some((c.bound, c.bound));
        let mut order: Vec<usize> = (0..self.nodes.len()).collect();
        order.sort_by_key(|k| self.nodes[*k].level);
        for k in order {
            let node = &mut self.nodes[k];
            let any = r.from(node.low, node.high);
            let (low, high) = needed[k].unwrap_or((any, any));
            node.low = if r.once_in(2) { low } else { r.from(node.low, low) };
            node.high = if r.once_in(2) { high } else { r.from(high, node.high) };
            for (edge, j) in node.row.iter().zip(0..).filter(|(edge, _)| **edge < FALSE) {
                let taken = c.terms[node.level - 1].a * j;
                let old = needed[*edge as usize].unwrap_or((i64::MAX, i64::MIN));
                needed[*edge as usize] = Some((old.0.min(node.low - taken), old.1.max(node.high - taken)));
            }
        }
    }

    /// Gives all nodes but the root other numbers.
    fn renumber(&mut self, r: &mut Random) {
        let mut order = vec![0];
        order.extend(shuffled(r, self.nodes.len() - 1).into_iter().map(|k| k + 1));
        let mut number = vec![0; order.len()];
        order.iter().enumerate().for_each(|(new, old)| number[*old] = new as u32);
        self.nodes = order.iter().map(|old| self.nodes[*old].clone()).collect();
        let edges = self.nodes.iter_mut().flat_map(|n| &mut n.row).filter(|edge| **edge < FALSE);
        edges.for_each(|edge| *edge = number[*edge as usize]);
    }

    /// Changes it in some of these ways.
    pub fn change(&mut self, r: &mut Random, c: &Constraint) {
        for _ in 0..r.below(4) {
            self.repeat(r);
        }
        for _ in 0..r.below(4) {
            self.add(r, c);
        }
        if !r.once_in(3) {
            self.narrow(r, c);
        }
        if !r.once_in(3) {
            self.renumber(r);
        }
    }

    /// As lists: rows of edges in any order, between other words, some of them shared; any fifth words; and a part of a record behind the table.
    pub fn hand_in(&self, r: &mut Random, words: &[u32]) -> HandIn {
        let mut h = HandIn::new(words, &vec![0; RECORD * self.nodes.len()], &[]);
        for k in shuffled(r, self.nodes.len()) {
            let n = &self.nodes[k];
            h.edges.extend((0..r.below(3)).map(|_| r.word()));
            let there = h.edges.windows(n.row.len()).position(|row| row == n.row).filter(|_| r.once_in(2));
            let first = there.unwrap_or(h.edges.len());
            if there.is_none() {
                h.edges.extend(&n.row);
            }
            h.table[RECORD * k..][..RECORD].copy_from_slice(&[n.level as u32, n.low as u32, n.high as u32, first as u32, r.word()]);
        }
        h.table.extend((0..r.below(RECORD as u64)).map(|_| r.word()));
        h
    }
}

/// Whether a label can hold the bound.
pub fn fits(c: &Constraint) -> bool {
    (0..1 << 32).contains(&c.bound)
}

/// Drawings of small constraints, changed, and then each with one word damaged, many times.
pub fn changed(r: &mut Random, rounds: u64) -> Tally {
    let mut tally = Tally::default();
    for round in 0..rounds {
        let w = few(r);
        let c = w.base();
        let own = Drawing::own(&c, &sums::build(&c, 1 << 20).unwrap());
        let naive = fits(&c) && (round % 2 == 0 || own.nodes.is_empty());
        let mut drawing = if naive { Drawing::naive(r, &c) } else { own };
        if drawing.nodes.is_empty() {
            continue;
        }
        drawing.change(r, &c);
        let words = spelled(r, &w);
        let h = drawing.hand_in(r, &words);
        tally.known(&h, RIGHT);
        for _ in 0..20 {
            let mut h = h.clone();
            h.damage(r);
            tally.call(&h);
        }
    }
    tally
}

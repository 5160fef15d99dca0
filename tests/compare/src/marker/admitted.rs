//! Accepted hand-ins of small constraints: the clauses in the specification's pattern, written from the drawing that was handed in, admit just the solutions. Every value of
//! every order Boolean is gone through. With all of these fixed, values of the others are looked for by unit propagation, and what it leaves open becomes false: either that
//! makes all clauses true, or propagation has met a conflict and there are none.

use super::drawings::{fits, Drawing};
use super::{small, HandIn, Tally, RIGHT};
use crate::call::{differ, hex};
use crate::signed::{few, spelled};
use reference::clauses::clauses;
use reference::completions::satisfying;
use reference::constraint::Constraint;
use reference::diagram::{Diagram, Node, FALSE, RECORD, TRUE};
use reference::propagate::{queue, Verdict, OPEN};
use reference::random::Random;
use reference::sums;
use reference::test;
use reference::written::Written;

/// The most order Booleans.
const MOST: u32 = 7;

/// Accepted hand-ins, how many of them have no records, are as the encoder draws them, have been changed at random, and were made at random; values of the order Booleans
/// that are admitted, and that are not; and the calls.
#[derive(Default)]
pub struct Found {
    pub hand_ins: u64,
    pub empty: u64,
    pub own: u64,
    pub damaged: u64,
    pub random: u64,
    pub admitted: u64,
    pub shut_out: u64,
    pub calls: Tally,
}

/// The drawing that was handed in: its root is record 0 or, without records, what the bound is.
fn drawing(c: &Constraint, hand_in: &HandIn) -> Diagram {
    let node = |w: &[u32]| Node { level: w[0] as usize, low: w[1].into(), high: w[2].into(), first: w[3] as usize };
    let nodes: Vec<Node> = hand_in.table.chunks_exact(RECORD).map(node).collect();
    let root = match nodes.len() {
        0 if c.bound < 0 => FALSE,
        0 => TRUE,
        _ => 0,
    };
    Diagram { root, nodes, edges: hand_in.edges.clone() }
}

/// Whether some values of the Booleans behind the fixed ones make all clauses true.
fn satisfiable(fixed: &[u8], count: usize, list: &[u32]) -> bool {
    let mut values = fixed.to_vec();
    values.resize(count, OPEN);
    let mut settled = values.clone();
    if queue(&values, list, &mut settled) == Verdict::Conflict {
        return false;
    }
    settled.iter_mut().filter(|b| **b == OPEN).for_each(|b| *b = 0);
    if test::test(&settled, list) != test::Verdict::AllTrue {
        differ("values that make the clauses true", format!("clauses {}\nfixed {fixed:?}\nvalues {settled:?}", hex(list)));
    }
    true
}

impl Found {
    /// Holds the clauses of an accepted hand-in against the solutions.
    fn hold(&mut self, w: &Written, hand_in: &HandIn) {
        let c = w.base();
        let list = clauses(&c, &drawing(&c, hand_in));
        let solutions = satisfying(w);
        let (orders, count) = (c.booleans(), c.booleans() as usize + 2 + hand_in.records());
        for bits in 0..1u32 << orders {
            let fixed: Vec<u8> = (0..orders).map(|k| (bits >> k & 1) as u8).collect();
            let (told, wanted) = (satisfiable(&fixed, count, &list), solutions.contains(&fixed));
            if told != wanted {
                differ(
                    "solutions of an accepted hand-in",
                    format!("{}\n{w:?}\n{fixed:?} admitted: {told}, solution: {wanted}", hand_in.told()),
                );
            }
            *if told { &mut self.admitted } else { &mut self.shut_out } += 1;
        }
        self.hand_ins += 1;
        self.empty += (hand_in.records() == 0) as u64;
    }

    /// Changes some words of a hand-in, again and again; those that are accepted are held against the solutions and changed further.
    fn damage(&mut self, r: &mut Random, w: &Written, mut hand_in: HandIn) {
        for _ in 0..8 {
            let mut other = hand_in.clone();
            for _ in 0..r.from(1, 2) {
                let at = r.below(other.table.len() as u64) as usize;
                match r.below(3) {
                    0 => other.damage(r),
                    _ => other.table[at] = other.table[at].wrapping_add(r.from(-2, 2) as u32),
                }
            }
            if self.calls.call(&other) == RIGHT && (&other.table, &other.edges) != (&hand_in.table, &hand_in.edges) {
                self.hold(w, &other);
                self.damaged += 1;
                hand_in = other;
            }
        }
    }

    /// Random hand-ins of small numbers, as far as they are right.
    fn random(&mut self, r: &mut Random, rounds: u64) {
        for _ in 0..rounds {
            let (w, hand_in) = small::hand_in(r);
            if hand_in.records() > 0 && self.calls.call(&hand_in) == RIGHT {
                self.hold(&w, &hand_in);
                self.random += 1;
            }
        }
    }
}

/// The encoder's drawings, such drawings changed, drawings with a node for each remainder, changed too, what stays right when words of these are changed at random,
/// and random hand-ins that are right.
pub fn solutions(r: &mut Random, rounds: u64) -> Found {
    let mut found = Found::default();
    for _ in 0..rounds {
        let w = few(r);
        let c = w.base();
        if c.booleans() > MOST {
            continue;
        }
        let words = spelled(r, &w);
        let (own, nodes) = HandIn::encoded(&words, 0);
        found.calls.known(&own, RIGHT);
        found.hold(&w, &own);
        found.own += 1;
        let mut drawings = vec![];
        if nodes > 0 {
            drawings.push(Drawing::own(&c, &sums::build(&c, 1 << 20).unwrap()));
        }
        if fits(&c) {
            drawings.push(Drawing::naive(r, &c));
        }
        found.random(r, 40);
        for mut drawing in drawings {
            drawing.change(r, &c);
            let hand_in = drawing.hand_in(r, &words);
            found.calls.known(&hand_in, RIGHT);
            found.hold(&w, &hand_in);
            found.damage(r, &w, hand_in);
        }
    }
    found
}

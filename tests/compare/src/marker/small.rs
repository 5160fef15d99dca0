//! Hand-ins of small numbers, held also against right drawings by the letter: every one of a kind, and random ones.

use super::letter::{held, reply};
use super::{HandIn, Tally};
use crate::call::differ;
use crate::exercises::words;
use crate::signed::spelled;
use reference::constraint::Constraint;
use reference::diagram::{FALSE, RECORD, TRUE};
use reference::random::Random;
use reference::words::read;
use reference::written::{Relation, Summand, Written};

impl Tally {
    /// Calls both markers, and ends the program where the letter says otherwise.
    fn by_letter(&mut self, hand_in: &HandIn) {
        let (told, letter) = (self.call(hand_in), reply(&read(&hand_in.words).unwrap().base(), hand_in));
        if told != letter {
            differ("the marker and the letter", format!("{}\nreply  {told:?}\nletter {letter:?}", hand_in.told()));
        }
    }
}

/// Every list of a length with words out of some.
fn lists(words: &[u32], length: u32) -> Vec<Vec<u32>> {
    let n = words.len();
    (0..n.pow(length)).map(|number| (0..length).map(|k| words[number / n.pow(k) % n]).collect()).collect()
}

/// Every hand-in of one record with fields up to 3 and up to three edges out of six, for one and for two terms with bounds from 0 to 3.
pub fn every() -> Tally {
    let edges: Vec<Vec<u32>> = (0..=3).flat_map(|length| lists(&[TRUE, FALSE, 0, 1, 1 << 30, TRUE + 1], length)).collect();
    let mut tally = Tally::default();
    for terms in [&[(1, 1)][..], &[(1, 1), (1, 1)]] {
        for bound in 0..4 {
            for fields in lists(&[0, 1, 2, 3], 4) {
                for edges in &edges {
                    tally.by_letter(&HandIn::new(&words(terms, bound), &[&fields[..], &[0]].concat(), edges));
                }
            }
        }
    }
    tally
}

/// Every hand-in of a root for the bound alone and one more record with fields up to 2, or of level 3, with four edges out of four, for two terms with bounds from 0 to 2.
pub fn every_pair() -> Tally {
    let edges = lists(&[TRUE, FALSE, 0, 1], 4);
    let mut tally = Tally::default();
    for bound in 0..3 {
        for fields in lists(&[0, 1, 2], 3) {
            for level in 0..4 {
                let table = [&[1, bound, bound, 0, 0, level], &fields[..], &[0]].concat();
                for edges in &edges {
                    tally.by_letter(&HandIn::new(&words(&[(1, 1), (1, 1)], bound), &table, edges));
                }
            }
        }
    }
    tally
}

/// A constraint of up to three terms whose base bound is small, as it is written.
fn constraint(r: &mut Random) -> Written {
    let terms = (0..r.from(1, 3)).map(|_| Summand { factor: *r.pick(&[1, 1, 2, -1, -2]), low: r.from(-2, 2), d: r.from(1, 2) }).collect();
    let mut w = Written { relation: *r.pick(&Relation::ALL), bound: 0, terms };
    w.bound = w.relation.turn() * (r.from(-1, 4) - w.base().bound);
    w
}

/// The words that edges are drawn from: T and F, numbers of records, two that are no edge.
const EDGES: [u32; 8] = [TRUE, FALSE, 0, 1, 2, 3, 1 << 30, TRUE + 1];

/// A record with small fields, of a level of the constraint or, rarely, of one beside them.
fn record(r: &mut Random, levels: i64) -> [u32; 5] {
    let level = if r.once_in(20) { *r.pick(&[0, levels + 1, levels + 2]) } else { r.from(1, levels) };
    let low = r.from(0, 4);
    let high = if low > 0 && r.once_in(20) { low - 1 } else { low + r.below(3).saturating_sub(1) as i64 };
    [level, low, high, 0, r.from(0, 9)].map(|w| w as u32)
}

/// Edges for a record of a table, most of them such that the label fits where there is one.
fn row(r: &mut Random, c: &Constraint, table: &[u32], record: &[u32]) -> Vec<u32> {
    let Some(term) = c.terms.get((record[0] as usize).wrapping_sub(1)) else { return vec![TRUE, FALSE] };
    let mut edge = |j| {
        let fits = |edge: &u32, number: u32| held(c, table, record[0] as usize, *edge, i64::from(number) - term.a * j);
        let fitting: Vec<u32> = EDGES.into_iter().filter(|edge| fits(edge, record[1]) && fits(edge, record[2])).collect();
        let any = fitting.is_empty() || r.once_in(20);
        *r.pick(if any { &EDGES } else { &fitting })
    };
    (0..=term.d).map(&mut edge).collect()
}

/// A small constraint, and small records and edges for it, most often with a root that holds the bound and edges that fit; rarely with another first place.
pub fn hand_in(r: &mut Random) -> (Written, HandIn) {
    let w = constraint(r);
    let base = w.base();
    let mut table = (0..r.below(5)).flat_map(|_| record(r, w.terms.len() as i64)).collect::<Vec<u32>>();
    if table.len() > 2 && base.bound >= 0 && !r.once_in(20) {
        table[..3].copy_from_slice(&[1, (base.bound - r.from(0, base.bound.min(1))) as u32, base.bound as u32]);
    }
    let mut edges = Vec::new();
    for k in (0..table.len()).step_by(RECORD) {
        table[k + 3] = if r.once_in(20) { r.below(6) as u32 } else { edges.len() as u32 };
        edges.extend(row(r, &base, &table, &table[k..k + RECORD]));
    }
    table.extend((0..r.below(RECORD as u64)).map(|_| r.below(4) as u32));
    let words = spelled(r, &w);
    (w, HandIn { words, table, edges })
}

/// Such hand-ins.
pub fn random(r: &mut Random, rounds: u64) -> Tally {
    let mut tally = Tally::default();
    for _ in 0..rounds {
        tally.by_letter(&hand_in(r).1);
    }
    tally
}

/// Any words as table and edges, most of them small, for a small constraint.
pub fn rubbish(r: &mut Random, rounds: u64) -> Tally {
    let mut tally = Tally::default();
    for _ in 0..rounds {
        let w = constraint(r);
        let mut any = |most| (0..r.below(most)).map(|_| if r.once_in(3) { r.word() } else { r.below(4) as u32 }).collect::<Vec<u32>>();
        let (mut table, edges) = (any(20), any(12));
        if let Some(level) = table.first_mut().filter(|_| r.once_in(2)) {
            *level = 1;
        }
        tally.call(&HandIn::new(&spelled(r, &w), &table, &edges));
    }
    tally
}

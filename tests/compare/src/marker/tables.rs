//! The encoder's own tables: right as far as they are counted, 20 at the node count with a record of zeros behind, and damaged in each field and edge.

use super::{bad, others, refused, HandIn, Tally, RIGHT};
use crate::inputs::constraint;
use crate::signed::{self, small};
use reference::diagram::{RECORD, TRUE};
use reference::fixed;
use reference::random::Random;
use reference::words::read;

/// The most places of a list that are damaged, all where there are no more.
const PLACES: u64 = 40;

/// The places to damage in a list of this length.
fn places(r: &mut Random, length: usize) -> Vec<usize> {
    let all = length as u64;
    if all <= PLACES {
        (0..length).collect()
    } else {
        (0..PLACES).map(|_| r.below(all) as usize).collect()
    }
}

impl Tally {
    /// The counted part with all its neighbours: words behind it, less edges, and zeros as the encoder leaves them.
    fn counted(&mut self, r: &mut Random, words: &[u32]) -> HandIn {
        let (own, nodes) = HandIn::encoded(words, 0);
        self.known(&own, RIGHT);
        for more in [1, 2] {
            let (mut lent, _) = HandIn::encoded(words, more);
            self.known(&lent, bad(nodes));
            lent.table.truncate(RECORD * nodes + RECORD - 1);
            self.known(&lent, RIGHT);
        }
        let mut h = own.clone();
        h.table.extend((1..RECORD).map(|_| r.word()));
        h.edges.extend((0..9).map(|_| r.word()));
        self.known(&h, RIGHT);
        if nodes > 0 {
            let mut short = own.clone();
            short.edges.pop();
            self.known(&short, bad(nodes - 1));
            short.table.clear();
            self.known(&short, bad(0));
        }
        own
    }

    /// One record with all numbers from R of its level on and T for every value: right just where it holds the bound.
    fn always(&mut self, words: &[u32]) {
        let c = read(words).unwrap().base();
        let (top, children) = (c.rest(0), c.terms[0].d as usize + 1);
        let hand_in = HandIn::new(words, &[1, top as u32, u32::MAX, 0, 0], &vec![TRUE; children]);
        self.known(&hand_in, if (top..1 << 32).contains(&c.bound) { RIGHT } else { bad(0) });
    }

    /// Each field and each edge with other words in its place, one at a time; the fifth field makes no difference.
    fn damaged(&mut self, r: &mut Random, own: &HandIn) {
        let records = own.records() as u32;
        let mut h = own.clone();
        for k in places(r, own.table.len()) {
            for word in others(r, own.table[k], records) {
                h.table[k] = word;
                if k % RECORD == RECORD - 1 {
                    self.known(&h, RIGHT);
                } else {
                    self.call(&h);
                }
            }
            h.table[k] = own.table[k];
        }
        for k in places(r, own.edges.len()) {
            for word in others(r, own.edges[k], records) {
                h.edges[k] = word;
                self.call(&h);
            }
            h.edges[k] = own.edges[k];
        }
    }

    /// Shorter tables and edge lists, fields swapped, another constraint, and words that are refused.
    fn otherwise(&mut self, r: &mut Random, own: &HandIn) {
        for cut in [1, 2, RECORD, 2 * RECORD] {
            let mut h = own.clone();
            h.table.truncate(own.table.len().saturating_sub(cut));
            self.call(&h);
            h.edges.truncate(own.edges.len().saturating_sub(cut));
            self.call(&h);
        }
        for _ in 0..8 {
            let mut h = own.clone();
            for list in [&mut h.table, &mut h.edges].into_iter().filter(|list| !list.is_empty()) {
                let [a, b] = [0; 2].map(|_| r.below(list.len() as u64) as usize);
                list.swap(a, b);
            }
            self.call(&h);
        }
        let mut h = HandIn { words: small(r), ..own.clone() };
        self.call(&h);
        h.words.clone_from(&own.words);
        signed::damage(r, &mut h.words);
        if let Err(x) = read(&h.words) {
            self.known(&h, refused(x.number, x.place));
        }
    }
}

/// Tables of small constraints, of document 01 alone and with relations, signs and lower ends.
pub fn small_ones(r: &mut Random, rounds: u64) -> Tally {
    let mut tally = Tally::default();
    for round in 0..rounds {
        let words = if round % 3 == 0 { constraint(r).words() } else { small(r) };
        let own = tally.counted(r, &words);
        tally.always(&words);
        tally.damaged(r, &own);
        tally.otherwise(r, &own);
    }
    tally
}

/// Tables of hundreds to thousands of nodes, and those of the fixed diagrams, of up to 65,536.
pub fn larger(r: &mut Random, rounds: u64) -> Tally {
    let mut tally = Tally::default();
    let fixed = fixed::sizes().into_iter().map(|(_, c)| c.words());
    let all: Vec<Vec<u32>> = (0..rounds).map(|_| signed::large(r)).chain(fixed).collect();
    for words in all {
        let own = tally.counted(r, &words);
        for _ in 0..20 {
            let mut h = own.clone();
            h.damage(r);
            tally.call(&h);
        }
    }
    tally
}

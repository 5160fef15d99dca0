//! The encoder on random constraints: needs that just fit and just do not, and damaged words.

use crate::call::{both, Given};
use reference::clauses::clauses;
use reference::constraint::Constraint;
use reference::diagram::RECORD;
use reference::encode::Build;
use reference::random::Random;
use reference::words::read;
use reference::{maps, sums};

/// How many calls gave each number, the most nodes of an accepted one and the most edges into one of them, and how many constraints have the root F and the root T.
pub struct Tally {
    pub constraints: u64,
    pub calls: u64,
    pub numbers: [u64; 19],
    pub nodes: u64,
    pub entering: u32,
    pub never: u64,
    pub always: u64,
}

impl Tally {
    fn new(constraints: u64) -> Tally {
        Tally { constraints, calls: 0, numbers: [0; 19], nodes: 0, entering: 0, never: 0, always: 0 }
    }

    fn call(&mut self, g: Given) {
        self.calls += 1;
        self.numbers[g.reply.number as usize] += 1;
        self.nodes = self.nodes.max(g.reply.nodes);
        self.entering = g.entering().into_iter().fold(self.entering, u32::max);
    }

    /// Counts the root of the words' constraint; gives what it needs.
    fn needs(&mut self, words: &[u32]) -> [usize; 3] {
        let c = read(words).unwrap().base();
        self.never += (c.bound < 0) as u64;
        self.always += (c.bound >= c.rest(0)) as u64;
        needs(&c)
    }
}

/// The lengths that a constraint needs for its table, edge list and clause list.
pub fn needs(c: &Constraint) -> [usize; 3] {
    let d = sums::build(c, 1 << 20).unwrap();
    [RECORD * d.nodes.len(), d.edges.len(), clauses(c, &d).len()]
}

/// Where the words of a round come from.
pub type Source = fn(&mut Random) -> Vec<u32>;

/// The exact needs, and one word less in each list.
pub fn edge_lengths(needs: [usize; 3]) -> Vec<[usize; 3]> {
    let mut all = vec![needs];
    for k in 0..3 {
        let mut short = needs;
        short[k] = short[k].saturating_sub(1);
        all.push(short);
    }
    all
}

/// The way to build in this round.
pub fn way(round: u64) -> Build {
    if round & 1 == 0 {
        sums::build
    } else {
        maps::build
    }
}

/// Small constraints, with lists of the exact needs, one word less in each, more, nothing at all, and random lengths.
pub fn valid(r: &mut Random, rounds: u64, source: Source) -> Tally {
    let mut tally = Tally::new(rounds);
    for round in 0..rounds {
        let words = source(r);
        let [t, e, w] = tally.needs(&words);
        let mut lengths = edge_lengths([t, e, w]);
        lengths.extend([[t + RECORD + 3, e + 5, w + 9], [t + RECORD - 1, e, w]]);
        lengths.extend([[0, 0, 0], [0, e, w], [t, 0, w], [t, e, 0], [t, 0, 0], [0, e, 0], [0, 0, w]]);
        lengths.extend((0..2).map(|_| [t, e, w].map(|n| r.below(n as u64 + 3) as usize)));
        for l in lengths {
            tally.call(both(r, way(round), &words, l));
        }
    }
    tally
}

/// Larger constraints, with lists of the exact needs, and one word less in each.
pub fn larger(r: &mut Random, rounds: u64, source: Source) -> Tally {
    let mut tally = Tally::new(rounds);
    for round in 0..rounds {
        let words = source(r);
        for l in edge_lengths(tally.needs(&words)) {
            tally.call(both(r, way(round), &words, l));
        }
    }
    tally
}

/// Damaged words and small lists.
pub fn damaged(r: &mut Random, rounds: u64, source: Source) -> Tally {
    let mut tally = Tally::new(rounds);
    for round in 0..rounds {
        let words = source(r);
        let lengths = [r.below(30 * RECORD as u64) as usize, r.below(200) as usize, r.below(800) as usize];
        tally.call(both(r, way(round), &words, lengths));
        tally.call(both(r, way(round), &words, [0, 0, 0]));
    }
    tally
}

/// Every list of up to `most` words behind a bound, each one of nine: a bound, four terms of which two are refused, two lower ends and two relations, one of each beyond
/// its range.
pub fn every(r: &mut Random, most: u32) -> Tally {
    const WORDS: [u32; 9] = [0, 0x4001_0001, 0x6002_0001, 0x6010_0000, 0x4001_0000, 0xA000_0001, 0xA00F_4241, 0xC000_0003, 0xC000_0004];
    let mut tally = Tally::new(0);
    for length in 0..=most {
        for number in 0..WORDS.len().pow(length) {
            for bound in [0, 0x2000_0001] {
                let later = (0..length).map(|k| WORDS[number / WORDS.len().pow(k) % WORDS.len()]);
                let words: Vec<u32> = [bound].into_iter().chain(later).collect();
                tally.constraints += 1;
                tally.call(both(r, maps::build, &words, [6 * RECORD, 20, 90]));
            }
        }
    }
    tally
}

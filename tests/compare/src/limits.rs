//! The encoder under limits on terms and nodes: against the reference, and against the call that takes no limits in the same room.

use crate::call::{both, both_within, differ, hex, Given};
use crate::encoder::{edge_lengths, needs, way};
use crate::exercises::words;
use crate::{inputs, marker, signed};
use archive::Encoded;
use reference::constraint::{Constraint, Term};
use reference::diagram::RECORD;
use reference::limits::Limits;
use reference::random::Random;
use reference::words::read;
use reference::{fixed, sums};

/// The limits that are tried: 0, the least ones, those on either side of 16 terms and 256 nodes and of the main ones, and far greater ones.
const TERMS: [u64; 11] = [0, 1, 2, 15, 16, 17, 63, 64, 65, 1 << 32, u64::MAX];
const NODES: [u64; 12] = [0, 1, 2, 3, 255, 256, 257, 65_535, 65_536, 65_537, 1 << 32, u64::MAX];

/// Numbers of terms on either side of 16 and of 64.
const COUNTS: [usize; 6] = [15, 16, 17, 63, 64, 65];

/// Every pair of limits, 16 with 256 among them.
fn every() -> Vec<Limits> {
    TERMS.iter().flat_map(|terms| NODES.map(|nodes| Limits { terms: *terms, nodes })).collect()
}

/// Some pairs of limits.
fn some(r: &mut Random, count: usize) -> Vec<Limits> {
    (0..count).map(|_| Limits { terms: *r.pick(&TERMS), nodes: *r.pick(&NODES) }).collect()
}

/// Every pair of limits from one below to one above these counts.
fn around(terms: usize, nodes: usize) -> Vec<Limits> {
    let near = |n: usize| [n.saturating_sub(1), n, n + 1].map(|n| n as u64);
    near(terms).iter().flat_map(|terms| near(nodes).map(|nodes| Limits { terms: *terms, nodes })).collect()
}

/// How many of the words are terms.
fn terms(words: &[u32]) -> usize {
    words.iter().filter(|w| *w >> 30 == 1).count()
}

/// The exact needs, one word less in each list, no table, nothing at all, a part of a record more, and more of everything.
fn rooms([t, e, w]: [usize; 3]) -> Vec<[usize; 3]> {
    let mut all = edge_lengths([t, e, w]);
    all.extend([[0, e, w], [0; 3], [t + RECORD - 1, e, w], [t + 3 * RECORD + 1, e + 5, w + 9]]);
    all
}

/// How many lists of words there were, calls under limits by the number of their refusal, and how many of them were refused where the encoder without limits accepts.
pub struct Tally {
    pub inputs: u64,
    pub calls: u64,
    pub numbers: [u64; 19],
    pub stricter: u64,
}

impl Tally {
    fn new() -> Tally {
        Tally { inputs: 0, calls: 0, numbers: [0; 19], stricter: 0 }
    }

    /// The words in lists of each of the lengths under each of the limits, and without limits in lists that held something else.
    fn calls(&mut self, r: &mut Random, words: &[u32], rooms: &[[usize; 3]], limits: &[Limits]) {
        let build = way(self.inputs);
        self.inputs += 1;
        for lengths in rooms {
            let main = both(r, build, words, *lengths);
            for l in limits {
                let given = both_within(r, build, *l, words, *lengths);
                held(*l, words, &main, &given);
                self.calls += 1;
                self.numbers[given.reply.number as usize] += 1;
                self.stricter += (main.reply.number == 0 && given.reply.number != 0) as u64;
            }
        }
    }
}

/// Whether the reply under limits is one that follows from the reply without them: the checks before the number of terms come first, then the limit on terms, and the limit on
/// nodes comes before 7 and 8, which do not tell how many nodes there are.
fn follows(limits: Limits, words: &[u32], main: Encoded, given: Encoded) -> bool {
    let refused = |number, place| Encoded { number, place, nodes: 0, edges: 0, words: 0 };
    match main.number {
        1 | 2 | 3 | 17 | 18 => given == main,
        _ if terms(words) as u64 > limits.terms => given == refused(3, words.len() as u64),
        0 if main.nodes > limits.nodes => given == refused(6, 0),
        7 | 8 => given == main || given == refused(6, 0),
        _ => given == main,
    }
}

/// Ends the program unless the call under limits stands to the one without as it should: what it accepts has the same counts and words and is marked right, and limits that
/// are the main ones or above make no difference.
fn held(limits: Limits, words: &[u32], main: &Given, given: &Given) {
    let told = || format!("words {}\n{limits:?}\nwithout {:?}\nunder   {:?}", hex(words), main.reply, given.reply);
    let same = given.reply == main.reply;
    if given.reply.number == 0 {
        if !same || given.table != main.table || given.edges != main.edges || given.clauses != main.clauses {
            differ("what is accepted under limits", told());
        }
        marker::right(words, &given.table[..RECORD * given.reply.nodes as usize], &given.edges[..given.reply.edges as usize]);
    }
    if limits.terms >= Limits::MAIN.terms && limits.nodes >= Limits::MAIN.nodes && !same {
        differ("limits that are the main ones or above", told());
    }
    if !follows(limits, words, main.reply, given.reply) {
        differ("the reply under limits and the reply without", told());
    }
}

/// The starred exercises, under every pair of limits.
pub fn exercises(r: &mut Random) -> Tally {
    let two = [(2, 2), (5, 3)];
    let mut tally = Tally::new();
    let starred: [(&[(u32, u32)], u32); 7] = [
        (&[(1, 1)], 0),
        (&[(1, 1)], 1),
        (&two, 12),
        (&two, 13),
        (&two, 11),
        (&[(4, 1), (2, 1), (5, 1), (4, 1)], 9),
        (&[(1, 1), (5, 1)], 3),
    ];
    for (terms, bound) in starred {
        let w = words(terms, bound);
        let rooms = rooms(needs(&read(&w).unwrap().base()));
        tally.calls(r, &w, &rooms, &every());
    }
    tally.calls(r, &words(&[(1, 1), (1, 0)], 1), &[[0; 3], [9, 9, 99]], &every());
    tally
}

/// Random constraints, half of them with a relation, signs and lower ends, under limits around their own counts and under some others.
pub fn random(r: &mut Random, rounds: u64) -> Tally {
    let mut tally = Tally::new();
    for round in 0..rounds {
        let w = if round / 2 % 2 == 0 { inputs::constraint(r).words() } else { signed::small(r) };
        let needs = needs(&read(&w).unwrap().base());
        let mut limits = around(terms(&w), needs[0] / RECORD);
        limits.extend(some(r, 6));
        tally.calls(r, &w, &rooms(needs), &limits);
    }
    tally
}

/// Constraints with hundreds to thousands of nodes, in the same way, in lists of the exact needs, one word less in each, and more.
pub fn larger(r: &mut Random, rounds: u64) -> Tally {
    let mut tally = Tally::new();
    for round in 0..rounds {
        let w = if round / 2 % 2 == 0 { inputs::large(r).words() } else { signed::large(r) };
        let [t, e, l] = needs(&read(&w).unwrap().base());
        let mut limits = around(terms(&w), t / RECORD);
        limits.extend(some(r, 6));
        let mut rooms = edge_lengths([t, e, l]);
        rooms.push([t + RECORD, e + 1, l + 1]);
        tally.calls(r, &w, &rooms, &limits);
    }
    tally
}

/// Damaged words, in small lists and in none.
pub fn damaged(r: &mut Random, rounds: u64) -> Tally {
    let mut tally = Tally::new();
    for round in 0..rounds {
        let w = if round / 2 % 2 == 0 { inputs::damaged(r) } else { signed::damaged(r) };
        let mut limits = some(r, 4);
        limits.extend(around(terms(&w), 3));
        let lengths = [r.below(30 * RECORD as u64) as usize, r.below(200) as usize, r.below(800) as usize];
        tally.calls(r, &w, &[lengths, [0; 3]], &limits);
    }
    tally
}

/// A random constraint with this many terms, which are small so that its diagram is too.
fn with_terms(r: &mut Random, count: usize) -> Constraint {
    let terms = (0..count).map(|_| Term { a: r.from(1, 9), d: r.from(1, 2) }).collect();
    let mut c = Constraint { bound: 0, terms };
    c.bound = r.from(0, c.rest(0));
    c
}

/// Constraints with 15 to 17 and 63 to 65 terms, with and without signs, under every pair of limits, and the same words damaged.
pub fn terms_counted(r: &mut Random, rounds: u64) -> Tally {
    let mut tally = Tally::new();
    for round in 0..rounds {
        for count in COUNTS {
            let c = with_terms(r, count);
            let mut w = if round / 2 % 2 == 0 { c.words() } else { signed::of_base(r, &c) };
            let [t, e, l] = needs(&c);
            tally.calls(r, &w, &[[t, e, l], [t + RECORD, e + 1, l + 1]], &every());
            for _ in 0..10 {
                w = signed::of_base(r, &c);
                signed::damage(r, &mut w);
                tally.calls(r, &w, &[[t, e, l]], &around(count, t / RECORD));
            }
        }
    }
    tally
}

/// The words of a relation and this many terms with lower ends, as they should be, and with one fault each: 17, 18, 4, 5, and 2, twice at the last word and once behind it.
fn faulty(count: usize) -> Vec<Vec<u32>> {
    let right: Vec<u32> = [0x2000_0001, 0xC000_0000].into_iter().chain([0xA000_0000, 0x4001_0001].repeat(count)).collect();
    let last = right.len() - 1;
    let changed = [(1, 0xC000_0004), (last - 1, 0xA00F_4241), (3, 0x4010_0001), (last, 0x4001_0000), (last, 0xA000_0000), (last, 0)];
    let mut all: Vec<Vec<u32>> = changed
        .iter()
        .map(|(place, word)| {
            let mut w = right.clone();
            w[*place] = *word;
            w
        })
        .collect();
    all.push(right[..last].to_vec());
    all.push(right);
    all
}

/// One fault in up to 65 terms, under every limit on terms: those checked before the number of terms are told whatever the limit is, and the others behind it.
pub fn faults(r: &mut Random) -> Tally {
    let mut tally = Tally::new();
    let limits: Vec<Limits> = TERMS.iter().flat_map(|terms| [0, 2, 256].map(|nodes| Limits { terms: *terms, nodes })).collect();
    for count in [1, 2].into_iter().chain(COUNTS) {
        for w in faulty(count) {
            tally.calls(r, &w, &[[0; 3], [RECORD * 150, 300, 1_200]], &limits);
        }
    }
    tally
}

/// A random constraint with just this many terms and nodes.
fn with_both(r: &mut Random, count: usize, nodes: usize) -> Constraint {
    loop {
        let c = with_terms(r, count);
        if sums::build(&c, nodes).is_some_and(|d| d.nodes.len() == nodes) {
            return c;
        }
    }
}

/// Constraints with 15 to 17 terms and 255 to 257 nodes, with and without signs, under every pair of limits.
pub fn nodes_counted(r: &mut Random) -> Tally {
    let mut tally = Tally::new();
    for count in [15, 16, 17] {
        for nodes in [255, 256, 257] {
            let c = with_both(r, count, nodes);
            let [t, e, l] = needs(&c);
            let signed = signed::of_base(r, &c);
            for w in [c.words(), signed] {
                tally.calls(r, &w, &[[t, e, l], [t + RECORD, e + 1, l + 1], [t - 1, e, l]], &every());
            }
        }
    }
    tally
}

/// Diagrams of 65,535 to 65,537 nodes, in tables that just fit, are one word short, and are longer.
pub fn full(r: &mut Random) -> Tally {
    let mut tally = Tally::new();
    let limits: Vec<Limits> = NODES[5..].iter().map(|nodes| Limits { nodes: *nodes, ..Limits::MAIN }).collect();
    for more in 0..3 {
        let c = fixed::full_with(more);
        let [t, e, l] = needs(&c);
        assert_eq!(t, RECORD * (65_535 + more));
        tally.calls(r, &c.words(), &[[t, e, l], [t - 1, e, l], [t + 2 * RECORD, e, l]], &limits);
    }
    tally
}

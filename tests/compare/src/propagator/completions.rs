//! The propagator on lists of the encoder. On small ones, with every Boolean behind the order Booleans open, it finds just what all completions agree on.

use super::{starts, Input, Tally, CONFLICT, SETTLED};
use crate::call::{differ, hex};
use crate::encoder::needs;
use crate::signed::{few, large, spelled};
use reference::completions::{agreed, satisfying};
use reference::constraint::Constraint;
use reference::fixed;
use reference::propagate::OPEN;
use reference::random::Random;
use reference::starts::{orders, some, KINDS};
use reference::words::read;
use reference::written::Written;

/// The most order Booleans whose starts are all gone through, and how many starts are drawn where there are more of them.
const FEW: u32 = 4;
const DRAWN: u64 = 24;

/// Constraints, how many of them never and always hold, the calls, and how many order Booleans these settle that were open, and leave open.
#[derive(Default)]
pub struct Found {
    pub constraints: u64,
    pub never: u64,
    pub always: u64,
    pub calls: Tally,
    pub settled: usize,
    pub open: usize,
}

/// The encoder's clause list for the words, and how many Booleans it speaks of.
fn encoded(words: &[u32], base: &Constraint) -> (Vec<u32>, usize) {
    let [mut table, mut edges, mut clauses] = needs(base).map(|n| vec![0; n]);
    let reply = archive::encode(words, &mut table, &mut edges, &mut clauses);
    if (reply.number, reply.words) != (0, clauses.len() as u64) {
        differ("a list for the propagator", format!("words {}\n{reply:?}", hex(words)));
    }
    (clauses, base.booleans() as usize + 2 + reply.nodes as usize)
}

/// Order Booleans of which some are fixed: as in one of those that satisfy the constraint, as under any values, or at random.
fn drawn(r: &mut Random, w: &Written, all: &[Vec<u8>]) -> Vec<u8> {
    let count = w.base().booleans() as usize;
    let values: Vec<i64> = w.terms.iter().map(|t| t.low + r.from(0, t.d)).collect();
    let bytes: Vec<u8> = match r.below(5) {
        0 => (0..count).map(|_| r.below(2) as u8).collect(),
        1..3 if !all.is_empty() => r.pick(all).clone(),
        _ => w.orders(&values).into_iter().map(u8::from).collect(),
    };
    let often = r.from(1, 5) as u64;
    some(r, often, bytes, count)
}

impl Found {
    /// Every start of the constraint's order Booleans, or some, against its completions.
    fn constraint(&mut self, r: &mut Random, w: &Written) {
        let (list, count) = encoded(&spelled(r, w), &w.base());
        let all = satisfying(w);
        self.constraints += 1;
        self.never += all.is_empty() as u64;
        self.always += (all.len() == w.domains().len()) as u64;
        let orders = w.base().booleans();
        let fixed = if orders <= FEW { starts(orders) } else { (0..DRAWN).map(|_| drawn(r, w, &all)).collect() };
        for f in fixed {
            let values: Vec<u8> = (0..count).map(|k| f.get(k).copied().unwrap_or(OPEN)).collect();
            let input = Input::new(&values, &list);
            let (reply, buffer) = self.calls.call(r, &input);
            let found = (reply.verdict == 0).then(|| &buffer[..f.len()]);
            let wanted = agreed(&all, &f);
            if found != wanted.as_deref() {
                differ("what all completions agree on", format!("{w:?}\n{}\nfound {found:?}\nagreed {wanted:?}", input.told()));
            }
            for (before, after) in f.iter().zip(found.unwrap_or_default()) {
                self.settled += (*before == OPEN && *after != OPEN) as usize;
                self.open += (*after == OPEN) as usize;
            }
        }
    }
}

/// Small constraints as they are written, under fixed order Booleans.
pub fn by_force(r: &mut Random, rounds: u64) -> Found {
    let mut found = Found::default();
    for _ in 0..rounds {
        let w = few(r);
        found.constraint(r, &w);
    }
    found
}

/// The values with one Boolean that was open fixed to the opposite of what they settle it to, where they settle one.
fn opposed(r: &mut Random, values: &[u8], settled: &[u8]) -> Option<Vec<u8>> {
    let more: Vec<usize> = (0..values.len()).filter(|k| values[*k] == OPEN && settled[*k] != OPEN).collect();
    let mut bytes = values.to_vec();
    let at = (!more.is_empty()).then(|| *r.pick(&more))?;
    bytes[at] = 1 - settled[at];
    Some(bytes)
}

impl Tally {
    /// A list of the encoder from starts of every kind. Where a start settles: all that it settles then settles no more, what opposes some of it is a conflict, and some of it
    /// is one more start.
    fn list_of(&mut self, r: &mut Random, words: &[u32]) {
        let base = read(words).unwrap().base();
        let (list, count) = encoded(words, &base);
        for kind in KINDS {
            let (all, often) = (orders(r, kind, &base), r.from(1, 5) as u64);
            let values = some(r, often, all, count);
            let (reply, settled) = self.call(r, &Input::new(&values, &list));
            if reply != SETTLED {
                continue;
            }
            self.known(r, &Input::new(&settled, &list), SETTLED, &settled);
            if let Some(values) = opposed(r, &values, &settled) {
                self.known(r, &Input::new(&values, &list), CONFLICT, &values);
            }
            let values = some(r, often, settled, count);
            self.call(r, &Input::new(&values, &list));
        }
    }
}

/// Lists with hundreds to thousands of nodes, and those of the fixed diagrams, of up to 65,536.
pub fn larger(r: &mut Random, rounds: u64) -> Tally {
    let mut tally = Tally::default();
    for _ in 0..rounds {
        let words = large(r);
        tally.list_of(r, &words);
    }
    for (_, c) in fixed::sizes() {
        tally.list_of(r, &c.words());
    }
    tally
}

//! Constraints with some of their order Booleans fixed: the text can be satisfied exactly where unit propagation on the encoder's list finds no conflict.

use crate::text::Clauses;
use crate::values::small;
use crate::{expect, Solver};
use reference::propagate::OPEN;
use reference::random::Random;
use reference::starts::some;
use reference::written::Written;

/// How many starts settle and how many are a conflict, and how many of these fix no order Boolean.
#[derive(Default)]
pub struct Tally {
    pub settled: u64,
    pub conflict: u64,
    pub nothing: u64,
}

/// Order Booleans of which some are fixed: to those that stand for values in the domains, or at random.
fn start(r: &mut Random, w: &Written) -> Vec<u8> {
    let values: Vec<i64> = w.terms.iter().map(|t| t.low + r.from(0, t.d)).collect();
    let mut bytes: Vec<u8> = w.orders(&values).into_iter().map(u8::from).collect();
    if r.once_in(4) {
        bytes.fill_with(|| r.below(2) as u8);
    }
    let (often, count) = (r.from(1, 4) as u64, bytes.len());
    some(r, often, bytes, count)
}

/// The literals that fix what is not open.
fn units(bytes: &[u8]) -> Vec<i64> {
    let literal = |(boolean, byte): (i64, &u8)| match *byte {
        OPEN => None,
        0 => Some(-boolean),
        _ => Some(boolean),
    };
    (1..).zip(bytes).filter_map(literal).collect()
}

/// Whether the propagator settles the list from these order Booleans, with as many others as the list's literals name open.
fn settles(list: &[u32], orders: &[u8]) -> bool {
    let literals = list.iter().filter(|w| *w >> 30 == 2);
    let mut values = orders.to_vec();
    values.resize(literals.map(|w| (w & 0x1FFF_FFFF) as usize).max().unwrap(), OPEN);
    let mut settled = values.clone();
    let reply = archive::propagate(&values, list, &mut settled);
    assert!(reply.verdict < 2, "{list:08X?} under {values:?} is refused: {reply:?}");
    reply.verdict == 0
}

/// Asks about that many starts, each of a constraint of its own.
pub fn check(solver: Solver, r: &mut Random, starts: u64) -> Tally {
    let mut t = Tally::default();
    for _ in 0..starts {
        let w = small(r);
        let clauses = Clauses::of(&w.words(|| r.once_in(2)));
        let orders = start(r, &w);
        let answer = settles(&clauses.words, &orders);
        let fixed = units(&orders);
        expect(solver, &clauses.with(&fixed).text, answer, || format!("{fixed:?} in {w:?}"));
        *if answer { &mut t.settled } else { &mut t.conflict } += 1;
        t.nothing += (!answer && fixed.is_empty()) as u64;
    }
    t
}

//! Constraints as students write them, asked about all values in their domains: fixed to a choice of values, the order Booleans can be completed exactly where these
//! satisfy the constraint.

use crate::text::Clauses;
use crate::{expect, Solver};
use reference::random::Random;
use reference::written::{Relation, Summand, Written};

const MOST_ASSIGNMENTS: i64 = 48;

/// How many constraints have each relation, always hold and never hold; how many values satisfy their constraint, and how many do not.
#[derive(Default)]
pub struct Tally {
    pub relations: [u64; 4],
    pub always: u64,
    pub never: u64,
    pub can: u64,
    pub cannot: u64,
}

/// A term with few values; its lower end is a farthest one only where the coefficients leave a bound that a word can say.
fn summand(r: &mut Random, most: i64) -> Summand {
    let a = r.from(1, most);
    let low = match r.below(4) {
        0 => 0,
        1 if most <= 100 => *r.pick(&[-1_000_000, 1_000_000]),
        _ => r.from(-6, 6),
    };
    Summand { factor: if r.once_in(2) { -a } else { a }, low, d: r.from(1, 4) }
}

/// A constraint with few assignments, whose bound is the sum of some of them or one beside it, or lies at or one beyond the least or the greatest sum.
pub fn small(r: &mut Random) -> Written {
    loop {
        let most = *r.pick(&[3, 12, 100, 65_535]);
        let terms: Vec<Summand> = (0..r.from(1, 4)).map(|_| summand(r, most)).collect();
        if terms.iter().map(|t| t.d + 1).product::<i64>() > MOST_ASSIGNMENTS {
            continue;
        }
        let sum = |at: &mut dyn FnMut(&Summand) -> i64| terms.iter().map(|t| t.factor * (t.low + at(t))).sum::<i64>();
        let bound = match r.below(6) {
            0 => sum(&mut |t| if t.factor < 0 { t.d } else { 0 }),
            1 => sum(&mut |t| if t.factor < 0 { 0 } else { t.d }),
            _ => sum(&mut |t| r.from(0, t.d)),
        };
        return Written { relation: *r.pick(&Relation::ALL), bound: bound + r.from(-1, 1), terms };
    }
}

/// The literals that fix the order Booleans to those that stand for the values.
fn units(w: &Written, values: &[i64]) -> Vec<i64> {
    (1..).zip(w.orders(values)).map(|(boolean, truth): (i64, bool)| if truth { boolean } else { -boolean }).collect()
}

impl Tally {
    /// Asks about one constraint and about all its values.
    fn constraint(&mut self, solver: Solver, w: &Written, clauses: &Clauses) {
        let values = w.domains();
        let can = values.iter().filter(|v| w.holds(v)).count();
        expect(solver, &clauses.text, can > 0, || format!("{w:?}"));
        for v in &values {
            expect(solver, &clauses.with(&units(w, v)).text, w.holds(v), || format!("{v:?} in {w:?}"));
        }
        self.relations[w.relation as usize] += 1;
        self.always += (can == values.len()) as u64;
        self.never += (can == 0) as u64;
        self.can += can as u64;
        self.cannot += (values.len() - can) as u64;
    }
}

/// Asks about that many constraints.
pub fn check(solver: Solver, r: &mut Random, constraints: u64) -> Tally {
    let mut tally = Tally::default();
    for _ in 0..constraints {
        let w = small(r);
        let words = w.words(|| r.once_in(2));
        tally.constraint(solver, &w, &Clauses::of(&words));
    }
    tally
}

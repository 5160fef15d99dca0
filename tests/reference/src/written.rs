//! A constraint as a student writes it: which values satisfy it, and its base form.

use crate::constraint::{Constraint, Term};

/// How the sum of the terms is to stand to the bound.
#[derive(Clone, Copy, Debug, PartialEq, Eq)]
pub enum Relation {
    AtMost,
    Less,
    AtLeast,
    Greater,
}

impl Relation {
    /// All of them, each at the place that is its number in a word.
    pub const ALL: [Relation; 4] = [Relation::AtMost, Relation::Less, Relation::AtLeast, Relation::Greater];

    /// Whether it holds between a sum and a bound.
    fn holds(self, sum: i64, bound: i64) -> bool {
        match self {
            Relation::AtMost => sum <= bound,
            Relation::Less => sum < bound,
            Relation::AtLeast => sum >= bound,
            Relation::Greater => sum > bound,
        }
    }

    /// Whether it fails where sum and bound are equal.
    fn strict(self) -> bool {
        matches!(self, Relation::Less | Relation::Greater)
    }

    /// What the base form multiplies both sides by: -1 turns the relation round.
    pub fn turn(self) -> i64 {
        match self {
            Relation::AtMost | Relation::Less => 1,
            Relation::AtLeast | Relation::Greater => -1,
        }
    }
}

/// One term: `factor`, which is not 0, times a value from `low` to `low + d`.
#[derive(Clone, Copy, Debug, PartialEq, Eq)]
pub struct Summand {
    pub factor: i64,
    pub low: i64,
    pub d: i64,
}

impl Summand {
    /// The end of the domain where the term, turned round or not, is least: the base form counts its values from there.
    fn start(&self, turn: i64) -> i64 {
        if turn * self.factor > 0 {
            self.low
        } else {
            self.low + self.d
        }
    }
}

/// The sum of the terms stands in the relation to the bound.
#[derive(Clone, Debug, PartialEq, Eq)]
pub struct Written {
    pub relation: Relation,
    pub bound: i64,
    pub terms: Vec<Summand>,
}

impl Written {
    /// Whether the values, one a term, satisfy it.
    pub fn holds(&self, values: &[i64]) -> bool {
        let sum = self.terms.iter().zip(values).map(|(t, v)| t.factor * v).sum();
        self.relation.holds(sum, self.bound)
    }

    /// The base form: its bound is what the turned bound leaves above the least sum.
    pub fn base(&self) -> Constraint {
        let turn = self.relation.turn();
        let most = turn * self.bound - self.relation.strict() as i64;
        let least: i64 = self.terms.iter().map(|t| turn * t.factor * t.start(turn)).sum();
        Constraint { bound: most - least, terms: self.terms.iter().map(|t| Term { a: t.factor.abs(), d: t.d }).collect() }
    }

    /// The values of the base form that stand for these values.
    pub fn choice(&self, values: &[i64]) -> Vec<i64> {
        let turn = self.relation.turn();
        self.terms.iter().zip(values).map(|(t, v)| (v - t.start(turn)).abs()).collect()
    }

    /// All values in the domains, one a term.
    pub fn domains(&self) -> Vec<Vec<i64>> {
        let mut found = vec![vec![]];
        for t in &self.terms {
            found = found.iter().flat_map(|front: &Vec<i64>| (t.low..=t.low + t.d).map(|v| [&front[..], &[v]].concat())).collect();
        }
        found
    }

    /// The order Booleans that stand for the values: (i, j) is true when the choice of term i is below j.
    pub fn orders(&self, values: &[i64]) -> Vec<bool> {
        let choice = self.choice(values);
        choice.iter().zip(&self.terms).flat_map(|(y, t)| (1..=t.d).map(move |j| *y < j)).collect()
    }
}

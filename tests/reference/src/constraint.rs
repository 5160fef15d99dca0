//! The base form of a constraint, which the diagram and the clauses are made from.

/// One term: `a` times a value from 0 to `d`.
#[derive(Clone, Copy, Debug, PartialEq, Eq)]
pub struct Term {
    pub a: i64,
    pub d: i64,
}

/// The sum of the terms is at most the bound, which may be below 0.
#[derive(Clone, Debug, PartialEq, Eq)]
pub struct Constraint {
    pub bound: i64,
    pub terms: Vec<Term>,
}

impl Constraint {
    /// The greatest sum of the terms from index `i` on.
    pub fn rest(&self, i: usize) -> i64 {
        self.terms[i..].iter().map(|t| t.a * t.d).sum()
    }

    /// How many order Booleans there are.
    pub fn booleans(&self) -> u32 {
        self.terms.iter().map(|t| t.d as u32).sum()
    }

    /// The word list that says this constraint, whose bound is not below 0, by a bound and terms alone.
    pub fn words(&self) -> Vec<u32> {
        let term = |t: &Term| 1 << 30 | (t.d as u32) << 16 | t.a as u32;
        std::iter::once(self.bound as u32).chain(self.terms.iter().map(term)).collect()
    }
}

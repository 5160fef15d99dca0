//! The clause list of a diagram.

use crate::constraint::Constraint;
use crate::diagram::{Diagram, FALSE, TRUE};

const NEGATED: u32 = 1 << 29;

/// Clauses as words, each closed by its count.
struct Writer(Vec<u32>);

impl Writer {
    /// Adds one clause of literals without their kind.
    fn clause(&mut self, literals: &[u32]) {
        self.0.extend(literals.iter().map(|l| 2 << 30 | l));
        self.0.push(3 << 30 | literals.len() as u32);
    }
}

/// All clause words: the order of each term's Booleans, the three units, the edges.
pub fn clauses(c: &Constraint, diagram: &Diagram) -> Vec<u32> {
    let mut out = Writer(Vec::new());
    let mut base = Vec::new(); // Boolean (i, j) is base[i] + j
    let mut count = 0;
    for t in &c.terms {
        base.push(count);
        count += t.d as u32;
    }
    let (always, never) = (count + 1, count + 2);
    let literal = |edge: u32| match edge {
        FALSE => never,
        TRUE => always,
        node => count + 3 + node,
    };
    for (t, b) in c.terms.iter().zip(&base) {
        for j in 1..t.d as u32 {
            out.clause(&[NEGATED | (b + j), b + j + 1]);
        }
    }
    out.clause(&[always]);
    out.clause(&[NEGATED | never]);
    out.clause(&[literal(diagram.root)]);
    for (k, node) in diagram.nodes.iter().enumerate() {
        let (d, b) = (c.terms[node.level - 1].d as usize, base[node.level - 1]);
        let here = NEGATED | (count + 3 + k as u32);
        for (j, edge) in diagram.edges[node.first..=node.first + d].iter().enumerate() {
            match j {
                0 => out.clause(&[here, literal(*edge)]),
                _ => out.clause(&[here, b + j as u32, literal(*edge)]),
            }
        }
    }
    out.0
}

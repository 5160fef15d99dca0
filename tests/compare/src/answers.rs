//! What a diagram answers for values as a student writes them: from its root, by the choice that stands for them, T is reached exactly where they satisfy the constraint.

use crate::call::{both, differ, hex, Given};
use crate::encoder::needs;
use crate::signed::{spelled, written};
use reference::diagram::{FALSE, RECORD, TRUE};
use reference::maps;
use reference::random::Random;
use reference::written::Written;

/// How many values satisfy their constraint, and how many do not.
#[derive(Default)]
pub struct Tally {
    pub can: u64,
    pub cannot: u64,
}

/// The root as an edge: node 0, or what the third unit clause says; the Booleans of T and F stand behind those of the order.
fn root(g: &Given, w: &Written) -> u32 {
    let base = w.base();
    let place = 3 * (base.booleans() as usize - base.terms.len()) + 4;
    match (g.clauses[place] & 0x1FFF_FFFF) - base.booleans() {
        1 => TRUE,
        2 => FALSE,
        k => k - 3,
    }
}

/// Where a choice leads.
fn reached(g: &Given, root: u32, choice: &[i64]) -> u32 {
    let mut edge = root;
    while edge < FALSE {
        let record = &g.table[RECORD * edge as usize..][..RECORD];
        edge = g.edges[record[3] as usize + choice[record[0] as usize - 1] as usize];
    }
    edge
}

/// Asks random constraints about random values in their domains.
pub fn random(r: &mut Random, rounds: u64) -> Tally {
    let mut tally = Tally::default();
    for _ in 0..rounds {
        let w = written(r);
        let words = spelled(r, &w);
        let g = both(r, maps::build, &words, needs(&w.base()));
        let root = root(&g, &w);
        for _ in 0..20 {
            let values: Vec<i64> = w.terms.iter().map(|t| t.low + r.from(0, t.d)).collect();
            let told = reached(&g, root, &w.choice(&values));
            if told != if w.holds(&values) { TRUE } else { FALSE } {
                differ("what the diagram answers", format!("words {}\n{values:?} in {w:?}\nreached {told:08X}", hex(&words)));
            }
            *if told == TRUE { &mut tally.can } else { &mut tally.cannot } += 1;
        }
    }
    tally
}

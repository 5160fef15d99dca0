//! Marking a hand-in, by the specification's section on right drawings: one pass over the records, each judged by itself.

use crate::constraint::Constraint;
use crate::diagram::{FALSE, RECORD, TRUE};
use crate::refusal::Refusal;
use crate::words::read;

/// How many records can be right.
const MOST: usize = 65_536;

/// What a level asks of its records: its term, and R of the level right below.
struct Level {
    a: i64,
    d: usize,
    below: i64,
}

/// The levels, from the first on.
fn levels(c: &Constraint) -> Vec<Level> {
    let mut below = 0;
    let mut all = Vec::with_capacity(c.terms.len());
    for t in c.terms.iter().rev() {
        all.push(Level { a: t.a, d: t.d as usize, below });
        below += t.a * t.d;
    }
    all.reverse();
    all
}

/// The records and edges that are handed in, and the levels that they are held against.
struct HandIn<'a> {
    levels: Vec<Level>,
    records: &'a [[u32; RECORD]],
    edges: &'a [u32],
}

impl HandIn<'_> {
    /// Whether the edge of a record of this level leads somewhere whose label holds the numbers from `low` to `high`, of which there is one at least.
    fn leads(&self, number: u32, level: &Level, edge: u32, low: i64, high: i64) -> bool {
        match edge {
            FALSE => high < 0,
            TRUE => level.below <= low,
            _ if edge >> 30 != 0 => false,
            _ => match self.records.get(edge as usize) {
                Some([l, from, to, ..]) => *l == number + 1 && i64::from(*from) <= low && high <= i64::from(*to),
                None => false,
            },
        }
    }

    /// Whether the record is right by itself.
    fn right(&self, record: &[u32; RECORD]) -> bool {
        let [number, low, high, first, _] = *record;
        let Some(level) = self.levels.get((number as usize).wrapping_sub(1)) else { return false };
        let first = first as usize;
        let Some(row) = self.edges.get(first..first + level.d + 1) else { return false };
        let (low, high) = (i64::from(low), i64::from(high));
        low <= high && row.iter().zip(0..).all(|(edge, j)| self.leads(number, level, *edge, low - level.a * j, high - level.a * j))
    }

    /// The number of the first bad record, which without records is 0.
    fn first_bad(&self, bound: i64) -> Option<usize> {
        let Some([level, low, high, ..]) = self.records.first() else {
            let greatest = self.levels[0].below + self.levels[0].a * self.levels[0].d as i64;
            return (0 <= bound && bound < greatest).then_some(0);
        };
        if *level != 1 || bound < i64::from(*low) || i64::from(*high) < bound {
            return Some(0);
        }
        let few = &self.records[..self.records.len().min(MOST)];
        few.iter().position(|record| !self.right(record)).or((self.records.len() > MOST).then_some(MOST))
    }
}

/// Right, or the refusal: the constraint's, or 20 with the first bad record.
pub fn mark(words: &[u32], table: &[u32], edges: &[u32]) -> Result<(), Refusal> {
    let c = read(words)?.base();
    let hand_in = HandIn { levels: levels(&c), records: table.as_chunks().0, edges };
    match hand_in.first_bad(c.bound) {
        None => Ok(()),
        Some(k) => Err(Refusal { number: 20, place: k as u64 }),
    }
}

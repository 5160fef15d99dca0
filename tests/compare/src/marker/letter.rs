//! Right drawings by the letter: every number of a label is gone through, so labels have to be short.

use super::{bad, HandIn, RIGHT};
use archive::Marked;
use reference::constraint::Constraint;
use reference::diagram::{FALSE, RECORD, TRUE};

/// Whether the edge leads from this level to something whose label holds the number. R of the level right below is the greatest sum of the terms from index `level` on.
pub fn held(c: &Constraint, table: &[u32], level: usize, edge: u32, number: i64) -> bool {
    match edge {
        TRUE => c.rest(level) <= number,
        FALSE => number <= -1,
        node => table.chunks_exact(RECORD).enumerate().any(|(k, record)| {
            k as u32 == node && record[0] as usize == level + 1 && (record[1].into()..=record[2].into()).contains(&number)
        }),
    }
}

/// Whether a record is right by itself.
fn right(c: &Constraint, table: &[u32], edges: &[u32], record: &[u32]) -> bool {
    let [level, low, high, first] = [0, 1, 2, 3].map(|k| i64::from(record[k]));
    if !(1..=c.terms.len() as i64).contains(&level) || low > high {
        return false;
    }
    let level = level as usize;
    let term = c.terms[level - 1];
    (0..=term.d).all(|j| match edges.get((first + j) as usize) {
        Some(edge) => (low..=high).all(|number| held(c, table, level, *edge, number - term.a * j)),
        None => false,
    })
}

/// The reply to a hand-in for this base form.
pub fn reply(c: &Constraint, hand_in: &HandIn) -> Marked {
    let HandIn { table, edges, .. } = hand_in;
    if hand_in.records() == 0 {
        return if c.bound < 0 || c.rest(0) <= c.bound { RIGHT } else { bad(0) };
    }
    for (k, record) in table.chunks_exact(RECORD).enumerate() {
        let root = record[0] == 1 && (record[1].into()..=record[2].into()).contains(&c.bound);
        if k > 65_535 || k == 0 && !root || !right(c, table, edges, record) {
            return bad(k);
        }
    }
    RIGHT
}

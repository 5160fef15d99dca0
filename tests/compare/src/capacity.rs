//! The greatest node count: 65,536 nodes are accepted and 65,537 refused, however long the table is.

use crate::call::{both, differ};
use reference::random::Random;
use reference::{fixed, maps, sums};

/// Both ends, with tables that just fit, are longer by a part of a record, by a record and by many, are one word short, and have four words a node; gives how many calls.
pub fn both_ends(r: &mut Random) -> u64 {
    let full = fixed::full_with(1);
    let over = fixed::full_with(2);
    let d = sums::build(&over, 1 << 20).unwrap();
    assert_eq!(d.nodes.len(), 65_537);
    let (edges, words) = (d.edges.len(), reference::clauses::clauses(&over, &d).len());
    let cases = [
        (&full, 327_680, 0),
        (&full, 327_684, 0),
        (&full, 327_685, 0),
        (&full, 327_679, 6),
        (&full, 262_144, 6),
        (&over, 327_685, 6),
        (&over, 400_001, 6),
    ];
    for (c, table, number) in &cases {
        let g = both(r, maps::build, &c.words(), [*table, edges, words]);
        if g.reply.number != *number {
            differ("node capacity", format!("table of {table} words: {:?}", g.reply));
        }
    }
    cases.len() as u64
}

//! The finder.

use crate::call::{both, differ, hex};
use crate::inputs::constraint;
use crate::lent::{Lent, SIDES};
use archive::{Found, Node};
use reference::diagram::RECORD;
use reference::random::Random;
use reference::{maps, sums};

/// The full records of a table.
fn nodes(table: &[u32]) -> Vec<Node> {
    table.chunks_exact(RECORD).map(|w| Node { level: w[0], lower: w[1], upper: w[2], first: w[3], entering: w[4] }).collect()
}

/// The finder of the archive, over the flat table and over its records, and of the reference; true where it finds.
pub fn find_both(table: &[u32], level: u32, remainder: u32) -> bool {
    let other = reference::find::find(table, level, remainder);
    let (Ok(number) | Err(number)) = other;
    let wanted = Found { found: other.is_ok() as u64, number };
    let nodes = nodes(table);
    for side in SIDES {
        let (flat, records) = (Lent::new(side, table), Lent::new(side, &nodes));
        let ours = [archive::find(flat.list(), level, remainder), archive::find_node(records.list(), level, remainder)];
        let told = || {
            let table = hex(table);
            format!("level {level} remainder {remainder} table {table}\npage {side:?}\narchive {ours:?} reference {wanted:?}")
        };
        if ours != [wanted; 2] {
            differ("the finder", told());
        }
        flat.same(table, "the finder's table", told);
        records.same(&nodes, "the finder's records", told);
    }
    other.is_ok()
}

/// The finder in both forms, on tables of the encoder and on any words: questions and hits.
pub fn random(r: &mut Random, rounds: u64) -> (u64, u64) {
    let (mut calls, mut hits) = (0, 0);
    let mut ask = |table: &[u32], level, remainder| {
        calls += 1;
        hits += find_both(table, level, remainder) as u64;
    };
    for _ in 0..rounds {
        let c = constraint(r);
        let needs = sums::build(&c, 1 << 20).unwrap();
        let room = RECORD * needs.nodes.len() + r.below(2 * RECORD as u64 + 1) as usize;
        let g = both(r, maps::build, &c.words(), [room, needs.edges.len(), 70_000]);
        for _ in 0..8 {
            let k = RECORD * r.below((room / RECORD) as u64 + 1) as usize;
            let (level, near) = if k + RECORD <= room { (g.table[k], g.table[k + 1 + r.below(2) as usize]) } else { (0, 0) };
            ask(&g.table, level, near.wrapping_add(r.below(3) as u32).wrapping_sub(1));
            ask(&g.table, level + r.below(2) as u32, near);
        }
        let length = r.below(10 * RECORD as u64) as usize;
        let small = r.once_in(2);
        let any: Vec<u32> =
            (0..length).map(|_| if small { r.below(4) as u32 } else { r.word() | (r.below(2) as u32).wrapping_neg() }).collect();
        for _ in 0..8 {
            ask(&any, r.below(4) as u32, r.below(5) as u32);
        }
        ask(&any, u32::MAX, u32::MAX);
        ask(&any, 0, 0);
        ask(&[], 0, 0);
    }
    (calls, hits)
}

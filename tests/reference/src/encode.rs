//! The encoder over lent lists.

use crate::clauses::clauses;
use crate::constraint::Constraint;
use crate::diagram::{Diagram, RECORD};
use crate::lent::place;
use crate::limits::Limits;
use crate::refusal::Refusal;
use crate::words::read_within;

/// A way to build the diagram, with the most nodes that it may have.
pub type Build = fn(&Constraint, usize) -> Option<Diagram>;

/// The counts of an accepted call.
#[derive(Clone, Copy, Debug, PartialEq, Eq)]
pub struct Counts {
    pub nodes: u64,
    pub edges: u64,
    pub words: u64,
}

/// The whole call under limits: the counts or the refusal, and the three lists as the specification leaves them.
pub fn encode(
    build: Build,
    limits: Limits,
    words: &[u32],
    table: &mut [u32],
    edges: &mut [u32],
    list: &mut [u32],
) -> Result<Counts, Refusal> {
    let limits = limits.counted();
    let c = read_within(limits.terms, words)?.base();
    let made = build(&c, (table.len() / RECORD).min(limits.nodes as usize));
    let number = match &made {
        None => 6,
        Some(d) if d.edges.len() > edges.len() => 7,
        Some(_) => 8,
    };
    let text = made.as_ref().map(|d| if number == 7 { Vec::new() } else { clauses(&c, d) }).unwrap_or_default();
    if number != 8 || text.len() > list.len() {
        table.fill(0);
        edges.fill(0);
        list.fill(0);
        return Err(Refusal { number, place: 0 });
    }
    let d = made.unwrap();
    place(table, &d.table());
    place(edges, &d.edges);
    place(list, &text);
    Ok(Counts { nodes: d.nodes.len() as u64, edges: d.edges.len() as u64, words: text.len() as u64 })
}

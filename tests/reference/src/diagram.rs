//! The finished diagram, whichever way it was built.

pub const FALSE: u32 = 0xC000_0000;
pub const TRUE: u32 = 0xC000_0001;

/// The words of a node's record in the table.
pub const RECORD: usize = 5;

/// A node's level (from 1), the two ends of its label and the place of its first edge.
#[derive(Clone, Copy, Debug, PartialEq, Eq)]
pub struct Node {
    pub level: usize,
    pub low: i64,
    pub high: i64,
    pub first: usize,
}

/// What the bound leads to, all nodes by level and lower end, and their edges in the same order.
#[derive(Clone, Debug, PartialEq, Eq)]
pub struct Diagram {
    pub root: u32,
    pub nodes: Vec<Node>,
    pub edges: Vec<u32>,
}

impl Diagram {
    /// How many edges enter each node: every edge to a node counts once there, also beside another from the same node.
    pub fn entering(&self) -> Vec<u32> {
        let mut counts = vec![0; self.nodes.len()];
        for node in self.edges.iter().filter(|edge| **edge < FALSE) {
            counts[*node as usize] += 1;
        }
        counts
    }

    /// The words of all records: level, both ends, first edge, and how many edges enter the node.
    pub fn table(&self) -> Vec<u32> {
        let record = |(n, entering): (&Node, u32)| [n.level as u32, n.low as u32, n.high as u32, n.first as u32, entering];
        self.nodes.iter().zip(self.entering()).flat_map(record).collect()
    }
}

//! A caller's limits on the terms of a constraint and on the nodes of its diagram.

/// The most terms and the most nodes that a caller takes.
#[derive(Clone, Copy, Debug, PartialEq, Eq)]
pub struct Limits {
    pub terms: u64,
    pub nodes: u64,
}

impl Limits {
    /// The main limits, which no others go beyond.
    pub const MAIN: Limits = Limits { terms: 64, nodes: 65_536 };

    /// The limits as they count: one above the main one counts as that.
    pub fn counted(self) -> Limits {
        Limits { terms: self.terms.min(Limits::MAIN.terms), nodes: self.nodes.min(Limits::MAIN.nodes) }
    }
}

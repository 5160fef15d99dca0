//! A row of the refusal table that applies.

/// A number and a place of the refusal table.
#[derive(Clone, Copy, Debug, PartialEq, Eq)]
pub struct Refusal {
    pub number: u64,
    pub place: u64,
}

//! The finder.

use crate::diagram::RECORD;

/// The number of the first full record of the level whose label holds the remainder; where there is none, as the error, how many full records come before: those
/// of a smaller level, and those of the level with an upper end below the remainder.
pub fn find(table: &[u32], level: u32, remainder: u32) -> Result<u64, u64> {
    let records = || table.chunks_exact(RECORD);
    let holds = |r: &[u32]| r[0] == level && (r[1]..=r[2]).contains(&remainder);
    let before = |r: &&[u32]| r[0] < level || r[0] == level && r[2] < remainder;
    records().position(holds).map(|k| k as u64).ok_or_else(|| records().filter(before).count() as u64)
}

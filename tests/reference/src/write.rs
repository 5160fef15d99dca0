//! A clause list as DIMACS text.

use crate::lent::hand_over;
use crate::refusal::Refusal;
use crate::test::split;
use std::fmt::Write as _;

/// The written form of the list, or the first refusal of 11 to 14.
fn written(list: &[u32]) -> Result<Vec<u8>, Refusal> {
    let clauses = split(usize::MAX, list)?;
    let greatest = clauses.iter().flat_map(|(_, literals)| literals).map(|(boolean, _)| *boolean).max().unwrap_or(0);
    let mut text = format!("p cnf {greatest} {}\n", clauses.len());
    for (_, literals) in &clauses {
        for (boolean, sign) in literals {
            write!(text, "{}{boolean} ", if *sign { "" } else { "-" }).unwrap();
        }
        text.push_str("0\n");
    }
    Ok(text.into_bytes())
}

/// The whole call: the length of the text or the refusal, and the lent bytes as the specification leaves them.
pub fn write(list: &[u32], text: &mut [u8]) -> Result<u64, Refusal> {
    hand_over(written(list), text)
}

//! The place of refusal 16 by its own definition, asked of the archive alone: some legal text begins with the bytes before the place, and none with those up to and with it.

use super::{texts, READ};
use crate::lent::{Lent, SIDES};
use archive::Text;

/// Ends that complete every beginning of a legal text of the small kind: the rest of a header, or of a comment or a literal, and the clauses that are missing.
fn ends() -> Vec<Vec<u8>> {
    const HEADER: &[u8] = b"\np cnf 0 0";
    let headers = (0..HEADER.len()).map(|k| HEADER[k..].to_vec());
    let clauses = ["", "\n", "1"].into_iter().flat_map(|first| (0..=11).map(move |n| format!("{first}{}", " 0".repeat(n)).into_bytes()));
    headers.chain(clauses).collect()
}

/// The archive's reply to a text, which is the same with the unreadable page on each side in turn.
fn reply(text: &[u8]) -> Text {
    let [behind, before] = SIDES.map(|side| archive::read(Lent::new(side, text).list(), Lent::new(side, &[0; 24]).list_mut()));
    READ.hold(behind == before, "another reply with the page on the other side", text);
    behind
}

/// Whether the archive takes the bytes with one of these ends behind them for legal text.
fn completed(bytes: &[u8], ends: &[Vec<u8>]) -> bool {
    ends.iter().any(|end| reply(&[bytes, end].concat()).number != 16)
}

/// Checks the place of every refused text of the small kind; gives how many there are.
pub fn defined(most: u32) -> u64 {
    let ends = ends();
    let mut refused = 0;
    for text in texts::every(most) {
        let reply = reply(&text);
        if reply.number != 16 {
            continue;
        }
        refused += 1;
        let place = reply.place as usize;
        READ.hold(completed(&text[..place], &ends), "no legal text begins with the bytes before the place", &text);
        READ.hold(place == text.len() || !completed(&text[..=place], &ends), "a legal text begins with these bytes", &text);
    }
    refused
}

//! Tables of 65,535 to 70,000 records: each of these is right by itself, but for the number of those above 65,535.

use super::{bad, HandIn, Tally, RIGHT};
use crate::exercises::words;
use reference::diagram::{FALSE, TRUE};

/// 1[0..1] + 1[0..1] <= 1 with that many records and a root whose edges begin at this place; all other records are alike.
fn hand_in(records: usize, first: u32) -> HandIn {
    let mut table = vec![1, 1, 1, first, 0];
    table.extend([2, 0, 0, 2, 0].repeat(records - 1));
    HandIn::new(&words(&[(1, 1), (1, 1)], 1), &table, &[TRUE, 1, TRUE, FALSE, TRUE, 65_535, TRUE, 65_536, TRUE, 69_999, TRUE, 70_000])
}

/// The root leads to record 1, 65,535, 65,536, 69,999 or 70,000 and is bad only where that is not there; else the first bad record is 65,536, where it is there. Then
/// a record before that one, and one behind it, is bad by itself too.
pub fn records() -> Tally {
    let mut tally = Tally::default();
    for count in [65_535, 65_536, 65_537, 65_538, 70_000] {
        for (first, child) in [(0, 1), (4, 65_535), (6, 65_536), (8, 69_999), (10, 70_000)] {
            let whole = if count > 65_536 { bad(65_536) } else { RIGHT };
            tally.known(&hand_in(count, first), if child < count { whole } else { bad(0) });
        }
        for at in [1, 255, 256, 65_534, 65_535, 65_536, 69_999] {
            let mut h = hand_in(count, 0);
            let Some(high) = h.table.get_mut(5 * at + 2) else { continue };
            *high = 1;
            tally.known(&h, bad(at.min(65_536)));
        }
    }
    tally
}

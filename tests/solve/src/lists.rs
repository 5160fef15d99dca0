//! Random clause lists, some with empty clauses: the text of a list can be satisfied exactly where the clause tester calls all clauses true under some values.

use crate::{expect, Solver};
use reference::random::Random;
use reference::test::EMPTY;

const BOOLEANS: usize = 3;

/// How many lists can be satisfied, how many cannot, and how many of these have an empty clause.
pub struct Tally {
    pub can: u64,
    pub cannot: u64,
    pub empty: u64,
}

/// The text of the list, in room enough for any by include/pongilad.h.
fn text_of(words: &[u32]) -> String {
    let mut text = vec![0; 11 * words.len() + 18];
    let reply = archive::write(words, &mut text);
    assert_eq!(reply.number, 0, "{words:08X?} is refused");
    text.truncate(reply.length as usize);
    String::from_utf8(text).unwrap()
}

/// Whether the tester calls all clauses true under some values.
fn satisfied(words: &[u32]) -> bool {
    (0..1 << BOOLEANS).any(|n: u32| {
        let values: [u8; BOOLEANS] = std::array::from_fn(|v| (n >> v & 1) as u8);
        archive::test(&values, words).verdict == 0
    })
}

/// A list of up to twelve clauses, most often without empty ones.
fn list(r: &mut Random) -> Vec<u32> {
    let mut words = r.clause_list(BOOLEANS as u64);
    words.extend(r.clause_list(BOOLEANS as u64));
    if !r.once_in(4) {
        words.retain(|w| *w != EMPTY);
    }
    words
}

/// Asks about that many lists.
pub fn check(solver: Solver, r: &mut Random, lists: u64) -> Tally {
    let mut t = Tally { can: 0, cannot: 0, empty: 0 };
    for _ in 0..lists {
        let words = list(r);
        let answer = satisfied(&words);
        expect(solver, &text_of(&words), answer, || format!("{words:08X?}"));
        *if answer { &mut t.can } else { &mut t.cannot } += 1;
        t.empty += (!answer && words.contains(&EMPTY)) as u64;
    }
    t
}

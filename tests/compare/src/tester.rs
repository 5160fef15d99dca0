//! The clause tester.

use crate::call::{differ, hex};
use crate::inputs::{constraint, damage_list};
use crate::lent::{Lent, SIDES};
use archive::Tested;
use reference::random::Random;
use reference::sums;
use reference::test::{Verdict, EMPTY};

/// Values, a list, and the verdict, number and place of the reply.
type Case = (&'static [u8], &'static [u32], [u64; 3]);

const A: u32 = 0x8000_0001;
const NOT_A: u32 = 0xA000_0001;
const B: u32 = 0x8000_0002;
const END_1: u32 = 0xC000_0001;
const END_2: u32 = 0xC000_0002;

/// Replies that the specification gives.
const CASES: &[Case] = &[
    // The refusal table's examples.
    (&[2], &[], [2, 10, 0]),
    (&[], &[1], [2, 11, 0]),
    (&[], &[0x8000_0000], [2, 12, 0]),
    (&[1], &[A, END_2], [2, 13, 1]),
    (&[1], &[A], [2, 14, 1]),
    // No clause, a true one, a false one.
    (&[], &[], [0, 0, 0]),
    (&[1], &[A, END_1], [0, 0, 0]),
    (&[0], &[A, END_1], [1, 0, 0]),
    // Nothing but empty clauses.
    (&[], &[EMPTY], [1, 0, 0]),
    (&[1], &[EMPTY], [1, 0, 0]),
    (&[], &[EMPTY, EMPTY], [1, 0, 0]),
    // One first, in the middle, last: its own number, and the place of its end word.
    (&[1], &[EMPTY, A, END_1], [1, 0, 0]),
    (&[1], &[A, END_1, EMPTY, A, END_1], [1, 1, 2]),
    (&[1], &[A, END_1, EMPTY], [1, 1, 2]),
    (&[1, 0], &[A, B, END_2, A, END_1, EMPTY], [1, 2, 5]),
    (&[0, 1], &[A, B, END_2, NOT_A, END_1, EMPTY, EMPTY], [1, 2, 5]),
    // One and a false clause: the first of the two.
    (&[0], &[EMPTY, A, END_1], [1, 0, 0]),
    (&[0], &[A, END_1, EMPTY], [1, 0, 0]),
    (&[1], &[A, END_1, EMPTY, NOT_A, END_1], [1, 1, 2]),
    (&[1], &[A, END_1, NOT_A, END_1, EMPTY], [1, 1, 2]),
    // The whole list is checked first.
    (&[2], &[EMPTY], [2, 10, 0]),
    (&[1], &[EMPTY, 0], [2, 11, 1]),
    (&[1], &[EMPTY, B, END_1], [2, 12, 1]),
    (&[1], &[EMPTY, END_1], [2, 13, 1]),
    (&[1], &[A, EMPTY], [2, 13, 1]),
    (&[1], &[EMPTY, A], [2, 14, 2]),
];

/// Calls by verdict 0, 1 and refusal, and how many of verdict 1 name an empty clause.
#[derive(Default)]
pub struct Tally {
    pub numbers: [u64; 15],
    pub empty: u64,
}

impl Tally {
    /// Calls both testers and counts the reply.
    fn test(&mut self, values: &[u8], list: &[u32]) {
        let reply = both(values, list);
        self.numbers[if reply.verdict == 2 { reply.number } else { reply.verdict } as usize] += 1;
        self.empty += (reply.verdict == 1 && list[reply.place as usize] == EMPTY) as u64;
    }
}

/// The tester of the archive and of the reference; gives the reply.
fn both(values: &[u8], list: &[u32]) -> Tested {
    let wanted = match reference::test::test(values, list) {
        Verdict::AllTrue => Tested { verdict: 0, number: 0, place: 0 },
        Verdict::False { clause, place } => Tested { verdict: 1, number: clause, place },
        Verdict::Refused(x) => Tested { verdict: 2, number: x.number, place: x.place },
    };
    for side in SIDES {
        let (lent, clauses) = (Lent::new(side, values), Lent::new(side, list));
        let ours = archive::test(lent.list(), clauses.list());
        let told = || format!("values {values:?} list {}\npage {side:?}\narchive {ours:?} reference {wanted:?}", hex(list));
        if ours != wanted {
            differ("the clause tester", told());
        }
        lent.same(values, "the clause tester's values", told);
        clauses.same(list, "the clause tester's list", told);
    }
    wanted
}

/// Compares both replies with that of the specification; gives how many.
pub fn cases() -> u64 {
    for (values, list, [verdict, number, place]) in CASES {
        let wanted = Tested { verdict: *verdict, number: *number, place: *place };
        let reply = both(values, list);
        if reply != wanted {
            differ("the clause tester", format!("values {values:?} list {}\nreplies {reply:?} specification {wanted:?}", hex(list)));
        }
    }
    CASES.len() as u64
}

/// Random and damaged lists, and lists of the encoder.
pub fn random(r: &mut Random, rounds: u64) -> Tally {
    let mut tally = Tally::default();
    for _ in 0..rounds {
        let n = r.below(9);
        let mut values: Vec<u8> = (0..n).map(|_| r.below(2) as u8).collect();
        let mut words = r.clause_list(n);
        tally.test(&values, &words);
        for _ in 0..r.from(1, 2) {
            damage_list(r, &mut words, n);
        }
        tally.test(&values, &words);
        if n > 0 && r.once_in(4) {
            let at = r.below(n) as usize;
            values[at] = r.from(2, 255) as u8;
            tally.test(&values, &words);
        }
    }
    for _ in 0..rounds / 8 {
        let c = constraint(r);
        let d = sums::build(&c, 1 << 20).unwrap();
        let words = reference::clauses::clauses(&c, &d);
        let count = c.booleans() as usize + 2 + d.nodes.len();
        let low = r.below(2) as u8;
        let mut values: Vec<u8> = (0..count).map(|_| if r.once_in(9) { 1 - low } else { low }).collect();
        values[c.booleans() as usize] = 1;
        tally.test(&values, &words);
        tally.test(&values[..count - 1], &words);
    }
    tally
}

/// Every list of up to `most` words, each one of nine, under all values of two Booleans. The nine: the literals of both, one of a third, three end words, and a word
/// that is neither.
pub fn every(most: u32) -> Tally {
    const WORDS: [u32; 9] = [A, NOT_A, B, 0xA000_0002, 0x8000_0003, EMPTY, END_1, END_2, 0];
    let mut tally = Tally::default();
    for length in 0..=most {
        for number in 0..WORDS.len().pow(length) {
            let words: Vec<u32> = (0..length).map(|k| WORDS[number / WORDS.len().pow(k) % WORDS.len()]).collect();
            for values in [[0, 0], [0, 1], [1, 0], [1, 1]] {
                tally.test(&values, &words);
            }
        }
    }
    tally
}

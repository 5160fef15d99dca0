//! Replies that the request gives, and some that follow from its sentences, worked out by hand.

use super::{Input, Tally, A, B, C, CONFLICT, END_1, END_2, END_3, NOT_A, NOT_B, NOT_C, SETTLED};
use crate::call::both;
use crate::exercises::{words, ROOM};
use reference::propagate::OPEN;
use reference::random::Random;
use reference::sums;
use reference::test::EMPTY;

/// Values, a list, and what the buffer holds then, or nothing where there is a conflict.
type Case = (&'static [u8], &'static [u32], Option<&'static [u8]>);

const CASES: &[Case] = &[
    // No clause: the values stand in the buffer.
    (&[], &[], Some(&[])),
    (&[2], &[], Some(&[2])),
    (&[0, 1, 2], &[], Some(&[0, 1, 2])),
    // One literal alone, also where the value is given.
    (&[2], &[A, END_1], Some(&[1])),
    (&[2], &[NOT_A, END_1], Some(&[0])),
    (&[1], &[A, END_1], Some(&[1])),
    (&[0], &[A, END_1], None),
    (&[1], &[NOT_A, END_1], None),
    // All literals but one are false; a true one among them; two open.
    (&[0, 2], &[A, B, END_2], Some(&[0, 1])),
    (&[2, 1], &[A, NOT_B, END_2], Some(&[1, 1])),
    (&[1, 2], &[A, B, END_2], Some(&[1, 2])),
    (&[2, 2], &[A, B, END_2], Some(&[2, 2])),
    (&[0, 0], &[A, B, END_2], None),
    // What is settled settles more: the clauses in the order of working, and against it.
    (&[2, 2, 2], &[A, END_1, NOT_A, B, END_2, NOT_B, C, END_2], Some(&[1, 1, 1])),
    (&[2, 2, 2], &[NOT_B, C, END_2, NOT_A, B, END_2, A, END_1], Some(&[1, 1, 1])),
    (&[2, 2, 0], &[NOT_A, B, END_2, NOT_B, C, END_2], Some(&[0, 0, 0])),
    (&[1, 2, 2], &[NOT_B, NOT_C, END_2, NOT_A, B, END_2], Some(&[1, 1, 0])),
    // A conflict behind that: the buffer holds the values again.
    (&[2, 2], &[A, END_1, NOT_A, B, END_2, NOT_A, NOT_B, END_2], None),
    (&[1, 2, 2], &[NOT_B, C, END_2, NOT_B, NOT_C, END_2, NOT_A, B, END_2], None),
    (&[2], &[A, END_1, NOT_A, END_1], None),
    (&[2, 0], &[A, END_1, B, END_1], None),
    // An empty clause, alone, first, in the middle, last.
    (&[], &[EMPTY], None),
    (&[2], &[EMPTY], None),
    (&[2], &[EMPTY, A, END_1], None),
    (&[2], &[A, END_1, EMPTY, A, END_1], None),
    (&[1, 2], &[NOT_A, B, END_2, EMPTY], None),
    // A literal that a clause has twice counts once.
    (&[2], &[A, A, END_2], Some(&[1])),
    (&[2], &[NOT_A, NOT_A, NOT_A, END_3], Some(&[0])),
    (&[2, 0], &[A, B, A, END_3], Some(&[1, 0])),
    (&[2, 2], &[A, B, A, END_3], Some(&[2, 2])),
    (&[0], &[A, A, END_2], None),
    // A clause with a Boolean both ways settles nothing, open or not.
    (&[2], &[A, NOT_A, END_2], Some(&[2])),
    (&[2], &[A, NOT_A, A, END_3], Some(&[2])),
    (&[2, 0], &[A, B, NOT_A, END_3], Some(&[2, 0])),
    (&[2, 2], &[A, NOT_A, END_2, B, END_1], Some(&[2, 1])),
    (&[0], &[A, NOT_A, END_2], Some(&[0])),
    (&[1], &[A, NOT_A, END_2], Some(&[1])),
    // Not all that follows is found: A is true whatever B is.
    (&[2, 2], &[A, B, END_2, A, NOT_B, END_2], Some(&[2, 2])),
];

/// Values, a list, the length of the buffer, and the refusal's number and place.
type Refused = (&'static [u8], &'static [u32], usize, u64, u64);

const REFUSED: &[Refused] = &[
    // 10: the first byte above 2.
    (&[3], &[], 1, 10, 0),
    (&[255], &[], 1, 10, 0),
    (&[0, 1, 2, 3], &[A, END_1], 4, 10, 3),
    (&[2, 130, 4], &[], 3, 10, 1),
    // 11 to 14, as the clause tester has them.
    (&[], &[1], 0, 11, 0),
    (&[2], &[A, END_1, 0], 1, 11, 2),
    (&[2], &[A, 0x7FFF_FFFF, END_1], 1, 11, 1),
    (&[], &[0x8000_0000], 0, 12, 0),
    (&[2], &[0xA000_0000, END_1], 1, 12, 0),
    (&[2], &[A, B, END_2], 1, 12, 1),
    (&[2], &[0x9FFF_FFFF, END_1], 1, 12, 0),
    (&[2], &[0x8000_0101, END_1], 1, 12, 0),
    (&[2], &[0x8001_0001, END_1], 1, 12, 0),
    (&[2], &[A, END_2], 1, 13, 1),
    (&[2], &[A, EMPTY], 1, 13, 1),
    (&[2], &[END_1], 1, 13, 0),
    (&[2], &[A, 0xFFFF_FFFF], 1, 13, 1),
    (&[2], &[A, 0xC000_0101], 1, 13, 1),
    (&[2], &[0xC001_0000], 1, 13, 0),
    (&[2], &[0xE000_0000], 1, 13, 0),
    (&[2], &[A], 1, 14, 1),
    (&[2, 2], &[A, END_1, A, B], 2, 14, 4),
    // Word by word: the earlier word first.
    (&[2], &[A, END_2, 1], 1, 13, 1),
    (&[2], &[B, END_2, A], 1, 12, 0),
    (&[2], &[0, B, END_2, A], 1, 11, 0),
    // The whole list is checked before a conflict is told.
    (&[2], &[EMPTY, 0], 1, 11, 1),
    (&[0], &[A, END_1, B, END_1], 1, 12, 2),
    (&[2], &[EMPTY, END_1], 1, 13, 1),
    (&[2], &[EMPTY, A], 1, 14, 2),
    // 19: a buffer that is shorter or longer.
    (&[2], &[], 0, 19, 0),
    (&[2], &[], 2, 19, 0),
    (&[], &[], 1, 19, 0),
    (&[], &[], 256, 19, 0),
    (&[], &[], 65_536, 19, 0),
    (&[2, 2], &[A, END_1], 1, 19, 0),
    (&[2, 2], &[A, END_1], 3, 19, 0),
    (&[2], &[EMPTY], 0, 19, 0),
    // 10 before 11 to 14, these before 19; 12 goes by the values, and not by the buffer.
    (&[3], &[0], 1, 10, 0),
    (&[2, 3], &[0x8000_0000], 2, 10, 1),
    (&[3], &[END_1], 1, 10, 0),
    (&[3], &[A], 1, 10, 0),
    (&[3], &[], 0, 10, 0),
    (&[2], &[0], 0, 11, 0),
    (&[2], &[0x8000_0000], 2, 12, 0),
    (&[2], &[B, END_1], 2, 12, 0),
    (&[2], &[A, EMPTY], 0, 13, 1),
    (&[2], &[A], 2, 14, 1),
];

/// A list and some of its Booleans that are fixed to false, and what the buffer holds then, or nothing where there is a conflict.
type Example<'a> = (&'a [u32], &'a [usize], Option<&'a [u8]>);

/// The request's examples: exercises R and P. The order Booleans of R are 1 to 5, T is 6, F is 7, and the nodes are 8 to 10.
fn examples(r: &mut Random, tally: &mut Tally) {
    let mut list = |terms: &[(u32, u32)], bound| {
        let g = both(r, sums::build, &words(terms, bound), ROOM);
        g.clauses[..g.reply.words as usize].to_vec()
    };
    let (two, one) = (list(&[(2, 2), (5, 3)], 12), list(&[(1, 1)], 0));
    let rows: [Example; 5] = [
        (&two, &[], Some(&[2, 2, 2, 2, 1, 1, 0, 1, 2, 1])),
        (&two, &[4], Some(&[2, 1, 0, 0, 1, 1, 0, 1, 0, 1])),
        (&two, &[5], None),
        (&two, &[1, 2, 4], None),
        (&one, &[], Some(&[1, 1, 0, 1])),
    ];
    for (list, falses, bytes) in rows {
        let mut values = vec![OPEN; if *list == two { 10 } else { 4 }];
        falses.iter().for_each(|b| values[b - 1] = 0);
        tally.known(r, &Input::new(&values, list), bytes.map_or(CONFLICT, |_| SETTLED), bytes.unwrap_or(&values));
    }
}

/// All of them.
pub fn all(r: &mut Random) -> Tally {
    let mut tally = Tally::default();
    examples(r, &mut tally);
    for (values, list, bytes) in CASES {
        tally.known(r, &Input::new(values, list), bytes.map_or(CONFLICT, |_| SETTLED), bytes.unwrap_or(values));
    }
    for (values, list, room, number, place) in REFUSED {
        tally.known(r, &Input::new(values, list).with_room(*room), super::refused(*number, *place), &[]);
    }
    tally
}

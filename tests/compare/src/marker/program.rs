//! The program that marks: its line for hand-ins of every kind, the ends of its room, and inputs that are cut or count wrongly.

use super::{reference, HandIn};
use crate::exercises::words;
use crate::inputs::constraint;
use crate::program::expect;
use crate::signed::{self, damage, small};
use archive::program::bytes_of;
use reference::diagram::{FALSE, TRUE};
use reference::random::Random;

/// The most bytes that it reads.
const MOST: usize = 65_536;

/// How many inputs ran, and how many of the random ones were right, had a bad record, and were refused for their constraint.
#[derive(Default)]
pub struct Tally {
    pub inputs: u64,
    pub right: u64,
    pub record: u64,
    pub refused: u64,
    pub other: u64,
}

/// The words of a list behind their count.
fn counted(list: &[u32]) -> Vec<u32> {
    [&[list.len() as u32], list].concat()
}

/// The words of a hand-in as the program reads them.
fn input(hand_in: &HandIn) -> Vec<u32> {
    [counted(&hand_in.words), counted(&hand_in.table), hand_in.edges.clone()].concat()
}

/// The line for the reply to a hand-in.
fn line(hand_in: &HandIn) -> String {
    let reply = reference(hand_in);
    match reply.number {
        0 => "right\n".to_string(),
        20 => format!("record {}\n", reply.place),
        number => format!("refused {number} at {}\n", reply.place),
    }
}

/// The line for words: they are parted by their counts, if they can be.
fn line_of(words: &[u32]) -> String {
    let part = |list: &[u32]| {
        let (count, rest) = list.split_first()?;
        let (front, behind) = rest.split_at_checked(*count as usize)?;
        Some((front.to_vec(), behind.to_vec()))
    };
    let parted = part(words).and_then(|(constraint, rest)| part(&rest).map(|(table, edges)| HandIn { words: constraint, table, edges }));
    match parted {
        _ if 4 * words.len() > MOST => "too long\n".to_string(),
        Some(hand_in) => line(&hand_in),
        None => "bad length\n".to_string(),
    }
}

/// Exercise P as it is drawn.
fn exercise() -> HandIn {
    HandIn::new(&words(&[(1, 1)], 0), &[1, 0, 0, 0, 0], &[TRUE, FALSE])
}

/// Lengths around the ends of the room, with known lines: P with edges up to a length in bytes, and zeros, which are no constraint words and no table.
fn lengths(tally: &mut Tally) {
    let p = bytes_of(&input(&exercise()));
    for (length, wanted) in [
        (p.len(), "right\n"),
        (p.len() - 1, "bad length\n"),
        (p.len() + 3, "bad length\n"),
        (p.len() + 4, "right\n"),
        (p.len() - 4, "record 0\n"),
        (MOST - 4, "right\n"),
        (MOST - 1, "bad length\n"),
        (MOST, "right\n"),
        (MOST + 1, "too long\n"),
        (MOST + 3, "too long\n"),
        (MOST + 4, "too long\n"),
        (2 * MOST, "too long\n"),
        (4 * MOST + 1, "too long\n"),
    ] {
        let mut bytes = p.clone();
        bytes.resize(length, 0xC0);
        expect("mark", &bytes, wanted);
        tally.inputs += 1;
    }
    for (length, wanted) in
        [(0, "bad length\n"), (1, "bad length\n"), (4, "bad length\n"), (8, "refused 1 at 0\n"), (MOST, "refused 1 at 0\n")]
    {
        expect("mark", &vec![0; length], wanted);
        tally.inputs += 1;
    }
}

/// Counts that say more words than follow, and one that is missing.
fn counts(tally: &mut Tally) {
    let cases: [(&[u32], &str); 14] = [
        (&[1], "bad length\n"),
        (&[u32::MAX], "bad length\n"),
        (&[2, 0], "bad length\n"),
        (&[3, 0, 0x4001_0001], "bad length\n"),
        (&[2, 0, 0x4001_0001], "bad length\n"),
        (&[2, 1, 0x4001_0001], "bad length\n"),
        (&[2, 0, 0x4001_0001, 1], "bad length\n"),
        (&[2, 0, 0x4001_0001, 6, 1, 0, 0, 0, 0], "bad length\n"),
        (&[2, 0, 0x4001_0001, u32::MAX, 1, 0, 0, 0, 0], "bad length\n"),
        (&[0x4000_0000, 0, 0x4001_0001, 0], "bad length\n"),
        (&[2, 0, 0x4001_0001, 0x4000_0000], "bad length\n"),
        (&[2, 0, 0x4001_0001, 0], "record 0\n"),
        (&[2, 1, 0x4001_0001, 0], "right\n"),
        (&[1, 0, 0, 1, 2, 3], "refused 3 at 1\n"),
    ];
    for (words, wanted) in cases {
        expect("mark", &bytes_of(words), wanted);
        tally.inputs += 1;
    }
}

/// A hand-in of the encoder, of which some have damaged constraint words, some have a record of zeros more, and some have other words in the table or among the edges.
fn hand_in(r: &mut Random, k: u64) -> HandIn {
    let words = match k % 8 {
        0 => signed::large(r),
        1 | 2 => constraint(r).words(),
        _ => small(r),
    };
    let (mut h, _) = HandIn::encoded(&words, r.once_in(5) as usize);
    if r.once_in(8) {
        damage(r, &mut h.words);
    }
    for _ in 0..r.below(3) {
        h.damage(r);
    }
    h
}

/// Random hand-ins, of which one in ten is cut or has another count.
fn random(r: &mut Random, tally: &mut Tally, count: u64) {
    for k in 0..count {
        let h = hand_in(r, k);
        let mut words = input(&h);
        let place = h.words.len() + 1;
        match r.below(30) {
            0 => words.truncate(r.below(words.len() as u64) as usize),
            1 => words[0] = words[0].wrapping_add(r.from(-2, 2) as u32),
            2 => words[place] = words[place].wrapping_add(r.from(-6, 6) as u32),
            _ => {}
        }
        let wanted = line_of(&words);
        expect("mark", &bytes_of(&words), &wanted);
        let counted = match wanted.split(' ').next() {
            Some("right\n") => &mut tally.right,
            Some("record") => &mut tally.record,
            Some("refused") => &mut tally.refused,
            _ => &mut tally.other,
        };
        *counted += 1;
        tally.inputs += 1;
    }
}

/// All inputs.
pub fn program(r: &mut Random, count: u64) -> Tally {
    let mut tally = Tally::default();
    lengths(&mut tally);
    counts(&mut tally);
    random(r, &mut tally, count);
    tally
}

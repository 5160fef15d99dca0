//! Random constraints as students write them, with every relation, signs and lower ends, and the words of such constraints damaged.

use crate::inputs::{self, constraint};
use reference::constraint::{Constraint, Term};
use reference::random::Random;
use reference::written::{Relation, Summand, Written};

/// The farthest lower ends.
const ENDS: [i64; 2] = [-1_000_000, 1_000_000];

/// Payloads of lower ends: the farthest, one beyond each, 0, and the least and greatest of all.
const LOWER_ENDS: [u32; 7] = [0x1FF0_BDC0, 0x200F_4240, 0x1FF0_BDBF, 0x200F_4241, 0x2000_0000, 0, 0x3FFF_FFFF];

/// A lower end of a kind: near 0, a farthest one, any.
fn lower_end(r: &mut Random, kind: u64) -> i64 {
    match kind {
        0 => r.from(-9, 9),
        1 => *r.pick(&ENDS),
        _ => r.from(ENDS[0], ENDS[1]),
    }
}

/// A constraint with the terms of the base form, but for signs and lower ends, whose bound becomes the one given, as far as words can say it.
fn over(r: &mut Random, base: &Constraint, bound: i64) -> Written {
    let kind = r.below(3);
    let mut summand = |a: i64, d: i64| {
        let low = if r.once_in(3) { 0 } else { lower_end(r, kind) };
        Summand { factor: if r.once_in(2) { -a } else { a }, low, d }
    };
    let terms = base.terms.iter().map(|t| summand(t.a, t.d)).collect();
    let mut w = Written { relation: *r.pick(&Relation::ALL), bound: 0, terms };
    let most = if w.relation == Relation::AtMost { 0x3FFF_FFFF } else { 0x1FFF_FFFF };
    w.bound = (w.relation.turn() * (bound - w.base().bound)).clamp(-0x2000_0000, most);
    w
}

/// A constraint whose diagram stays small.
pub fn written(r: &mut Random) -> Written {
    let base = constraint(r);
    let bound = match r.below(8) {
        0 => -1,
        1 => -r.from(1, 5_000_000_000_000),
        2 => r.from(1, 5_000_000_000_000),
        _ => base.bound,
    };
    over(r, &base, bound)
}

/// A constraint with at most 1,024 choices of values, whose bound lies from one below the least sum up to the greatest.
pub fn few(r: &mut Random) -> Written {
    let (most, d, a) = *r.pick(&[(1, 15, 65_535), (2, 8, 300), (3, 5, 65_535), (5, 3, 9), (10, 1, 40)]);
    let terms = (0..r.from(1, most)).map(|_| Term { a: r.from(1, a), d: r.from(1, d) }).collect();
    let base = Constraint { bound: 0, terms };
    let bound = r.from(-1, base.rest(0));
    over(r, &base, bound)
}

/// The words of a constraint, some with words that could be left out.
pub fn spelled(r: &mut Random, w: &Written) -> Vec<u32> {
    let often = r.from(1, 4) as u64;
    w.words(|| r.once_in(often))
}

/// The words of a constraint whose diagram stays small.
pub fn small(r: &mut Random) -> Vec<u32> {
    let w = written(r);
    spelled(r, &w)
}

/// Words with a relation, signs and lower ends that say a constraint of this base form.
pub fn of_base(r: &mut Random, base: &Constraint) -> Vec<u32> {
    loop {
        let w = over(r, base, base.bound);
        if w.base() == *base {
            return spelled(r, &w);
        }
    }
}

/// The words of a constraint with hundreds to thousands of nodes.
pub fn large(r: &mut Random) -> Vec<u32> {
    let base = inputs::large(r);
    of_base(r, &base)
}

/// A word of one of the new kinds, which may or may not say something.
fn new_word(r: &mut Random) -> u32 {
    match r.below(4) {
        0 => 3 << 30 | r.below(6) as u32,
        1 => 3 << 30 | r.word() >> 2,
        _ => 2 << 30 | *r.pick(&LOWER_ENDS),
    }
}

/// Terms with lower ends behind the words, up to a number of terms around the limit.
fn lengthen(r: &mut Random, words: &mut Vec<u32>) {
    let terms = words.iter().filter(|w| *w >> 30 == 1).count();
    for _ in terms..r.from(63, 66) as usize {
        if !r.once_in(8) {
            words.push(2 << 30 | LOWER_ENDS[r.below(2) as usize]);
        }
        words.push(1 << 30 | (r.below(2) as u32) << 29 | 0x1_0001);
    }
}

/// Changes the word at a place.
fn change(r: &mut Random, word: &mut u32) {
    match (*word >> 30, r.below(5)) {
        (_, 0) => *word ^= 1 << r.below(32),
        (1, 1) => *word = *word & 0xE000_FFFF | (*r.pick(&[0, 15, 16, 0x1FFF]) as u32) << 16,
        (1, 2) => *word &= 0xFFFF_0000,
        (1, _) => *word ^= 1 << 29,
        (2, _) => *word = 2 << 30 | *r.pick(&LOWER_ENDS),
        (3, _) => *word = 3 << 30 | *r.pick(&[4, 5, 0x3FFF_FFFF, 0, 3]),
        _ => *word = *r.pick(&[0, 0x1FFF_FFFF, 0x2000_0000, 0x3FFF_FFFF]),
    }
}

/// Changes the words in up to three ways, so that they often state no constraint for more than one reason.
pub fn damage(r: &mut Random, words: &mut Vec<u32>) {
    for _ in 0..r.from(1, 3) {
        let at = r.below(words.len() as u64 + 1) as usize;
        match r.below(12) {
            0 | 1 => words.insert(at, new_word(r)),
            2 => words.push(new_word(r)),
            3 if at < words.len() => drop(words.remove(at)),
            4 if at > 0 => words.insert(at, words[at - 1]),
            5 if at > 0 && at < words.len() => words.swap(at - 1, at),
            6 => words.truncate(at),
            7 if r.once_in(2) => lengthen(r, words),
            _ if at < words.len() => change(r, &mut words[at]),
            _ => {}
        }
    }
}

/// The words of a small constraint, damaged.
pub fn damaged(r: &mut Random) -> Vec<u32> {
    let mut words = small(r);
    damage(r, &mut words);
    words
}

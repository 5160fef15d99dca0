//! Random constraints, valid and damaged, and damaged clause lists.

use reference::constraint::{Constraint, Term};
use reference::random::Random;

/// A valid constraint whose diagram stays small: few terms of any size, or many small ones.
pub fn constraint(r: &mut Random) -> Constraint {
    let (most, d, a) = match r.below(6) {
        0 => (3, 15, 65_535),
        1 => (4, 15, 300),
        2 => (6, 5, 20),
        3 => (64, 2, 2),
        4 => (8, 3, 40),
        _ => (6, 1, 65_535),
    };
    let n = r.from(1, most);
    let alike = r.once_in(5).then(|| r.from(1, a));
    let terms = (0..n).map(|_| Term { a: alike.unwrap_or(r.from(1, a)), d: r.from(1, d) }).collect();
    let mut c = Constraint { bound: 0, terms };
    let greatest = c.rest(0);
    c.bound = match r.below(12) {
        0 => 0,
        1 => greatest - 1,
        2 => greatest,
        3 => 1_073_741_823,
        _ => r.from(0, greatest),
    };
    c
}

/// A valid constraint with hundreds to thousands of nodes.
pub fn large(r: &mut Random) -> Constraint {
    let n = r.from(7, 10);
    let terms = (0..n).map(|_| Term { a: r.from(1, 3_000), d: r.from(1, 7) }).collect();
    let mut c = Constraint { bound: 0, terms };
    c.bound = r.from(c.rest(0) / 8, c.rest(0) * 7 / 8);
    c
}

/// Changes the words so that they often state no constraint.
pub fn damage(r: &mut Random, words: &mut Vec<u32>) {
    for _ in 0..r.from(1, 3) {
        let at = if words.is_empty() { 0 } else { r.below(words.len() as u64) as usize };
        match r.below(10) {
            0 => words.clear(),
            1 => words.truncate(1),
            2 => words.resize(r.from(60, 70) as usize, 0x4001_0001),
            3 | 4 if !words.is_empty() => words[at] = words[at] & 0x3FFF_FFFF | r.word() & 0xC000_0000,
            5 if at > 0 => words[at] &= 0xC000_FFFF,
            6 if at > 0 => words[at] = words[at] & 0xC000_FFFF | (r.from(14, 17) as u32) << 16,
            7 if at > 0 => words[at] = words[at] & 0xC000_FFFF | r.word() & 0x3FFF_0000,
            8 if at > 0 => words[at] &= 0xFFFF_0000,
            9 if !words.is_empty() => words[at] = r.word(),
            _ => {}
        }
    }
}

/// The words of a small constraint, damaged.
pub fn damaged(r: &mut Random) -> Vec<u32> {
    let mut words = constraint(r).words();
    damage(r, &mut words);
    words
}

/// Changes one word or the end of the list.
pub fn damage_list(r: &mut Random, words: &mut Vec<u32>, n: u64) {
    let at = r.below(words.len() as u64 + 1) as usize;
    let sign = (r.below(2) as u32) << 29;
    match r.below(7) {
        0 => words.truncate(at),
        1 => words.insert(at, 2 << 30 | sign),
        2 => words.insert(at, 2 << 30 | sign | (n + r.below(2)) as u32),
        3 => words.insert(at, 3 << 30 | r.below(4) as u32),
        4 => words.insert(at, r.word()),
        5 => words.insert(at, *r.pick(&[0x1FFF_FFFF | 2 << 30, u32::MAX, 0, 0x7FFF_FFFF, 3 << 30])),
        _ if at < words.len() => words[at] ^= 1 << r.below(32),
        _ => {}
    }
}

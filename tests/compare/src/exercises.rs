//! The specification's exercises and the limits, with what it says of them.

use crate::call::{both, differ, hex, Given};
use reference::diagram::RECORD;
use reference::encode::Build;
use reference::random::Random;
use reference::{maps, sums};

/// Room enough for every exercise.
pub const ROOM: [usize; 3] = [RECORD * 1_024, 8_192, 16_384];

/// The words of terms (a, d) and a bound.
pub fn words(terms: &[(u32, u32)], bound: u32) -> Vec<u32> {
    std::iter::once(bound).chain(terms.iter().map(|(a, d)| 1 << 30 | d << 16 | a)).collect()
}

/// Ends the program unless the fact holds.
pub fn hold(fact: bool, name: &str, g: &Given) {
    if !fact {
        let front = |list: &[u32]| hex(&list[..list.len().min(64)]);
        differ(name, format!("{:?}\ntable {}\nclauses {}", g.reply, front(&g.table), front(&g.clauses)));
    }
}

/// The labels in the table.
pub fn labels(g: &Given) -> Vec<(u32, u32, u32)> {
    g.records().map(|r| (r[0], r[1], r[2])).collect()
}

/// One exercise, asked of the archive and of the reference with both its ways to build; its counts of nodes and words are the specification's.
fn exercise(r: &mut Random, name: &str, terms: &[(u32, u32)], bound: u32, nodes: u64, count: u64) -> Given {
    let w = words(terms, bound);
    both(r, maps::build, &w, ROOM);
    let g = both(r, sums::build, &w, ROOM);
    hold((g.reply.number, g.reply.nodes, g.reply.words) == (0, nodes, count), name, &g);
    g
}

/// Rows P to ZZ; gives how many.
pub fn rows(r: &mut Random) -> u64 {
    const T: u32 = 0xC000_0001;
    const F: u32 = 0xC000_0000;
    let p = exercise(r, "P", &[(1, 1)], 0, 1, 13);
    hold(p.table[..6] == [1, 0, 0, 0, 0, 0] && p.edges[..3] == [T, F, 0], "P's diagram", &p);
    let list = "80000002 C0000001 A0000003 C0000001 80000004 C0000001 A0000004 80000002 C0000002 A0000004 80000001 80000003 C0000003";
    hold(hex(&p.clauses[..13]) == list, "P's clauses", &p);
    exercise(r, "Q", &[(1, 1)], 1, 0, 6);
    let two = [(2, 2), (5, 3)];
    let a = exercise(r, "R", &two, 12, 3, 56);
    hold(labels(&a) == [(1, 12, 13), (2, 5, 9), (2, 10, 14)], "R's labels", &a);
    hold(a.edges[..11] == [2, 2, 1, T, T, F, F, T, T, T, F], "R's edges", &a);
    hold(a.entering() == [0, 1, 2], "R's counts of entering edges", &a);
    let b = exercise(r, "S", &two, 13, 3, 56);
    hold(a.table == b.table && a.edges == b.edges && a.clauses == b.clauses, "S as R", &b);
    let u = exercise(r, "U", &two, 11, 3, 56);
    hold(labels(&u)[0] == (1, 10, 11) && u.edges[..3] == [2, 1, 1] && u.entering() == [0, 2, 1], "U's root", &u);
    let v = exercise(r, "V", &[(4, 1), (2, 1), (5, 1), (4, 1)], 9, 6, 48);
    hold(labels(&v) == [(1, 9, 9), (2, 5, 5), (2, 9, 10), (3, 0, 3), (3, 5, 8), (4, 0, 3)], "V's labels", &v);
    hold(v.entering() == [0, 1, 1, 1, 2, 2], "V's counts of entering edges", &v);
    let w = exercise(r, "W", &[(1, 1), (5, 1)], 3, 2, 20);
    hold(labels(&w)[0] == (1, 1, 4) && w.edges[..2] == [1, 1] && w.entering() == [0, 2], "W's root", &w);
    let x = both(r, sums::build, &words(&[(1, 1), (1, 0)], 1), ROOM);
    hold((x.reply.number, x.reply.place, x.reply.words) == (4, 2, 0), "X", &x);
    let most = [(65_535, 15); 64];
    let y = exercise(r, "Y", &most, 0, 64, 6_726);
    let z = exercise(r, "Z", &most, 62_913_599, 64, 6_726);
    hold(labels(&z)[0] == (1, 62_848_065, 62_913_599), "Z's root", &z);
    let one_each: Vec<u32> = [0].into_iter().chain([1; 63]).collect();
    hold(y.entering() == one_each && z.entering() == one_each, "one edge into each level of Y and Z", &z);
    exercise(r, "ZZ", &most, 62_913_600, 0, 2_694);
    11
}

/// Exercises P, Q and R in lists that just fit, are one word short or have words behind the last full record; gives how many calls.
pub fn rooms(r: &mut Random) -> u64 {
    let (p, q, two) = (words(&[(1, 1)], 0), words(&[(1, 1)], 1), words(&[(2, 2), (5, 3)], 12));
    let cases = [
        (&p, [5, 2, 13], 0),
        (&p, [9, 2, 13], 0),
        (&p, [3, 2, 13], 6),
        (&p, [4, 2, 13], 6),
        (&p, [5, 1, 13], 7),
        (&p, [5, 2, 12], 8),
        (&p, [0, 0, 0], 6),
        (&q, [0, 0, 6], 0),
        (&q, [4, 0, 6], 0),
        (&q, [0, 0, 0], 8),
        (&two, [15, 11, 56], 0),
        (&two, [16, 11, 56], 0),
        (&two, [12, 11, 56], 6),
        (&two, [14, 0, 0], 6),
        (&two, [15, 10, 0], 7),
        (&two, [19, 11, 55], 8),
    ];
    for (w, lengths, number) in &cases {
        for build in [sums::build as Build, maps::build] {
            let g = both(r, build, w, *lengths);
            hold((g.reply.number, g.reply.place) == (*number, 0), &format!("{} in {lengths:?} words", hex(w)), &g);
        }
    }
    cases.len() as u64
}

/// Both ends of each limit of the words, and the order of the checks; gives how many.
pub fn limits(r: &mut Random) -> u64 {
    let one = 0x4001_0001;
    let mut cases: Vec<(Vec<u32>, u64, u64)> = vec![
        (vec![], 1, 0),
        (vec![one], 2, 0),
        (vec![5], 3, 1),
        (vec![0x4000_0000, one], 2, 0),
        (vec![0x3FFF_FFFF, one], 0, 0),
        (vec![0, 0x4010_0001], 4, 1),
        (vec![0, 0x400F_0001], 0, 0),
        (vec![0, 0x7FFF_0001], 4, 1),
        (vec![0, 0x4000_0000], 4, 1),
        (vec![0, 0x4001_0000], 5, 1),
        (vec![0, 0x4001_FFFF], 0, 0),
        (vec![0, one, 0x4001_0000, 0x4000_0001], 5, 2),
        (vec![0, one, 0x4000_0001, 0x4001_0000], 4, 2),
    ];
    for n in [1, 63, 64] {
        cases.push((words(&vec![(1, 1); n], 0), 0, 0));
        cases.push((words(&vec![(65_535, 15); n], 0x3FFF_FFFF), 0, 0));
    }
    for n in [65, 66, 99] {
        cases.push((words(&vec![(1, 1); n], 0), 3, n as u64 + 1));
    }
    let mut late = words(&[(1, 1); 99], 0);
    late[80] = 0;
    cases.push((late, 2, 80));
    for (w, number, place) in &cases {
        for build in [sums::build as Build, maps::build] {
            let g = both(r, build, w, ROOM);
            hold((g.reply.number, g.reply.place) == (*number, *place), &hex(w), &g);
        }
    }
    cases.len() as u64
}

/// Levels of nine and more nodes whose lower ends agree after division by sixteen; gives how many.
pub fn crowded(r: &mut Random) -> u64 {
    let cases = [
        (vec![(1, 15), (1, 15)], 8, 0),
        (vec![(1, 15), (1, 15)], 14, 0),
        (vec![(1, 8), (1, 15), (1, 15), (1, 15)], 40, 2),
        (vec![(1, 15), (1, 15), (3, 15), (7, 9)], 79, 4),
    ];
    for (terms, bound, block) in &cases {
        let w = words(terms, *bound);
        both(r, maps::build, &w, ROOM);
        let g = both(r, sums::build, &w, ROOM);
        let met = labels(&g).iter().filter(|(level, low, _)| *level == 2 && low / 16 == *block).count();
        hold(met >= 9, &format!("a level with {met} nodes in block {block}"), &g);
        for level in 0..=terms.len() as u32 + 1 {
            for remainder in 0..=bound + 1 {
                crate::finder::find_both(&g.table, level, remainder);
            }
        }
    }
    cases.len() as u64
}

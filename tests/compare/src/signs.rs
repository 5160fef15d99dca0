//! Request Five: its examples, the limits of its words and the order of its checks, with what follows from the request.

use crate::call::{both, hex, Given};
use crate::exercises::{hold, labels, ROOM};
use crate::show::lines;
use reference::encode::Build;
use reference::random::Random;
use reference::{maps, sums};

/// Words, the refusal's number and its place.
pub const REFUSED: &[(&str, u64, u64)] = &[
    // The examples.
    ("00000000 C0000004 00000000", 2, 2),
    ("00000000 C0000004 A0000000 40010001", 17, 1),
    ("00000000 C0000004 A00F4241 40010001", 17, 1),
    ("00000000 A00F4241 40010001", 18, 1),
    ("00000000 A00F4241 C0000004", 2, 2),
    ("00000000 9FFFFFFF 9FFFFFFF 40010001", 2, 2),
    ("00000000 A0000001", 2, 2),
    ("00000000 C0000000", 3, 2),
    ("00000000 60000001", 4, 1),
    ("C0000000", 2, 0),
    // 2: words out of their places.
    ("A0000000", 2, 0),
    ("A0000000 40010001", 2, 0),
    ("60010001 40010001", 2, 0),
    ("00000000 00000000 40010001", 2, 1),
    ("00000000 40010001 00000000", 2, 2),
    ("20000000 C0000000 00000000 40010001", 2, 2),
    ("20000000 C0000000 C0000000 40010001", 2, 2),
    ("20000000 40010001 C0000000", 2, 2),
    ("20000000 A0000000 C0000000 40010001", 2, 2),
    ("20000000 A0000000 00000000 40010001", 2, 2),
    ("20000000 C0000000 40010001 C0000000 40010001", 2, 3),
    ("20000000 C0000000 A0000000 A0000000 40010001", 2, 3),
    // 2: a lower end stands last, or a second one does.
    ("20000000 C0000000 A0000000", 2, 3),
    ("00000000 40010001 A0000000", 2, 3),
    ("20000000 C0000000 A0000000 40010001 A0000000", 2, 5),
    ("00000000 A0000000 A0000000", 2, 2),
    ("00000000 40010001 A0000000 A0000000", 2, 3),
    // 2 before 17, 18, 3, 4 and 5, wherever it is.
    ("00000000 C0000004 A0000000", 2, 3),
    ("00000000 C0000004 40010001 00000000", 2, 3),
    ("00000000 C0000004 C0000004", 2, 2),
    ("00000000 A00F4241", 2, 2),
    ("00000000 A00F4241 40010001 A0000000", 2, 4),
    ("00000000 40000001 A0000000", 2, 3),
    ("00000000 40010000 C0000000", 2, 2),
    // 17 and 18, the earlier word first.
    ("20000000 FFFFFFFF 40010001", 17, 1),
    ("20000000 E0000000 40010001", 17, 1),
    ("20000000 C0000003 A00F4241 40010001", 18, 2),
    ("20000000 C0000004 40010001 9FF0BDBF 40010001", 17, 1),
    ("00000000 9FF0BDBF 40010001", 18, 1),
    ("00000000 80000000 40010001", 18, 1),
    ("00000000 BFFFFFFF 40010001", 18, 1),
    ("00000000 A00F4240 40010001 9FF0BDBF 40010001 A00F4241 40010001", 18, 3),
    // 17 and 18 before 3, 4 and 5.
    ("00000000 C0000004", 17, 1),
    ("20000000 C0000004 60000000", 17, 1),
    ("00000000 40000001 A00F4241 40010001", 18, 2),
    ("00000000 60010000 9FF0BDBF 40000000", 18, 2),
    // 3, 4 and 5: places count all words, and d is read without the sign.
    ("20000000 C0000003", 3, 2),
    ("00000000 60000000", 4, 1),
    ("00000000 60100001", 4, 1),
    ("00000000 5FFF0001", 4, 1),
    ("00000000 7FFFFFFF", 4, 1),
    ("00000000 60010000", 5, 1),
    ("20000000 C0000002 A0000001 40010001 A0000001 40100001", 4, 5),
    ("20000000 C0000002 A0000001 40010001 60010000", 5, 4),
    ("20000000 C0000000 A0000000 60010000 60000001", 5, 3),
    ("20000000 C0000000 A0000000 60000000 60010000", 4, 3),
];

/// What exercise R prints.
const R: &str = "nodes 3 edges 11 words 56\n0 1 12 13 0 2 2 1\n1 2 5 9 1 T T F F\n2 2 10 14 2 T T T F\n";

/// The last clause of exercise R.
const R_LAST: &str = "A000000A 80000005 80000007 C0000003";

/// What is printed for one term of two values: where there is no node, and where only the value that the base form counts from satisfies the constraint.
const NONE: &str = "nodes 0 edges 0 words 6\n";
const ONE: &str = "nodes 1 edges 2 words 13\n0 1 0 0 0 T F\n";

/// The last clauses there: the root is F, it is T, or it is the node, whose second child is F.
const NEVER: &str = "80000003 C0000001";
const ALWAYS: &str = "80000002 C0000001";
const ONE_LAST: &str = "A0000004 80000001 80000003 C0000003";

/// Words, what `show` prints for them, and the last clause, which is the root's own where there is no node.
pub const DRAWN: &[(&str, &str, &str)] = &[
    // The examples: 3u - 2v >= -4 with u 0..4 and v -2..5; y > 3 and y >= 3 with y 0..3; -y <= 5.
    (
        "1FFFFFFC C0000002 40040003 9FFFFFFE 60070002",
        "nodes 3 edges 21 words 114\n0 1 20 20 0 T T T 2 1\n1 2 8 9 1 T T T T T F F F\n2 2 10 11 1 T T T T T T F F\n",
        "A0000010 8000000B 8000000D C0000003",
    ),
    ("20000003 C0000003 40030001", "nodes 0 edges 0 words 12\n", "80000005 C0000001"),
    ("20000003 C0000002 40030001", "nodes 1 edges 4 words 27\n0 1 0 0 0 T F F F\n", "A0000006 80000003 80000005 C0000003"),
    ("00000005 60010001", NONE, ALWAYS),
    // y < 3 and y <= 3; -y <= -3.
    ("20000003 C0000001 40030001", "nodes 1 edges 4 words 27\n0 1 2 2 0 T T T F\n", "A0000006 80000003 80000005 C0000003"),
    ("20000003 C0000000 40030001", "nodes 0 edges 0 words 12\n", "80000004 C0000001"),
    ("1FFFFFFD C0000000 60030001", "nodes 1 edges 4 words 27\n0 1 0 0 0 T F F F\n", "A0000006 80000003 80000005 C0000003"),
    // y 1..2 is at most 0, and at most 1; y 1,000,000..1,000,001 is at least its upper end; -y, y -1,000,000..-999,999, is more than 999,999.
    ("00000000 A0000001 40010001", NONE, NEVER),
    ("00000001 A0000001 40010001", ONE, ONE_LAST),
    ("200F4241 C0000002 A00F4240 40010001", ONE, ONE_LAST),
    ("200F423F C0000003 9FF0BDC0 60010001", ONE, ONE_LAST),
    // The least and the greatest bound, with each relation, and without one.
    ("00000000 C0000000 40010001", NONE, NEVER),
    ("3FFFFFFF C0000000 40010001", NONE, ALWAYS),
    ("00000000 C0000001 40010001", NONE, NEVER),
    ("3FFFFFFF C0000001 40010001", NONE, ALWAYS),
    ("00000000 C0000002 40010001", NONE, ALWAYS),
    ("3FFFFFFF C0000002 40010001", NONE, NEVER),
    ("00000000 C0000003 40010001", NONE, ALWAYS),
    ("3FFFFFFF C0000003 40010001", NONE, NEVER),
    ("20000000 60010001", NONE, ALWAYS),
    ("20000000 A0000001 40010001", NONE, ALWAYS),
    ("3FFFFFFF A00F4240 400F0001", "nodes 0 edges 0 words 48\n", "80000010 C0000001"),
    // Exercise R: at most 12, less than 13; its negative, at least -12 and greater than -13; u from -7 and v from 100; v taken away; a lower end of 0.
    ("2000000C C0000000 40020002 40030005", R, R_LAST),
    ("2000000D C0000001 40020002 40030005", R, R_LAST),
    ("1FFFFFF4 C0000002 60020002 60030005", R, R_LAST),
    ("1FFFFFF3 C0000003 60020002 60030005", R, R_LAST),
    ("000001F2 9FFFFFF9 40020002 A0000064 40030005", R, R_LAST),
    ("1FFFFFFD C0000000 40020002 60030005", R, R_LAST),
    ("0000000C A0000000 40020002 A0000000 40030005", R, R_LAST),
];

/// The words of a text.
pub fn words(text: &str) -> Vec<u32> {
    text.split(' ').map(|w| u32::from_str_radix(w, 16).unwrap()).collect()
}

/// Calls both encoders, the reference with each of its ways to build.
fn ask(r: &mut Random, w: &[u32]) -> Given {
    both(r, sums::build as Build, w, ROOM);
    both(r, maps::build, w, ROOM)
}

/// A bound word, the relation word if any, and as many pairs of a lower end and a term.
fn long(bound: u32, relation: Option<u32>, terms: usize, lower_end: u32, term: u32) -> Vec<u32> {
    let front = [bound].into_iter().chain(relation);
    front.chain((0..terms).flat_map(|_| [lower_end, term])).collect()
}

/// Lists around 64 terms with their refusal, or with 0.
fn long_lists() -> Vec<(Vec<u32>, u64, u64)> {
    let (at_most, none, zero, one) = (0xC000_0000, 0xC000_0004, 0xA000_0000, 0x4001_0001);
    let mut late = long(0, Some(none), 65, zero, one);
    late[129] = at_most;
    let mut last = long(0, Some(at_most), 65, zero, one);
    last[130] = 0xA00F_4241;
    let bare = |n: usize| [0, at_most].into_iter().chain(vec![one; n]).collect::<Vec<u32>>();
    let mut one_bare = long(0, Some(at_most), 65, zero, one);
    one_bare.remove(2);
    vec![
        (bare(65), 3, 67),
        (bare(64), 0, 0),
        (long(0, Some(at_most), 64, zero, one), 0, 0),
        (long(0, None, 64, zero, one), 0, 0),
        (long(0, Some(at_most), 65, zero, one), 3, 132),
        (one_bare, 3, 131),
        (long(0, None, 65, zero, one), 3, 131),
        (long(0, Some(none), 65, zero, one), 17, 1),
        (last, 18, 130),
        (late, 2, 129),
        (long(0, Some(at_most), 65, zero, 0x6000_0000), 3, 132),
        (long(0, Some(at_most), 64, zero, 0x6000_0000), 4, 3),
    ]
}

/// The refusals; gives how many lists.
pub fn refused(r: &mut Random) -> u64 {
    let mut cases: Vec<(Vec<u32>, u64, u64)> = REFUSED.iter().map(|(text, number, place)| (words(text), *number, *place)).collect();
    cases.extend(long_lists());
    for (w, number, place) in &cases {
        let g = ask(r, w);
        hold((g.reply.number, g.reply.place) == (*number, *place), &hex(w), &g);
    }
    cases.len() as u64
}

/// The diagrams; gives how many.
pub fn drawn(r: &mut Random) -> u64 {
    for (text, wanted, last) in DRAWN {
        let g = ask(r, &words(text));
        let end = g.reply.words as usize;
        let length = last.split(' ').count();
        hold(g.reply.number == 0 && lines(&g) == *wanted && hex(&g.clauses[end - length..end]) == *last, text, &g);
    }
    DRAWN.len() as u64
}

// A lower end of 1,000,000, and one whose upper end that is; the widest term, added and taken away.
const HIGHEST: u32 = 0xA00F_4240;
const UP_TO_HIGHEST: u32 = 0xA00F_4231;
const PLUS: u32 = 0x400F_FFFF;
const MINUS: u32 = 0x600F_FFFF;

/// 64 widest terms by turns, counted from 1,000,000 in both directions, so that the bound stays what it is in the base form: exercises Y, Z and ZZ, and a bound one below
/// Y's, each as at most, less and at least. Gives how many.
pub fn balanced(r: &mut Random) -> u64 {
    let turns = |bound: i64, relation: u32, terms: [[u32; 2]; 2]| -> Vec<u32> {
        [(bound + 0x2000_0000) as u32, 3 << 30 | relation].into_iter().chain([terms; 32].into_iter().flatten().flatten()).collect()
    };
    let (plain, turned) = ([[HIGHEST, PLUS], [UP_TO_HIGHEST, MINUS]], [[HIGHEST, MINUS], [UP_TO_HIGHEST, PLUS]]);
    let exercises = [(0, 64, 6_726), (62_913_599, 64, 6_726), (62_913_600, 0, 2_694), (-1, 0, 2_694)];
    for (bound, nodes, count) in exercises {
        for w in [turns(bound, 0, plain), turns(bound + 1, 1, plain), turns(-bound, 2, turned)] {
            let g = both(r, maps::build, &w, ROOM);
            hold((g.reply.nodes, g.reply.words) == (nodes, count), &format!("bound {bound} between farthest ends"), &g);
            hold(bound != 62_913_599 || labels(&g)[0] == (1, 62_848_065, 62_913_599), "Z's root between farthest ends", &g);
        }
    }
    3 * exercises.len() as u64
}

/// 64 widest terms that leave base bounds as far from 0 as they go; T is Boolean 961 and F is 962. Gives how many.
pub fn farthest(r: &mut Random) -> u64 {
    let cases = [
        (0, 0, HIGHEST, PLUS, 962),
        (0x3FFF_FFFF, 0, HIGHEST, MINUS, 961),
        (0x3FFF_FFFF, 3, 0x9FF0_BDC0, PLUS, 962),
        (0, 2, HIGHEST, PLUS, 961),
    ];
    for (bound, relation, lower_end, term, root) in cases {
        let g = ask(r, &long(bound, Some(3 << 30 | relation), 64, lower_end, term));
        hold((g.reply.nodes, g.reply.words, g.clauses[2_692]) == (0, 2_694, 2 << 30 | root), "a farthest base bound", &g);
    }
    cases.len() as u64
}

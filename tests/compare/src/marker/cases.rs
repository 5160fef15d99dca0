//! Hand-ins whose replies the specification and the request give, or which follow from their sentences, worked out by hand.

use super::{bad, refused, HandIn, Tally, RIGHT};
use crate::signs;
use archive::Marked;
use reference::diagram::{FALSE, TRUE};

/// The exercises of the specification.
const P: &str = "00000000 40010001";
const Q: &str = "00000001 40010001";
const R: &str = "0000000C 40020002 40030005";
const S: &str = "0000000D 40020002 40030005";
const U: &str = "0000000B 40020002 40030005";
const V: &str = "00000009 40010004 40010002 40010005 40010004";
const W: &str = "00000003 40010001 40010005";

/// 1[0..1] three times, at most 1, at most 2 and at most 3: R is 3, 2, 1 and, behind the last level, 0.
const ONE: &str = "00000001 40010001 40010001 40010001";
const TWO: &str = "00000002 40010001 40010001 40010001";
const THREE: &str = "00000003 40010001 40010001 40010001";

/// Request Five's 3u - 2v >= -4, whose base form is 3[0..4] + 2[0..7] at most 20.
const SIGNS: &str = "1FFFFFFC C0000002 40040003 9FFFFFFE 60070002";

/// y > 3 with y up to 3, whose base form is 1[0..3] at most -1.
const NEVER: &str = "20000003 C0000003 40030001";

/// 4,096[0..1] with lower end -1,000,000, so with a base bound of 4,096,000,000 and what the first word says: 4,294,967,295, one more, and 5,001 more.
const GREATEST: &str = "0BDBFFFF 9FF0BDC0 40011000";
const BEYOND: &str = "0BDC0000 9FF0BDC0 40011000";
const FAR_BEYOND: &str = "0BDC1388 9FF0BDC0 40011000";

/// R's records and edges as the encoder draws them.
const R_TABLE: &str = "1 12 13 0 0  2 5 9 3 1  2 10 14 7 2";
const R_EDGES: &str = "2 2 1  T T F F  T T T F";

/// Constraint words in hexadecimal; records and edges in decimal, with T and F; and the reply.
type Case = (&'static str, &'static str, &'static str, Marked);

const CASES: &[Case] = &[
    // The exercises as they are drawn; S is drawn as R.
    (P, "1 0 0 0 0", "T F", RIGHT),
    (Q, "", "", RIGHT),
    (R, R_TABLE, R_EDGES, RIGHT),
    (S, R_TABLE, R_EDGES, RIGHT),
    (U, "1 10 11 0 0  2 5 9 3 2  2 10 14 7 1", "2 1 1  T T F F  T T T F", RIGHT),
    (V, "1 9 9 0 0  2 5 5 2 1  2 9 10 4 1  3 0 3 6 1  3 5 8 8 2  4 0 3 10 2", "2 1  4 3  T 4  5 F  T 5  T F", RIGHT),
    (W, "1 1 4 0 0  2 0 4 2 2", "1 1  T F", RIGHT),
    (SIGNS, "1 20 20 0 0  2 8 9 5 1  2 10 11 13 1", "T T T 2 1  T T T T T F F F  T T T T T T F F", RIGHT),
    // Drawings that lose marks: a label from child 0 alone, T's label from 0 on, and others' roots.
    (R, "1 10 14 0 0  2 5 9 3 1  2 10 14 7 2", R_EDGES, bad(0)),
    (W, "1 1 4 0 0", "T T", bad(0)),
    (U, R_TABLE, R_EDGES, bad(0)),
    ("0000000E 40020002 40030005", R_TABLE, R_EDGES, bad(0)),
    (R, "1 10 11 0 0  2 5 9 3 2  2 10 14 7 1", "2 1 1  T T F F  T T T F", bad(0)),
    // No records: right where the bound is below 0 or at least R.
    (P, "", "", bad(0)),
    (P, "", "T F", bad(0)),
    (P, "1 0 0 0", "T F", bad(0)),
    (Q, "0 0 0 0", "7", RIGHT),
    (R, "", "", bad(0)),
    ("00000012 40020002 40030005", "", "", bad(0)),
    ("00000013 40020002 40030005", "", "", RIGHT),
    ("3FFFFFFF 40020002 40030005", "", "", RIGHT),
    (NEVER, "", "", RIGHT),
    (NEVER, "9 9 9 9", "T", RIGHT),
    ("00000000 C0000000 40010001", "", "", RIGHT),
    (FAR_BEYOND, "", "", RIGHT),
    // A decided bound with records: T may have a record, and below 0 lies in no label.
    (Q, "1 1 4294967295 0 0", "T T", RIGHT),
    (Q, "1 1 1 0 0", "T T", RIGHT),
    (Q, "1 0 1 0 0", "T T", bad(0)),
    (Q, "1 1 1 0 0", "T F", bad(0)),
    (Q, "1 2 2 0 0", "T T", bad(0)),
    (NEVER, "1 0 0 0 0", "T F F F", bad(0)),
    (NEVER, "1 4294967295 4294967295 0 0", "T T T T", bad(0)),
    (NEVER, "1 4294967295 4294967295 0 0", "F F F F", bad(0)),
    (NEVER, "1 3 4294967295 0 0", "T T T T", bad(0)),
    (THREE, "1 3 3 0 0  2 2 4294967295 2 0", "1 1  T T", RIGHT),
    (THREE, "1 3 4294967295 0 0  2 2 4294967295 2 0", "1 1  T T", RIGHT),
    (THREE, "1 3 4294967295 0 0  2 2 4294967294 2 0", "1 1  T T", bad(0)),
    (GREATEST, "1 4096 4294967295 0 0", "T T", RIGHT),
    (GREATEST, "1 4096 4294967294 0 0", "T T", bad(0)),
    (BEYOND, "1 4096 4294967295 0 0", "T T", bad(0)),
    (FAR_BEYOND, "1 4096 4294967295 0 0", "T T", bad(0)),
    // Levels from 1 to n, and 1 for record 0.
    (P, "0 0 0 0 0", "T F", bad(0)),
    (P, "2 0 0 0 0", "T F", bad(0)),
    (P, "4294967295 0 0 0 0", "T F", bad(0)),
    (P, "257 0 0 0 0", "T F", bad(0)),
    (P, "65537 0 0 0 0", "T F", bad(0)),
    ("00000000 40010001 40010001", "2 0 0 0 0", "T F", bad(0)),
    (R, "2 12 13 0 0", "T T T F", bad(0)),
    (R, "1 12 13 0 0  2 5 9 3 1  2 10 14 7 2  0 0 0 0 0", R_EDGES, bad(3)),
    (R, "1 12 13 0 0  2 5 9 3 1  2 10 14 7 2  3 10 14 7 2", R_EDGES, bad(3)),
    (R, "1 12 13 0 0  2 5 9 3 1  2 10 14 7 2  1 12 13 0 0", R_EDGES, RIGHT),
    // The lower end is not above the upper; a child without numbers makes its parent bad, and that comes first.
    (P, "1 1 0 0 0", "T F", bad(0)),
    (R, "1 12 13 0 0  2 5 9 3 1  2 10 14 7 2  2 9 5 3 1", R_EDGES, bad(3)),
    (R, "1 12 13 0 0  2 9 5 3 1  2 10 14 7 2", R_EDGES, bad(0)),
    (R, "1 12 12 0 0  2 9 8 3 1  2 10 14 7 2", R_EDGES, bad(0)),
    (ONE, "1 1 1 0 0  2 1 0 2 0", "1 1  T T", bad(0)),
    // The edges lie in the edge list, and no first place wraps.
    (P, "1 0 0 0 0", "", bad(0)),
    (P, "1 0 0 0 0", "T", bad(0)),
    (P, "1 0 0 1 0", "T F", bad(0)),
    (P, "1 0 0 2 0", "T F", bad(0)),
    (P, "1 0 0 1 0", "9 T F", RIGHT),
    (P, "1 0 0 1 0", "9 T F 9", RIGHT),
    (P, "1 0 0 4294967295 0", "T F", bad(0)),
    (P, "1 0 0 4294967295 0", "F T", bad(0)),
    (P, "1 0 0 4294967294 0", "T F", bad(0)),
    (P, "1 0 0 1073741824 0", "T F", bad(0)),
    (P, "1 0 0 2147483648 0", "T F", bad(0)),
    (P, "1 0 0 65536 0", "T F", bad(0)),
    (R, R_TABLE, "2 2 1  T T F F  T T T", bad(2)),
    (R, "1 12 13 0 0  2 5 9 4294967295 1  2 10 14 7 2", R_EDGES, bad(1)),
    // Words that are no edge: kinds 1 and 2, kind 3 but for T and F, and a record that is not there.
    (W, "1 1 4 0 0  2 0 4 2 2", "1073741825 1  T F", bad(0)),
    (W, "1 1 4 0 0  2 0 4 2 2", "1 2147483649  T F", bad(0)),
    (W, "1 1 4 0 0  2 0 4 2 2", "1 3221225474  T F", bad(0)),
    (W, "1 1 4 0 0  2 0 4 2 2", "1 4294967295  T F", bad(0)),
    (W, "1 1 4 0 0  2 0 4 2 2", "1 1  3758096385 F", bad(1)),
    (W, "1 1 4 0 0  2 0 4 2 2", "1 1  T 3758096384", bad(1)),
    (W, "1 1 4 0 0  2 0 4 2 2", "1 1  1073741825 F", bad(1)),
    (W, "1 1 4 0 0  2 0 4 2 2", "1 2  T F", bad(0)),
    (W, "1 1 4 0 0  2 0 4 2 2  2 0 4 2", "1 2  T F", bad(0)),
    (W, "1 1 4 0 0  2 0 4 2 2", "1 65537  T F", bad(0)),
    (W, "1 1 4 0 0  2 0 4 2 2", "1 257  T F", bad(0)),
    (W, "1 1 4 0 0  2 0 4 2 2", "1 1073741823  T F", bad(0)),
    // A record one level down: not itself, another of its level, one two levels down, or one above.
    (ONE, "1 1 1 0 0  2 1 1 2 1  2 0 0 4 1  3 0 0 6 2", "1 2  T 3  3 F  T F", RIGHT),
    (ONE, "1 1 1 0 0  2 1 1 2 1  2 0 0 4 1  3 0 0 6 2", "1 3  T 3  3 F  T F", bad(0)),
    (ONE, "1 1 1 0 0  2 1 1 2 1  2 0 0 4 1  3 0 0 6 2", "0 2  T 3  3 F  T F", bad(0)),
    (ONE, "1 1 1 0 0  2 1 1 2 1  2 0 0 4 1  3 0 0 6 2", "1 2  T 2  3 F  T F", bad(1)),
    (ONE, "1 1 1 0 0  2 1 1 2 1  2 0 0 4 1  3 0 0 6 2", "1 2  0 3  3 F  T F", bad(1)),
    (ONE, "1 1 1 0 0  2 1 1 2 1  2 0 0 4 1  3 0 0 6 2  1 1 1 0 0", "4 2  T 3  3 F  T F", bad(0)),
    (ONE, "1 1 1 0 0  2 1 1 2 1  2 0 0 4 1  3 0 0 6 2", "1 2  T 3  2 F  T F", bad(2)),
    (ONE, "1 1 1 0 0  2 1 1 2 1  2 0 0 4 1  3 0 0 6 2", "1 2  T 3  3 F  3 F", bad(3)),
    // From the last level to a record of the level behind it: only that record is bad, but its label counts.
    (P, "1 0 0 0 0  2 0 0 0 0", "1 F", bad(1)),
    (P, "1 0 0 0 0  2 0 4294967295 0 0", "1 F", bad(1)),
    (P, "1 0 0 0 0  2 1 1 0 0", "1 F", bad(0)),
    (P, "1 0 0 0 0  3 0 0 0 0", "1 F", bad(0)),
    // T is labelled from R of the level right below on, also where its edge skips levels; F up to -1.
    (ONE, "1 1 1 0 0  2 0 0 2 1  3 0 0 4 1", "T 1  2 F  T F", bad(0)),
    (TWO, "1 2 2 0 0  2 1 1 2 1  3 0 0 4 1", "T 1  T 2  T F", RIGHT),
    (TWO, "1 2 2 0 0  2 1 1 2 1  3 0 0 4 1", "T T  T 2  T F", bad(0)),
    (THREE, "1 3 3 0 0", "T T", RIGHT),
    (TWO, "1 2 2 0 0  2 1 1 2 1  3 0 0 4 1", "T 1  T T  T F", bad(1)),
    (TWO, "1 2 2 0 0  2 1 1 2 1  3 0 0 4 1", "T 1  T 2  T T", bad(2)),
    (TWO, "1 2 2 0 0  2 1 1 2 1  3 0 0 4 1", "T 1  T 2  F F", bad(2)),
    (TWO, "1 2 2 0 0  2 1 1 2 1  3 0 0 4 1", "T 1  T F  T F", bad(1)),
    (TWO, "1 2 2 0 0  2 1 1 2 1  3 0 1 4 1", "T 1  T 2  T F", bad(2)),
    (TWO, "1 2 3 0 0  2 1 2 2 1  3 0 1 4 1", "T 1  T 2  T F", bad(2)),
    (W, "1 1 4 0 0  2 0 5 2 2", "1 1  T F", bad(1)),
    // A number below 0 lies in no record's label, and wraps into none.
    ("00000000 40010001 40010001", "1 0 0 0 0  2 0 4294967295 2 2", "1 1  T T", bad(0)),
    ("00000000 40010001 40010001", "1 0 0 0 0  2 0 0 2 1", "1 F  T F", RIGHT),
    ("00000000 40010001 40010001", "1 0 1 0 0  2 0 1 2 1", "1 F  T F", bad(0)),
    // Narrower labels, as long as those that lead there fit; each end too wide by one.
    (R, "1 12 12 0 0  2 5 9 3 1  2 10 14 7 2", R_EDGES, RIGHT),
    (R, "1 12 12 0 0  2 8 8 3 1  2 10 12 7 2", R_EDGES, RIGHT),
    (R, "1 12 12 0 0  2 9 9 3 1  2 10 12 7 2", R_EDGES, bad(0)),
    (R, "1 12 12 0 0  2 8 8 3 1  2 11 12 7 2", R_EDGES, bad(0)),
    (R, "1 12 12 0 0  2 8 8 3 1  2 10 11 7 2", R_EDGES, bad(0)),
    (R, "1 12 14 0 0  2 5 9 3 1  2 10 14 7 2", R_EDGES, bad(0)),
    (R, "1 11 13 0 0  2 5 9 3 1  2 10 14 7 2", R_EDGES, bad(0)),
    (R, "1 13 13 0 0  2 5 9 3 1  2 10 14 7 2", R_EDGES, bad(0)),
    (R, "1 12 13 0 0  2 4 9 3 1  2 10 14 7 2", R_EDGES, bad(1)),
    (R, "1 12 13 0 0  2 5 10 3 1  2 10 14 7 2", R_EDGES, bad(1)),
    (R, "1 12 13 0 0  2 5 9 3 1  2 9 14 7 2", R_EDGES, bad(2)),
    (R, "1 12 13 0 0  2 5 9 3 1  2 10 15 7 2", R_EDGES, bad(2)),
    // Each record by itself, the first bad one: record 0 leads to a bad one, two are bad, a bad one that nothing leads to.
    (R, "1 12 13 0 0  2 5 9 4 1  2 10 14 7 2", R_EDGES, bad(1)),
    (R, "1 12 13 0 0  2 5 9 3 1  2 10 14 3 2", R_EDGES, bad(2)),
    (R, "1 12 13 0 0  2 5 9 7 1  2 10 14 3 2", R_EDGES, bad(1)),
    (R, "1 12 13 0 0  2 5 9 3 1  2 10 14 7 2  2 0 4 7 0", R_EDGES, bad(3)),
    (R, "1 12 13 0 0  2 5 9 3 1  2 10 14 7 2  2 0 4 11 0", "2 2 1  T T F F  T T T F  T F F F", RIGHT),
    // Records in another order, repeated, with shared edges and with edges in another order.
    (R, "1 12 13 0 0  2 10 14 7 2  2 5 9 3 1", "1 1 2  T T F F  T T T F", RIGHT),
    (R, "1 12 13 0 0  2 5 9 3 1  2 10 14 7 1  2 10 14 7 1", "2 3 1  T T F F  T T T F", RIGHT),
    (R, "1 12 13 0 0  2 5 9 3 1  2 10 10 7 1  2 12 14 7 1", "3 2 1  T T F F  T T T F", bad(0)),
    (R, "1 12 12 0 0  2 8 8 3 1  2 10 10 7 1  2 12 14 7 1", "3 2 1  T T F F  T T T F", RIGHT),
    (R, "1 12 13 8 0  2 5 9 4 1  2 10 14 0 2", "T T T F  T T F F  2 2 1", RIGHT),
    (ONE, "1 1 1 0 0  2 1 1 2 1  2 0 0 3 1  3 0 0 5 2", "1 2  T 3  F  T F", RIGHT),
    // A part of a record behind the last; the fifth word of a record and edges that no record has, whatever they are.
    (R, "1 12 13 0 0  2 5 9 3 1  2 10 14 7 2  2", R_EDGES, RIGHT),
    (R, "1 12 13 0 0  2 5 9 3 1  2 10 14 7 2  0 0 0 0", R_EDGES, RIGHT),
    (R, "1 12 13 0 4294967295  2 5 9 3 0  2 10 14 7 3221225473", R_EDGES, RIGHT),
    (R, R_TABLE, "2 2 1  T T F F  T T T F  0", RIGHT),
    (R, R_TABLE, "2 2 1  T T F F  T T T F  4294967295 1073741824 7 T F 2147483648", RIGHT),
];

/// The words of a list in decimal, with T and F.
fn list(text: &str) -> Vec<u32> {
    let word = |w: &str| match w {
        "T" => TRUE,
        "F" => FALSE,
        number => number.parse().unwrap(),
    };
    text.split_whitespace().map(word).collect()
}

/// The constraint's refusals come first, whether the drawing is right, bad or empty.
fn words_first(tally: &mut Tally) {
    let some = signs::REFUSED.iter().map(|(words, number, place)| (signs::words(words), refused(*number, *place)));
    for (words, wanted) in
        some.chain([(vec![], refused(1, 0)), (vec![5], refused(3, 1)), (vec![0, 0x4001_0001, 0x4000_0001], refused(4, 2))])
    {
        for table in [R_TABLE, "1 0 0 0 0", "0 0 0 0 0", "7", ""] {
            for edges in [R_EDGES, "T F", ""] {
                tally.known(&HandIn::new(&words, &list(table), &list(edges)), wanted);
            }
        }
    }
}

/// All of them.
pub fn all() -> Tally {
    let mut tally = Tally::default();
    for (words, table, edges, wanted) in CASES {
        tally.known(&HandIn::new(&signs::words(words), &list(table), &list(edges)), *wanted);
    }
    words_first(&mut tally);
    tally
}

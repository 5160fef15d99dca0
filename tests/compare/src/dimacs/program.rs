//! The program that prints DIMACS text: the written form of a constraint's clauses.

use crate::call::Given;
use crate::program::Program;
use reference::random::Random;

/// The text of an accepted constraint.
fn text(g: &Given) -> String {
    String::from_utf8(super::texts::plain(&g.clauses[..g.reply.words as usize])).unwrap()
}

/// Exercises P, Q and R, and request Five's 3u - 2v >= -4, y > 3, y >= 3 and -y <= 5, with their clauses in the written form.
const EXERCISES: [(&[u32], &str); 7] = [
    (&[0, 0x4001_0001], "p cnf 4 5\n2 0\n-3 0\n4 0\n-4 2 0\n-4 1 3 0\n"),
    (&[1, 0x4001_0001], "p cnf 3 3\n2 0\n-3 0\n2 0\n"),
    (
        &[12, 0x4002_0002, 0x4003_0005],
        "p cnf 10 17\n-1 2 0\n-3 4 0\n-4 5 0\n6 0\n-7 0\n8 0\n-8 10 0\n-8 1 10 0\n-8 2 9 0\n\
         -9 6 0\n-9 3 6 0\n-9 4 7 0\n-9 5 7 0\n-10 6 0\n-10 3 6 0\n-10 4 6 0\n-10 5 7 0\n",
    ),
    (
        &[0x1FFF_FFFC, 0xC000_0002, 0x4004_0003, 0x9FFF_FFFE, 0x6007_0002],
        "p cnf 16 33\n-1 2 0\n-2 3 0\n-3 4 0\n-5 6 0\n-6 7 0\n-7 8 0\n-8 9 0\n-9 10 0\n-10 11 0\n12 0\n-13 0\n14 0\n\
         -14 12 0\n-14 1 12 0\n-14 2 12 0\n-14 3 16 0\n-14 4 15 0\n\
         -15 12 0\n-15 5 12 0\n-15 6 12 0\n-15 7 12 0\n-15 8 12 0\n-15 9 13 0\n-15 10 13 0\n-15 11 13 0\n\
         -16 12 0\n-16 5 12 0\n-16 6 12 0\n-16 7 12 0\n-16 8 12 0\n-16 9 12 0\n-16 10 13 0\n-16 11 13 0\n",
    ),
    (&[0x2000_0003, 0xC000_0003, 0x4003_0001], "p cnf 5 5\n-1 2 0\n-2 3 0\n4 0\n-5 0\n5 0\n"),
    (&[0x2000_0003, 0xC000_0002, 0x4003_0001], "p cnf 6 9\n-1 2 0\n-2 3 0\n4 0\n-5 0\n6 0\n-6 4 0\n-6 1 5 0\n-6 2 5 0\n-6 3 5 0\n"),
    (&[5, 0x6001_0001], "p cnf 3 3\n2 0\n-3 0\n2 0\n"),
];

/// The ends, the exercises and random constraints; gives how many inputs ran and how many were refused by number.
pub fn program(r: &mut Random, count: u64) -> (u64, [u64; 19]) {
    let dimacs = Program { name: "dimacs", prints: text };
    let fixed = dimacs.ends() + dimacs.examples(&EXERCISES);
    (fixed + count, dimacs.random(r, count))
}

//! The printing program: the lines of a diagram.

use crate::call::Given;
use crate::program::Program;
use crate::signs::{words, DRAWN};
use reference::random::Random;

/// A child as it is printed.
fn child(edge: u32) -> String {
    match edge {
        0xC000_0000 => "F".to_string(),
        0xC000_0001 => "T".to_string(),
        k => k.to_string(),
    }
}

/// The lines of an accepted constraint: the counts, then a line a node.
pub fn lines(g: &Given) -> String {
    let n = g.reply;
    let mut text = format!("nodes {} edges {} words {}\n", n.nodes, n.edges, n.words);
    let places: Vec<usize> = g.records().map(|r| r[3] as usize).chain([n.edges as usize]).collect();
    for (k, r) in g.records().enumerate() {
        let children: String = g.edges[places[k]..places[k + 1]].iter().map(|x| format!(" {}", child(*x))).collect();
        text.push_str(&format!("{k} {} {} {} {}{children}\n", r[0], r[1], r[2], r[4]));
    }
    text
}

/// Exercises R, V and W, and what is printed for them: V's and W's lines follow from their labels and children, the counts of entering edges from request Six.
const EXERCISES: [(&[u32], &str); 3] = [
    (&[12, 0x4002_0002, 0x4003_0005], "nodes 3 edges 11 words 56\n0 1 12 13 0 2 2 1\n1 2 5 9 1 T T F F\n2 2 10 14 2 T T T F\n"),
    (
        &[9, 0x4001_0004, 0x4001_0002, 0x4001_0005, 0x4001_0004],
        "nodes 6 edges 12 words 48\n0 1 9 9 0 2 1\n1 2 5 5 1 4 3\n2 2 9 10 1 T 4\n3 3 0 3 1 5 F\n4 3 5 8 2 T 5\n5 4 0 3 2 T F\n",
    ),
    (&[3, 0x4001_0001, 0x4001_0005], "nodes 2 edges 4 words 20\n0 1 1 4 0 1 1\n1 2 0 4 2 T F\n"),
];

/// The ends, exercises R, V and W, those of request Five and random constraints; gives how many inputs ran and how many were refused by number.
pub fn program(r: &mut Random, count: u64) -> (u64, [u64; 19]) {
    let show = Program { name: "show", prints: lines };
    let signs: Vec<(Vec<u32>, &str)> = DRAWN.iter().map(|(text, lines, _)| (words(text), *lines)).collect();
    let mut examples: Vec<(&[u32], &str)> = signs.iter().map(|(words, lines)| (&words[..], *lines)).collect();
    examples.extend(EXERCISES);
    let fixed = show.ends() + show.examples(&examples);
    (fixed + count, show.random(r, count))
}

//! The marker: its replies, and that the three lists are only read.

pub mod admitted;
pub mod cases;
pub mod drawings;
mod letter;
pub mod many;
pub mod program;
pub mod small;
pub mod tables;

use crate::call::{differ, hex};
use crate::encoder::needs;
use crate::lent::{Lent, SIDES};
use archive::Marked;
use reference::diagram::{FALSE, RECORD, TRUE};
use reference::mark::mark;
use reference::random::Random;
use reference::words::read;

const RIGHT: Marked = Marked { right: 1, number: 0, place: 0 };

/// The reply of a refusal.
const fn refused(number: u64, place: u64) -> Marked {
    Marked { right: 0, number, place }
}

/// The reply where this record is the first bad one.
const fn bad(record: usize) -> Marked {
    refused(20, record as u64)
}

/// What is lent: constraint words, a table and an edge list.
#[derive(Clone)]
pub struct HandIn {
    words: Vec<u32>,
    table: Vec<u32>,
    edges: Vec<u32>,
}

impl HandIn {
    fn new(words: &[u32], table: &[u32], edges: &[u32]) -> HandIn {
        HandIn { words: words.to_vec(), table: table.to_vec(), edges: edges.to_vec() }
    }

    /// What the encoder leaves in a table and an edge list with room for as many records and edges more than it needs, and how many nodes it counts.
    fn encoded(words: &[u32], more: usize) -> (HandIn, usize) {
        let [table, edges, clauses] = needs(&read(words).unwrap().base());
        let [mut table, mut edges, mut clauses] = [table + RECORD * more, edges + more, clauses].map(|n| vec![0; n]);
        let reply = archive::encode(words, &mut table, &mut edges, &mut clauses);
        if reply.number != 0 {
            differ("a table for the marker", format!("words {}\n{reply:?}", hex(words)));
        }
        (HandIn { words: words.to_vec(), table, edges }, reply.nodes as usize)
    }

    /// Puts another word at a place of the table or of the edge list, where there is one.
    fn damage(&mut self, r: &mut Random) {
        let records = self.records() as u32;
        let list = if r.once_in(2) { &mut self.table } else { &mut self.edges };
        if !list.is_empty() {
            let at = r.below(list.len() as u64) as usize;
            let words = others(r, list[at], records);
            list[at] = *r.pick(&words);
        }
    }

    /// How many records the table has.
    fn records(&self) -> usize {
        self.table.len() / RECORD
    }

    /// The hand-in in words, each list up to its first 300.
    fn told(&self) -> String {
        let list = |name: &str, list: &[u32]| format!("{name} of {} words {}", list.len(), hex(&list[..list.len().min(300)]));
        [list("constraint", &self.words), list("table", &self.table), list("edge list", &self.edges)].join("\n")
    }
}

/// Calls by the number of their refusal, 0 where the hand-in is right, and how many of those with 20 name record 0.
#[derive(Default)]
pub struct Tally {
    pub numbers: [u64; 21],
    pub first: u64,
}

impl Tally {
    /// Calls both markers and counts the reply; gives it.
    fn call(&mut self, hand_in: &HandIn) -> Marked {
        let reply = both(hand_in);
        self.numbers[reply.number as usize] += 1;
        self.first += (reply == bad(0)) as u64;
        reply
    }

    /// The same, and ends the program unless the reply is the one that is known.
    fn known(&mut self, hand_in: &HandIn, wanted: Marked) {
        let reply = self.call(hand_in);
        if reply != wanted {
            differ("the marker and the reply that is known", format!("{}\nreply {reply:?}\nknown {wanted:?}", hand_in.told()));
        }
    }
}

/// Ends the program unless both markers call the records and edges right.
pub fn right(words: &[u32], table: &[u32], edges: &[u32]) {
    Tally::default().known(&HandIn::new(words, table, edges), RIGHT);
}

/// The reference's reply.
fn reference(hand_in: &HandIn) -> Marked {
    match mark(&hand_in.words, &hand_in.table, &hand_in.edges) {
        Ok(()) => RIGHT,
        Err(x) => refused(x.number, x.place),
    }
}

/// The marker of the archive and of the reference; gives the reply.
fn both(hand_in: &HandIn) -> Marked {
    let HandIn { words, table, edges } = hand_in;
    let wanted = reference(hand_in);
    for side in SIDES {
        let lent = [words, table, edges].map(|list| Lent::new(side, list));
        let ours = archive::mark(lent[0].list(), lent[1].list(), lent[2].list());
        let told = || format!("{}\npage {side:?}\narchive   {ours:?}\nreference {wanted:?}", hand_in.told());
        if ours != wanted {
            differ("the marker", told());
        }
        lent[0].same(words, "the marker's constraint words", told);
        lent[1].same(table, "the marker's table", told);
        lent[2].same(edges, "the marker's edge list", told);
    }
    wanted
}

/// Words to put in the place of one: its neighbours, ends of the words, T and F, words of the other kinds, numbers of records and of one that is not there, and any.
fn others(r: &mut Random, old: u32, records: u32) -> Vec<u32> {
    let mut all = vec![old.wrapping_add(1), old.wrapping_sub(1), 0, 1, u32::MAX, TRUE, FALSE, TRUE + 1];
    all.extend([old ^ 1 << 30, old ^ 2 << 30, old ^ 3 << 30, old ^ 1 << r.below(32)]);
    all.extend([records, records.wrapping_sub(1), r.below(u64::from(records) + 1) as u32, r.word()]);
    all.retain(|w| *w != old);
    all
}

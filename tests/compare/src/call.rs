//! One encoding call of the archive and of the reference, over lent memory full of rubbish, and how a difference is told.

use crate::lent::{rubbish, Lent, SIDES};
use archive::Encoded;
use reference::diagram::{FALSE, RECORD};
use reference::encode::{encode, Build, Counts};
use reference::limits::Limits;
use reference::random::Random;
use reference::refusal::Refusal;

/// The refusals of the constraint words, which leave lent memory as it was.
const OF_WORDS: [u64; 7] = [1, 2, 3, 4, 5, 17, 18];

/// Ends the program with what differs.
pub fn differ(what: &str, input: String) -> ! {
    eprintln!("difference: {what}\n{input}");
    std::process::exit(1)
}

/// Words in hexadecimal.
pub fn hex(words: &[u32]) -> String {
    let all: Vec<String> = words.iter().map(|w| format!("{w:08X}")).collect();
    all.join(" ")
}

/// What an encoding call gives: the reply and the three lists.
pub struct Given {
    pub reply: Encoded,
    pub table: Vec<u32>,
    pub edges: Vec<u32>,
    pub clauses: Vec<u32>,
}

impl Given {
    /// The records of the nodes.
    pub fn records(&self) -> impl Iterator<Item = &[u32]> {
        self.table.chunks_exact(RECORD).take(self.reply.nodes as usize)
    }

    /// How many edges enter each node, by the records.
    pub fn entering(&self) -> Vec<u32> {
        self.records().map(|r| r[4]).collect()
    }

    /// Whether the edges that enter nodes add up to those that lead to nodes, and every node but the root is entered by some.
    fn entered(&self) -> bool {
        let to_nodes = self.edges[..self.reply.edges as usize].iter().filter(|edge| **edge < FALSE).count();
        let counts = self.entering();
        counts.iter().map(|n| *n as usize).sum::<usize>() == to_nodes && counts.iter().enumerate().all(|(k, n)| (*n == 0) == (k == 0))
    }
}

/// The reference's result as the reply that it stands for.
pub fn reply_of(told: Result<Counts, Refusal>) -> Encoded {
    match told {
        Ok(n) => Encoded { number: 0, place: 0, nodes: n.nodes, edges: n.edges, words: n.words },
        Err(x) => Encoded { number: x.number, place: x.place, nodes: 0, edges: 0, words: 0 },
    }
}

/// An encoder of the archive over constraint words, a table, an edge list and a clause list.
type Encoder<'a> = &'a dyn Fn(&[u32], &mut [u32], &mut [u32], &mut [u32]) -> Encoded;

/// Compares the encoders by the call that takes no limits.
pub fn both(r: &mut Random, build: Build, words: &[u32], lengths: [usize; 3]) -> Given {
    compared(r, build, Limits::MAIN, &archive::encode, words, lengths)
}

/// Compares the encoders by the call under limits.
pub fn both_within(r: &mut Random, build: Build, limits: Limits, words: &[u32], lengths: [usize; 3]) -> Given {
    let Limits { terms, nodes } = limits;
    compared(r, build, limits, &|words, t, e, c| archive::encode_with(terms, nodes, words, t, e, c), words, lengths)
}

/// Calls both encoders with lists of these lengths, ours with the unreadable page on each side in turn, and compares replies, every lent word and the margins.
/// Then the edges that enter nodes are added up.
fn compared(r: &mut Random, build: Build, limits: Limits, encoder: Encoder, words: &[u32], lengths: [usize; 3]) -> Given {
    let before = lengths.map(|n| rubbish(r, n, |w| w));
    let mut after = before.clone();
    let [t, e, c] = &mut after;
    let reply = reply_of(encode(build, limits, words, t, e, c));
    if OF_WORDS.contains(&reply.number) && after != before {
        differ("lent memory after refused words", hex(words));
    }
    for side in SIDES {
        let lent = Lent::new(side, words);
        let mut lists = before.each_ref().map(|list| Lent::new(side, list));
        let [t, e, c] = &mut lists;
        let ours = encoder(lent.list(), t.list_mut(), e.list_mut(), c.list_mut());
        let input =
            || format!("words {}\n{limits:?}, lengths {lengths:?}, page {side:?}\narchive   {ours:?}\nreference {reply:?}", hex(words));
        if ours != reply {
            differ("reply of the encoder", input());
        }
        lent.same(words, "constraint words", input);
        for (k, name) in ["table", "edge list", "clause list"].iter().enumerate() {
            lists[k].same(&after[k], name, input);
        }
    }
    let [table, edges, clauses] = after;
    let given = Given { reply, table, edges, clauses };
    if !given.entered() {
        differ("the edges that enter nodes", format!("words {}\n{reply:?}\ncounts {:?}", hex(words), given.entering()));
    }
    given
}

//! The propagator: replies, every byte of the buffer, and the margins.

pub mod cases;
pub mod completions;
pub mod made;

use crate::call::{differ, hex};
use crate::inputs::damage_list;
use crate::lent::{rubbish, Lent, SIDES};
use archive::Propagated;
use reference::propagate::{queue, Verdict, OPEN};
use reference::random::Random;
use reference::test::EMPTY;

const A: u32 = 0x8000_0001;
const NOT_A: u32 = 0xA000_0001;
const B: u32 = 0x8000_0002;
const NOT_B: u32 = 0xA000_0002;
const C: u32 = 0x8000_0003;
const NOT_C: u32 = 0xA000_0003;
const END_1: u32 = 0xC000_0001;
const END_2: u32 = 0xC000_0002;
const END_3: u32 = 0xC000_0003;

const SETTLED: Propagated = Propagated { verdict: 0, number: 0, place: 0 };
const CONFLICT: Propagated = Propagated { verdict: 1, number: 0, place: 0 };

/// The reply of a refusal.
const fn refused(number: u64, place: u64) -> Propagated {
    Propagated { verdict: 2, number, place }
}

/// What is lent: the values, the list, and the length of the buffer.
#[derive(Clone)]
pub struct Input {
    values: Vec<u8>,
    list: Vec<u32>,
    room: usize,
}

impl Input {
    /// Values and a list, with a buffer as long as the values.
    fn new(values: &[u8], list: &[u32]) -> Input {
        Input { values: values.to_vec(), list: list.to_vec(), room: values.len() }
    }

    /// The same with another buffer.
    fn with_room(self, room: usize) -> Input {
        Input { room, ..self }
    }

    /// The input in words, the list up to its first 300.
    fn told(&self) -> String {
        let Input { values, list, room } = self;
        let front = hex(&list[..list.len().min(300)]);
        format!("values {:?}\nlist of {} words {front}\nbuffer of {room} bytes", &values[..values.len().min(300)], list.len())
    }
}

/// Calls by verdict 0, 1 and refusal, and how many of verdict 0 settle a Boolean that was open.
#[derive(Default)]
pub struct Tally {
    pub numbers: [u64; 20],
    pub more: u64,
}

impl Tally {
    /// Calls both propagators and counts the reply; gives it, and the buffer.
    fn call(&mut self, r: &mut Random, input: &Input) -> (Propagated, Vec<u8>) {
        let (reply, buffer) = both(r, input);
        self.numbers[if reply.verdict == 2 { reply.number } else { reply.verdict } as usize] += 1;
        self.more += (reply.verdict == 0 && buffer != input.values) as u64;
        (reply, buffer)
    }

    /// The same, and ends the program unless reply and buffer are those that are known; a refusal's buffer is the one before.
    fn known(&mut self, r: &mut Random, input: &Input, wanted: Propagated, bytes: &[u8]) {
        let (reply, buffer) = self.call(r, input);
        if reply != wanted || wanted.verdict < 2 && buffer != bytes {
            let input = input.told();
            differ(
                "the propagator and the reply that is known",
                format!("{input}\nreply {reply:?} {buffer:?}\nknown {wanted:?} {bytes:?}"),
            );
        }
    }
}

/// The propagator of the archive and of the reference, over the same rubbish; gives the reply and the buffer.
fn both(r: &mut Random, input: &Input) -> (Propagated, Vec<u8>) {
    let Input { values, list, room } = input;
    let before = rubbish(r, *room, |w| (w >> 24) as u8);
    let mut after = before.clone();
    let wanted = match queue(values, list, &mut after) {
        Verdict::Settled => SETTLED,
        Verdict::Conflict => CONFLICT,
        Verdict::Refused(x) => refused(x.number, x.place),
    };
    if wanted.verdict == 2 && after != before || wanted.verdict == 1 && after != *values {
        differ("the buffer of the reference", format!("{}\nreference {wanted:?} {after:?}", input.told()));
    }
    for side in SIDES {
        let (lent, clauses, mut settled) = (Lent::new(side, values), Lent::new(side, list), Lent::new(side, &before));
        let ours = archive::propagate(lent.list(), clauses.list(), settled.list_mut());
        let told = || format!("{}\npage {side:?}\narchive {ours:?} reference {wanted:?}", input.told());
        if ours != wanted {
            differ("the propagator", told());
        }
        lent.same(values, "the propagator's values", told);
        clauses.same(list, "the propagator's list", told);
        settled.same(&after, "the propagator's buffer", told);
    }
    (wanted, after)
}

/// Values of which about every third is fixed.
fn values(r: &mut Random, n: u64) -> Vec<u8> {
    (0..n).map(|_| if r.once_in(3) { r.below(2) as u8 } else { OPEN }).collect()
}

/// A list over `n` Booleans: few clauses of up to four literals and most often no empty one, or many of one to three literals.
fn list(r: &mut Random, n: u64) -> Vec<u32> {
    let mut words = r.clause_list(n);
    words.extend(r.clause_list(n));
    if n > 0 && r.once_in(2) {
        words.clear();
        for _ in 0..r.below(2 * n) {
            let literals = *r.pick(&[1, 2, 2, 2, 3, 3, 3, 3]);
            words.extend((0..literals).map(|_| 2 << 30 | (r.below(2) as u32) << 29 | r.from(1, n as i64) as u32));
            words.push(3 << 30 | literals);
        }
    }
    if !r.once_in(4) {
        words.retain(|w| *w != EMPTY);
    }
    words
}

/// Random lists over up to eight Booleans, or over up to forty: as they are, with a buffer of another length, damaged, and with a byte above 2.
pub fn random(r: &mut Random, rounds: u64) -> Tally {
    let mut tally = Tally::default();
    for _ in 0..rounds {
        let most = *r.pick(&[9, 9, 41]);
        let n = r.below(most);
        let mut input = Input::new(&values(r, n), &list(r, n));
        tally.call(r, &input);
        for room in [0, (n as usize).saturating_sub(1), n as usize + 1] {
            tally.call(r, &input.clone().with_room(room));
        }
        for _ in 0..r.from(1, 2) {
            damage_list(r, &mut input.list, n);
        }
        tally.call(r, &input);
        input.room += r.below(2) as usize;
        tally.call(r, &input);
        if n > 0 && r.once_in(2) {
            let at = r.below(n) as usize;
            input.values[at] = r.from(3, 255) as u8;
            tally.call(r, &input);
        }
    }
    tally
}

/// All bytes for `n` Booleans.
fn starts(n: u32) -> Vec<Vec<u8>> {
    (0..3usize.pow(n)).map(|number| (0..n).map(|k| (number / 3usize.pow(k) % 3) as u8).collect()).collect()
}

/// Every list of up to `most` words, each one of nine, from every start of two Booleans, and with buffers of other lengths. The nine: the literals of both, one of a third,
/// three end words, and a word that is neither.
pub fn every(r: &mut Random, most: u32) -> Tally {
    const WORDS: [u32; 9] = [A, NOT_A, B, NOT_B, C, EMPTY, END_1, END_2, 0];
    let mut tally = Tally::default();
    for length in 0..=most {
        for number in 0..WORDS.len().pow(length) {
            let words: Vec<u32> = (0..length).map(|k| WORDS[number / WORDS.len().pow(k) % WORDS.len()]).collect();
            for values in starts(2) {
                tally.call(r, &Input::new(&values, &words));
            }
            for room in [0, 1, 3] {
                tally.call(r, &Input::new(&[2, 2], &words).with_room(room));
            }
            tally.call(r, &Input::new(&[2, 3], &words));
        }
    }
    tally
}

/// Every list of up to `most` clauses of up to two literals of three Booleans, from every start. The literals of a clause stand in one order only.
pub fn every_clause(r: &mut Random, most: u32) -> Tally {
    const LITERALS: [u32; 6] = [A, NOT_A, B, NOT_B, C, NOT_C];
    let mut clauses = vec![vec![EMPTY]];
    for (k, a) in LITERALS.into_iter().enumerate() {
        clauses.push(vec![a, END_1]);
        clauses.extend(LITERALS[k..].iter().map(|b| vec![a, *b, END_2]));
    }
    let mut tally = Tally::default();
    for length in 0..=most {
        for number in 0..clauses.len().pow(length) {
            let words = (0..length).flat_map(|k| clauses[number / clauses.len().pow(k) % clauses.len()].clone()).collect::<Vec<u32>>();
            for values in starts(3) {
                tally.call(r, &Input::new(&values, &words));
            }
        }
    }
    tally
}

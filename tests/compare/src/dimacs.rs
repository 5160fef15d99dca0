//! DIMACS text, written and read by the archive and by the reference: replies, every lent byte and word, and the margins.

pub mod cases;
pub mod places;
pub mod program;
mod texts;

use crate::call::{differ, hex};
use crate::inputs::{damage_list, large};
use crate::lent::{rubbish, Element, Lent, SIDES};
use archive::Text;
use reference::clauses::clauses;
use reference::maps;
use reference::random::Random;
use reference::refusal::Refusal;

/// A call from one list into another: ours, the reference's, an element of rubbish, and how an input is shown.
pub struct Call<I, T> {
    name: &'static str,
    ours: fn(&[I], &mut [T]) -> Text,
    other: fn(&[I], &mut [T]) -> Result<u64, Refusal>,
    rubbish: fn(u32) -> T,
    shown: fn(&[I]) -> String,
}

/// The writer.
pub const WRITE: Call<u32, u8> =
    Call { name: "the DIMACS writer", ours: archive::write, other: reference::write::write, rubbish: |w| (w >> 24) as u8, shown: hex };

/// The reader.
pub const READ: Call<u8, u32> = Call {
    name: "the DIMACS reader",
    ours: archive::read,
    other: reference::read::read,
    rubbish: |w| w,
    shown: |text| text.escape_ascii().to_string(),
};

impl<I: Element, T: Element> Call<I, T> {
    /// Makes both calls over the same rubbish of `room` elements; gives the reply and what was made.
    pub fn both(&self, r: &mut Random, input: &[I], room: usize) -> (Text, Vec<T>) {
        let before = rubbish(r, room, self.rubbish);
        let mut after = before.clone();
        let reply = match (self.other)(input, &mut after) {
            Ok(length) => Text { number: 0, place: 0, length },
            Err(x) => Text { number: x.number, place: x.place, length: 0 },
        };
        for side in SIDES {
            let (lent, mut list) = (Lent::new(side, input), Lent::new(side, &before));
            let ours = (self.ours)(lent.list(), list.list_mut());
            let told = || format!("{}\nroom {room}, page {side:?}\narchive   {ours:?}\nreference {reply:?}", (self.shown)(input));
            if ours != reply {
                differ(self.name, told());
            }
            lent.same(input, self.name, told);
            list.same(&after, self.name, told);
        }
        after.truncate(reply.length as usize);
        (reply, after)
    }

    /// Ends the program unless the fact about this input holds.
    pub fn hold(&self, fact: bool, what: &str, input: &[I]) {
        if !fact {
            differ(self.name, format!("{what}\n{}", (self.shown)(input)));
        }
    }
}

/// How many inputs there were, how many calls gave each number, and how many of them refused a place in the second half of the input.
pub struct Tally {
    pub inputs: u64,
    pub numbers: [u64; 17],
    pub late: u64,
}

impl Tally {
    fn new(inputs: u64) -> Tally {
        Tally { inputs, numbers: [0; 17], late: 0 }
    }

    fn call(&mut self, reply: Text, length: usize) {
        self.numbers[reply.number as usize] += 1;
        self.late += (2 * reply.place > length as u64) as u64;
    }

    /// All calls.
    pub fn calls(&self) -> u64 {
        self.numbers.iter().sum()
    }

    /// Calls with more than enough room and, around what that makes, with just enough, one element less and none; gives what is made.
    fn rooms<I: Element, T: Element>(&mut self, r: &mut Random, call: &Call<I, T>, input: &[I], ample: usize) -> Option<Vec<T>> {
        let (reply, made) = call.both(r, input, ample);
        self.call(reply, input.len());
        let lengths = if reply.number == 0 { vec![made.len(), made.len().saturating_sub(1), 0] } else { vec![r.below(4) as usize] };
        for room in lengths {
            let (again, same) = call.both(r, input, room);
            self.call(again, input.len());
            let fits = made.len() <= room;
            let wanted = if reply.number == 0 && !fits { 15 } else { reply.number };
            call.hold(again.number == wanted && (wanted != 0 || same == made), "another reply in another room", input);
        }
        (reply.number == 0).then_some(made)
    }
}

/// The greatest Boolean of random lists: both ends, and numbers around a further digit.
const BOOLEANS: [u64; 8] = [0, 1, 2, 9, 10, 12, 100_000, 536_870_911];

/// Random lists, whole and damaged, written; what is written is read back, and with zeros behind it is refused where they begin. Gives the calls of the writer.
pub fn written(r: &mut Random, rounds: u64) -> Tally {
    let mut tally = Tally::new(rounds);
    for round in 0..rounds {
        let n = *r.pick(&BOOLEANS);
        let mut words = r.clause_list(n);
        if round % 2 == 1 {
            damage_list(r, &mut words, n);
        }
        let Some(mut text) = tally.rooms(r, &WRITE, &words, 12 * words.len() + 40) else { continue };
        let (_, again) = READ.both(r, &text, words.len());
        READ.hold(again == words, "the list is not restored", &text);
        let length = text.len();
        text.resize(length + r.from(1, 9) as usize, 0);
        let (padded, _) = READ.both(r, &text, words.len());
        READ.hold((padded.number, padded.place) == (16, length as u64), "zeros behind the text", &text);
    }
    tally
}

/// Texts of random lists in free layout, most of them damaged byte by byte, read; gives the calls of the reader.
pub fn read(r: &mut Random, rounds: u64) -> Tally {
    let mut tally = Tally::new(rounds);
    for round in 0..rounds {
        let n = *r.pick(&BOOLEANS);
        let words = r.clause_list(n);
        let mut text = if r.once_in(3) { texts::plain(&words) } else { texts::laid_out(r, &words) };
        if round % 4 != 0 {
            texts::damage(r, &mut text);
        }
        let room = text.len() + r.below(9) as usize;
        tally.rooms(r, &READ, &text, room);
    }
    tally
}

/// The clause lists of larger constraints, written, read back, and read with a damaged text; gives the calls of the reader.
pub fn larger(r: &mut Random, rounds: u64) -> Tally {
    let mut tally = Tally::new(rounds);
    for _ in 0..rounds {
        let c = large(r);
        let words = clauses(&c, &maps::build(&c, 1 << 20).unwrap());
        let (_, mut text) = WRITE.both(r, &words, 12 * words.len() + 40);
        let again = tally.rooms(r, &READ, &text, words.len() + 9);
        READ.hold(again == Some(words), "the list is not restored", &text);
        texts::damage(r, &mut text);
        let room = text.len();
        tally.rooms(r, &READ, &text, room);
    }
    tally
}

/// All texts of a small kind, read; gives the calls of the reader.
pub fn every(r: &mut Random, most: u32) -> Tally {
    let mut tally = Tally::new(0);
    for text in texts::every(most) {
        tally.inputs += 1;
        tally.call(READ.both(r, &text, 4).0, text.len());
    }
    tally
}

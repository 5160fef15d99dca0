//! Unit propagation with a queue, on the heap: a first look at every clause, and then one at the clauses of each literal that has become false. Where a literal stands
//! is kept in flat lists, made by counting.

use crate::refusal::Refusal;

/// What propagation says.
#[derive(Clone, Copy, Debug, PartialEq, Eq)]
pub enum Verdict {
    Settled,
    Conflict,
    Refused(Refusal),
}

/// The byte of a Boolean that has no value.
pub const OPEN: u8 = 2;

/// The Boolean of a literal's word.
fn boolean(word: u32) -> usize {
    (word & 0x1FFF_FFFF) as usize
}

/// The byte under which a literal's word is false.
fn false_byte(word: u32) -> u8 {
    (word >> 29 & 1) as u8
}

/// The number of a literal's word: twice the Boolean, and one more where it is negated.
fn number(word: u32) -> usize {
    2 * boolean(word) + false_byte(word) as usize
}

/// Whether a word of a legal list ends a clause.
fn ends(word: u32) -> bool {
    word >= 3 << 30
}

/// What has been seen of a clause: how many literals; an open one, or 0; whether it asks for nothing, because one is true or two different ones are open.
#[derive(Default)]
struct Seen {
    literals: u32,
    open: u32,
    quiet: bool,
}

impl Seen {
    /// Takes in a literal, whose Boolean has this byte.
    fn literal(&mut self, word: u32, byte: u8) {
        self.literals += 1;
        if byte == OPEN && (self.open == 0 || self.open == word) {
            self.open = word;
        } else {
            self.quiet |= byte != false_byte(word);
        }
    }
}

/// For each literal the places where the clauses begin that it stands in: those of literal `n` are `starts[offsets[n]..offsets[n + 1]]`.
struct Occurrences {
    offsets: Vec<u32>,
    starts: Vec<u32>,
}

impl Occurrences {
    /// From how often each literal stands in the list. The sum of the counts up to a literal's own is the end of its places; each place that is filled moves it down.
    fn new(counts: Vec<u32>, list: &[u32]) -> Occurrences {
        let mut offsets = counts;
        let mut sum = 0;
        for n in &mut offsets {
            sum += *n;
            *n = sum;
        }
        let mut starts = vec![0; sum as usize];
        let mut start = 0;
        for (k, w) in list.iter().enumerate() {
            if ends(*w) {
                start = k as u32 + 1;
            } else {
                let at = &mut offsets[number(*w)];
                *at -= 1;
                starts[*at as usize] = start;
            }
        }
        Occurrences { offsets, starts }
    }

    /// The places of a literal.
    fn of(&self, literal: usize) -> &[u32] {
        &self.starts[self.offsets[literal] as usize..self.offsets[literal + 1] as usize]
    }
}

/// The bytes, the literals that were settled, in their order, and whether there was a conflict.
struct Work {
    bytes: Vec<u8>,
    queue: Vec<u32>,
    conflict: bool,
}

impl Work {
    /// Does what a clause asks for that has been seen to its end.
    fn meet(&mut self, clause: &Seen) {
        match *clause {
            Seen { quiet: true, .. } => {}
            Seen { open: 0, .. } => self.conflict = true,
            Seen { open, .. } => {
                self.bytes[boolean(open) - 1] = 1 - false_byte(open);
                self.queue.push(open);
            }
        }
    }

    /// Looks at every clause once; gives how often each literal stands in the list, by its number, or the first refusal of 11 to 14.
    fn first_look(&mut self, list: &[u32]) -> Result<Vec<u32>, Refusal> {
        let refuse = |number, place: usize| Err(Refusal { number, place: place as u64 });
        let mut counts = vec![0; 2 * self.bytes.len() + 3];
        let mut clause = Seen::default();
        for (k, w) in list.iter().enumerate() {
            match w >> 30 {
                2 => {
                    let Some(byte) = self.bytes.get(boolean(*w).wrapping_sub(1)) else {
                        return refuse(12, k);
                    };
                    counts[number(*w)] += 1;
                    clause.literal(*w, *byte);
                }
                3 if w & 0x3FFF_FFFF != clause.literals => return refuse(13, k),
                3 => self.meet(&std::mem::take(&mut clause)),
                _ => return refuse(11, k),
            }
        }
        if clause.literals > 0 {
            return refuse(14, list.len());
        }
        Ok(counts)
    }

    /// Looks at the clauses of each literal that has become false, until there is none left or a conflict.
    fn follow(&mut self, occurrences: &Occurrences, list: &[u32]) {
        let mut done = 0;
        while done < self.queue.len() {
            let opposite = number(self.queue[done]) ^ 1;
            done += 1;
            for start in occurrences.of(opposite) {
                let mut clause = Seen::default();
                for w in list[*start as usize..].iter().take_while(|w| !ends(**w)) {
                    clause.literal(*w, self.bytes[boolean(*w) - 1]);
                    if clause.quiet {
                        break;
                    }
                }
                self.meet(&clause);
                if self.conflict {
                    return;
                }
            }
        }
    }
}

/// The whole call: checks, propagates, and leaves the lent bytes as the call does.
pub fn queue(values: &[u8], list: &[u32], settled: &mut [u8]) -> Verdict {
    if let Some(k) = values.iter().position(|v| *v > OPEN) {
        return Verdict::Refused(Refusal { number: 10, place: k as u64 });
    }
    let mut work = Work { bytes: values.to_vec(), queue: Vec::new(), conflict: false };
    let counts = match work.first_look(list) {
        Ok(counts) => counts,
        Err(refusal) => return Verdict::Refused(refusal),
    };
    if settled.len() != values.len() {
        return Verdict::Refused(Refusal { number: 19, place: 0 });
    }
    if !work.conflict {
        work.follow(&Occurrences::new(counts, list), list);
    }
    if work.conflict {
        settled.copy_from_slice(values);
        return Verdict::Conflict;
    }
    settled.copy_from_slice(&work.bytes);
    Verdict::Settled
}

//! The words of a constraint: read, with refusals 1 to 5, 17 and 18, and made.

use crate::limits::Limits;
use crate::refusal::Refusal;
use crate::written::{Relation, Summand, Written};

// The kinds of words, which their top two bits say.
const BOUND: u32 = 0;
const TERM: u32 = 1;
const LOW: u32 = 2;
const RELATION: u32 = 3;

/// The payload that says 0 where numbers below 0 can be said too.
const MIDDLE: i64 = 1 << 29;

/// The bit of a term that makes its coefficient negative.
const NEGATIVE: u32 = 1 << 29;

/// How far a lower end may lie from 0.
const FARTHEST: i64 = 1_000_000;

/// A refusal's number and place, where it applies.
type Fault = Option<(u64, usize)>;

fn kind(word: u32) -> u32 {
    word >> 30
}

fn payload(word: u32) -> i64 {
    (word & 0x3FFF_FFFF).into()
}

/// The number that a lower end says, and the bound where there is a relation.
fn signed(word: u32) -> i64 {
    payload(word) - MIDDLE
}

/// The distance to the upper end, and the coefficient without its sign.
fn parts(term: u32) -> (i64, i64) {
    ((term >> 16 & 0x1FFF).into(), (term & 0xFFFF).into())
}

/// Refusal 1.
fn missing(words: &[u32]) -> Fault {
    words.is_empty().then_some((1, 0))
}

/// Refusal 2: a word that cannot stand where it stands, or a lower end without a word behind it.
fn misplaced(words: &[u32]) -> Fault {
    let fits = |k: usize| match kind(words[k]) {
        BOUND => k == 0,
        RELATION => k == 1,
        LOW => k > 0 && kind(words[k - 1]) != LOW,
        _ => k > 0,
    };
    let open = words.last().is_some_and(|w| kind(*w) == LOW);
    let place = (0..words.len()).find(|k| !fits(*k)).or(open.then_some(words.len()));
    place.map(|k| (2, k))
}

/// Refusals 17 and 18: no such relation, or no such lower end.
fn beyond(words: &[u32]) -> Fault {
    let number = |w: u32| match kind(w) {
        RELATION if payload(w) as usize >= Relation::ALL.len() => Some(17),
        LOW if signed(w).abs() > FARTHEST => Some(18),
        _ => None,
    };
    words.iter().enumerate().find_map(|(k, w)| number(*w).map(|n| (n, k)))
}

/// Refusal 3: no term, or more than the most.
fn miscounted(most: u64, words: &[u32]) -> Fault {
    let terms = words.iter().filter(|w| kind(**w) == TERM).count() as u64;
    (terms == 0 || terms > most).then_some((3, words.len()))
}

/// Refusals 4 and 5.
fn bad_term(words: &[u32]) -> Fault {
    let number = |w: u32| match parts(w) {
        _ if kind(w) != TERM => None,
        (0 | 16.., _) => Some(4),
        (_, 0) => Some(5),
        _ => None,
    };
    words.iter().enumerate().find_map(|(k, w)| number(*w).map(|n| (n, k)))
}

/// The term that the second word is, with the lower end that the first may be.
fn summand(before: u32, term: u32) -> Summand {
    let (d, a) = parts(term);
    let factor = if term & NEGATIVE == 0 { a } else { -a };
    Summand { factor, low: if kind(before) == LOW { signed(before) } else { 0 }, d }
}

/// What the words say, or the first refusal that applies under the main limits.
pub fn read(words: &[u32]) -> Result<Written, Refusal> {
    read_within(Limits::MAIN.terms, words)
}

/// The same where this many terms are the most.
pub fn read_within(most: u64, words: &[u32]) -> Result<Written, Refusal> {
    let fault = missing(words)
        .or_else(|| misplaced(words))
        .or_else(|| beyond(words))
        .or_else(|| miscounted(most, words))
        .or_else(|| bad_term(words));
    if let Some((number, place)) = fault {
        return Err(Refusal { number, place: place as u64 });
    }
    let said = words.get(1).filter(|w| kind(**w) == RELATION);
    let relation = said.map_or(Relation::AtMost, |w| Relation::ALL[payload(*w) as usize]);
    let bound = if said.is_some() { signed(words[0]) } else { payload(words[0]) };
    let terms = words.windows(2).filter(|pair| kind(pair[1]) == TERM).map(|pair| summand(pair[0], pair[1])).collect();
    Ok(Written { relation, bound, terms })
}

/// A word of this kind that says the number as a difference from the middle.
fn about_middle(kind: u32, number: i64) -> u32 {
    kind << 30 | (number + MIDDLE) as u32
}

impl Written {
    /// The words that say this; `spelled` is asked about each word that may be left out.
    pub fn words(&self, mut spelled: impl FnMut() -> bool) -> Vec<u32> {
        let needed = self.relation != Relation::AtMost || self.bound < 0;
        let mut words = if needed || self.bound < MIDDLE && spelled() {
            vec![about_middle(BOUND, self.bound), RELATION << 30 | self.relation as u32]
        } else {
            vec![BOUND << 30 | self.bound as u32]
        };
        for t in &self.terms {
            if t.low != 0 || spelled() {
                words.push(about_middle(LOW, t.low));
            }
            let sign = if t.factor < 0 { NEGATIVE } else { 0 };
            words.push(TERM << 30 | sign | (t.d as u32) << 16 | t.factor.unsigned_abs() as u32);
        }
        words
    }
}

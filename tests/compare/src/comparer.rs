//! The file comparer.

use crate::call::{differ, hex};
use crate::lent::{Lent, Side};
use archive::Compared;
use reference::random::Random;

const YES: Compared = Compared { same: 1, word: 0 };

/// The reply no at a word.
const fn no(word: u64) -> Compared {
    Compared { same: 0, word }
}

/// Bytes, words, and the reply.
type Case = (&'static [u8], &'static [u32], Compared);

const W: u32 = 0x0102_0304;
const X: u32 = 0x0506_0708;

/// Replies that follow from the request's sentence, worked out by hand.
const CASES: &[Case] = &[
    // A word lacks a byte; a byte is left over; the second word lacks three; nothing at all.
    (&[1, 2, 3], &[W], no(0)),
    (&[1, 2, 3, 4, 5], &[W], no(1)),
    (&[1, 2, 3, 4, 5], &[W, X], no(1)),
    (&[], &[], YES),
    // Whole files.
    (&[1, 2, 3, 4], &[W], YES),
    (&[1, 2, 3, 4, 5, 6, 7, 8], &[W, X], YES),
    (&[0, 0, 0, 0], &[0], YES),
    (&[255, 255, 255, 255], &[u32::MAX], YES),
    // A word lacks one to four bytes, and words behind it all of theirs.
    (&[], &[W], no(0)),
    (&[], &[0], no(0)),
    (&[1], &[W], no(0)),
    (&[1, 2], &[W], no(0)),
    (&[1, 2, 3, 4], &[W, X], no(1)),
    (&[1, 2, 3, 4, 5, 6, 7], &[W, X], no(1)),
    (&[1, 2, 3, 4], &[W, X, X], no(1)),
    // A word differs, in each of its bytes; before another that does, and before one that lacks some; one that also lacks a byte.
    (&[9, 2, 3, 4], &[W], no(0)),
    (&[1, 9, 3, 4], &[W], no(0)),
    (&[1, 2, 9, 4], &[W], no(0)),
    (&[1, 2, 3, 9], &[W], no(0)),
    (&[1, 2, 3, 4, 5, 6, 7, 9], &[W, X], no(1)),
    (&[1, 2, 3, 9, 5, 6, 7, 9], &[W, X], no(0)),
    (&[1, 2, 3, 9, 5], &[W, X], no(0)),
    (&[9, 2, 3], &[W], no(0)),
    // Bytes are left over: the count of words, however many they are.
    (&[0], &[], no(0)),
    (&[1, 2, 3, 4], &[], no(0)),
    (&[1, 2, 3, 4, 0, 0, 0, 0], &[W], no(1)),
    (&[1, 2, 3, 4, 5, 6, 7, 8, 9], &[W, X], no(2)),
    // A word differs before them.
    (&[1, 2, 3, 9, 5], &[W], no(0)),
    // The least significant byte first; two bytes exchanged.
    (&[4, 3, 2, 1], &[W], no(0)),
    (&[1, 3, 2, 4], &[W], no(0)),
];

/// Replies by their kind; a word that lacks bytes counts as such, whether or not those that it has differ.
#[derive(Default)]
pub struct Tally {
    pub yes: u64,
    pub lacking: u64,
    pub differing: u64,
    pub left_over: u64,
}

impl Tally {
    /// Calls both comparers and counts the reply.
    fn compare(&mut self, bytes: &[u8], words: &[u32]) {
        let reply = both(bytes, words);
        let kind = match reply.word as usize {
            _ if reply.same == 1 => &mut self.yes,
            k if k == words.len() => &mut self.left_over,
            k if bytes.len() < 4 * k + 4 => &mut self.lacking,
            _ => &mut self.differing,
        };
        *kind += 1;
    }
}

/// The comparer of the archive and of the reference; gives the reply. With the page before them, the bytes also begin one to three bytes behind it, so that they
/// lie at four places in memory, one byte apart.
fn both(bytes: &[u8], words: &[u32]) -> Compared {
    let wanted = match reference::compare::compare(bytes, words) {
        Ok(()) => YES,
        Err(word) => no(word),
    };
    let file = [&[0xA5; 3], bytes].concat();
    for (side, from) in [(Side::Behind, 0), (Side::Before, 0), (Side::Before, 1), (Side::Before, 2), (Side::Before, 3)] {
        let (room, list) = (&file[3 - from..], Lent::new(side, words));
        let lent = Lent::new(side, room);
        let ours = archive::compare(&lent.list()[from..], list.list());
        let input = || {
            let words = hex(words);
            format!("bytes {bytes:02X?} words {words}\npage {side:?}, {from} bytes away\narchive {ours:?} reference {wanted:?}")
        };
        if ours != wanted {
            differ("the file comparer", input());
        }
        lent.same(room, "the file comparer's bytes", input);
        list.same(words, "the file comparer's words", input);
    }
    wanted
}

/// Compares both replies with one that is known; gives 1, for counting.
fn told(bytes: &[u8], words: &[u32], wanted: Compared) -> u64 {
    let reply = both(bytes, words);
    if reply != wanted {
        differ(
            "the file comparer and the reply that is known",
            format!("bytes {bytes:02X?} words {}\nreply {reply:?} known {wanted:?}", hex(words)),
        );
    }
    1
}

/// The replies worked out by hand; gives how many.
pub fn cases() -> u64 {
    CASES.iter().map(|(bytes, words, wanted)| told(bytes, words, *wanted)).sum()
}

/// The bytes of words.
fn file(words: &[u32]) -> Vec<u8> {
    words.iter().flat_map(|w| w.to_be_bytes()).collect()
}

/// A file with one byte changed: as it is, cut off right behind that byte, with every byte behind it changed too, and with a byte more. The first word that is
/// not as it should be is the byte's own. Gives the calls.
fn changed(whole: &[u8], words: &[u32], at: usize, bit: u32) -> u64 {
    let wanted = no(at as u64 / 4);
    let mut one = whole.to_vec();
    one[at] ^= 1 << bit;
    let alone = told(&one, words, wanted) + told(&one[..=at], words, wanted);
    one[at + 1..].iter_mut().for_each(|b| *b ^= 0xFF);
    let with_others = told(&one, words, wanted);
    one.push(0);
    alone + with_others + told(&one, words, wanted)
}

/// Files of 0 to 20 words, of 33 and of 70,000: each bit of the last 20 words changed, in the longest file one or two bits of each byte; cut off before each of
/// these bytes, the longest also by 65,536; with up to 20 bytes more. The replies are those that the damage makes. Gives the calls.
pub fn damaged(r: &mut Random) -> u64 {
    let mut calls = 0;
    for count in (0..=20).chain([33, 70_000]) {
        let words: Vec<u32> = (0..count).map(|_| r.word()).collect();
        let whole = file(&words);
        calls += told(&whole, &words, YES);
        for at in whole.len().saturating_sub(80)..whole.len() {
            calls += told(&whole[..at], &words, no(at as u64 / 4));
            calls +=
                (0..8).filter(|bit| count < 70_000 || bit % 7 == at as u32 % 7).map(|bit| changed(&whole, &words, at, bit)).sum::<u64>();
        }
        for more in 1..=20 {
            calls += told(&[&whole[..], &[more; 20][..more as usize]].concat(), &words, no(count));
        }
        if let Some(cut) = whole.len().checked_sub(65_536) {
            calls += told(&whole[..cut], &words, no(cut as u64 / 4));
        }
    }
    calls
}

/// Equal files and damaged ones.
pub fn random(r: &mut Random, rounds: u64) -> Tally {
    let mut tally = Tally::default();
    for _ in 0..rounds {
        let words: Vec<u32> = (0..r.below(9)).map(|_| r.word()).collect();
        let whole = file(&words);
        let mut one = whole.clone();
        if let Some(at) = (!one.is_empty()).then(|| r.below(one.len() as u64) as usize) {
            one[at] ^= 1 << r.below(8);
        }
        let cut = whole[..r.below(whole.len() as u64 + 1) as usize].to_vec();
        let mut more = whole.clone();
        more.extend((0..r.from(1, 5)).map(|_| 0u8));
        let turned = words.iter().flat_map(|w| w.to_le_bytes()).collect();
        for f in [whole, turned, one, cut, more, Vec::new()] {
            tally.compare(&f, &words);
        }
    }
    tally
}

/// The lists of this length whose bytes are all 0 or 1.
fn zeros_and_ones(length: usize) -> impl Iterator<Item = Vec<u8>> {
    (0..1u32 << length).map(move |n| (0..length).map(|k| (n >> k & 1) as u8).collect())
}

/// Every file of up to nine bytes against every list of up to two words, all bytes 0 or 1.
pub fn every() -> Tally {
    let mut tally = Tally::default();
    let word = |four: &[u8]| u32::from_be_bytes(four.try_into().unwrap());
    for words in [0, 4, 8].into_iter().flat_map(zeros_and_ones) {
        let words: Vec<u32> = words.chunks(4).map(word).collect();
        for bytes in (0..10).flat_map(zeros_and_ones) {
            tally.compare(&bytes, &words);
        }
    }
    tally
}

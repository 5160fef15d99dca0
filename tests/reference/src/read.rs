//! DIMACS text as a clause list: comments are taken out, the rest is split into words, and these are judged as they stand. Where a text is refused is not watched for on the
//! way: whether a legal text begins with some bytes is a question of its own, and the place is found by asking it of shorter and longer beginnings.

use crate::lent::hand_over;
use crate::refusal::Refusal;

/// The greatest first number of a header.
const BOOLEANS: u64 = 536_870_911;

/// The most literals of a clause.
const LITERALS: u32 = 1_073_741_823;

/// The words of a header: `p`, `cnf` and two numbers.
const HEADER: usize = 4;

/// The blanks before a word, and the word.
type Word<'a> = (&'a [u8], &'a [u8]);

/// The text with every comment line emptied; its newline stays.
fn without_comments(text: &[u8]) -> Vec<u8> {
    let lines: Vec<&[u8]> = text.split(|b| *b == b'\n').map(|line| if line.starts_with(b"c") { &[] } else { line }).collect();
    lines.join(&b'\n')
}

/// The words of a text without comments. The last one has no blank behind it, so more bytes may lengthen it; it is empty where blanks stand last.
fn words(text: &[u8]) -> Vec<Word<'_>> {
    let blank = |b: &u8| b" \t\r\n".contains(b);
    let mut found = Vec::new();
    let mut rest = text;
    loop {
        let (gap, behind) = rest.split_at(rest.iter().position(|b| !blank(b)).unwrap_or(rest.len()));
        let (word, behind) = behind.split_at(behind.iter().position(blank).unwrap_or(behind.len()));
        found.push((gap, word));
        if behind.is_empty() {
            return found;
        }
        rest = behind;
    }
}

/// The number that the word is: digits without a leading zero, at most `most`.
fn number(word: &[u8], most: u64) -> Option<u64> {
    if !word.iter().all(u8::is_ascii_digit) || word.len() > 1 && word[0] == b'0' {
        return None;
    }
    std::str::from_utf8(word).ok()?.parse().ok().filter(|n| *n <= most)
}

/// The clause words of the numbers behind a header, and how many clauses they close; nothing where a number cannot stand where it does.
fn clauses(numbers: &[Word], booleans: u64, count: u64) -> Option<(Vec<u32>, u64)> {
    let mut list = Vec::new();
    let (mut closed, mut literals) = (0, 0);
    for (_, word) in numbers {
        if closed == count {
            return None;
        }
        let (sign, digits) = word.strip_prefix(b"-").map_or((0, *word), |digits| (1 << 29, digits));
        match (sign, number(digits, booleans)?) {
            (0, 0) => {
                list.push(3 << 30 | literals);
                closed += 1;
                literals = 0;
            }
            (_, boolean) if boolean > 0 && literals < LITERALS => {
                list.push(2 << 30 | sign | boolean as u32);
                literals += 1;
            }
            _ => return None,
        }
    }
    Some((list, closed))
}

/// What whole words say, which may stop early: the clause words, and whether the words stop where a text may; nothing where a word cannot stand where it does.
fn said(words: &[Word]) -> Option<(Vec<u32>, bool)> {
    let (header, numbers) = words.split_at(words.len().min(HEADER));
    let one_line = header.iter().skip(1).all(|(gap, _)| gap.iter().all(|b| b" \t".contains(b)));
    let named = header.iter().zip([&b"p"[..], b"cnf"]).all(|((_, word), name)| *word == name);
    if !one_line || !named {
        return None;
    }
    let limit = |k: usize, most| header.get(k).map_or(Some(0), |(_, word)| number(word, most));
    let (booleans, count) = (limit(2, BOOLEANS)?, limit(3, u64::MAX)?);
    let (list, closed) = clauses(numbers, booleans, count)?;
    Some((list, header.len() == HEADER && closed == count))
}

/// The clause words of a legal text.
pub fn legal(text: &[u8]) -> Option<Vec<u32>> {
    let text = without_comments(text);
    let mut words = words(&text);
    words.retain(|(_, word)| !word.is_empty());
    said(&words).filter(|(_, whole)| *whole).map(|(list, _)| list)
}

/// Whether some legal text begins with these bytes: the last word is finished in the shortest way that its place allows, and then all words are judged.
pub fn viable(text: &[u8]) -> bool {
    let text = without_comments(text);
    let mut words = words(&text);
    let (gap, last) = words.pop().unwrap();
    let whole: &[u8] = match (words.len(), last) {
        (0, w) if b"p".starts_with(w) => b"p",
        (1, w) if b"cnf".starts_with(w) => b"cnf",
        (2 | 3, b"") => b"0",
        (_, b"-") => b"-1",
        (_, w) => w,
    };
    if !whole.is_empty() {
        words.push((gap, whole));
    }
    said(&words).is_some()
}

/// The first byte that cannot stand where it does, or the length where a legal text begins with all bytes.
fn hopeless(text: &[u8]) -> u64 {
    let (mut begins, mut past) = (0, text.len() + 1);
    while begins + 1 < past {
        let middle = (begins + past) / 2;
        *if viable(&text[..middle]) { &mut begins } else { &mut past } = middle;
    }
    begins as u64
}

/// The whole call: the length of the list or the refusal, and the lent words as the specification leaves them.
pub fn read(text: &[u8], list: &mut [u32]) -> Result<u64, Refusal> {
    hand_over(legal(text).ok_or_else(|| Refusal { number: 16, place: hopeless(text) }), list)
}

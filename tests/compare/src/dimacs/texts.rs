//! Random DIMACS texts: in the written form, in free layout, and damaged.

use reference::random::Random;

/// The bytes that damage brings in, those that texts are made of more often than others.
const BYTES: &[u8] = b"cpnf0123456789--00    \t\t\r\r\n\n\n\0\0\x0B\x0C+x\x80\xFF";

/// The written form of a legal list.
pub fn plain(words: &[u32]) -> Vec<u8> {
    let mut text = vec![0; 12 * words.len() + 40];
    let length = reference::write::write(words, &mut text).unwrap();
    text.truncate(length as usize);
    text
}

/// Every text of a stem and up to `most` bytes of a small alphabet behind it.
pub fn every(most: u32) -> impl Iterator<Item = Vec<u8>> {
    const STEMS: [&[u8]; 8] =
        [b"", b"c", b"p cnf", b"p cnf 1", b"p cnf 0 0", b"p cnf 10 1\n", b"p cnf 1 2\n-1 0 1", b"p cnf 536870911 1 53687091"];
    const ALPHABET: &[u8; 10] = b"01-cp \t\r\n\0";
    let behind = |length: u32| {
        let text = move |k: usize| (0..length).map(move |place| ALPHABET[k / 10usize.pow(place) % 10]);
        (0..10usize.pow(length)).map(move |k| text(k).collect::<Vec<u8>>())
    };
    STEMS.into_iter().flat_map(move |stem| (0..=most).flat_map(behind).map(move |last| [stem, &last].concat()))
}

/// One to three of these bytes.
fn some(r: &mut Random, of: &[u8]) -> Vec<u8> {
    (0..r.from(1, 3)).map(|_| *r.pick(of)).collect()
}

/// A comment without its newline.
fn comment(r: &mut Random) -> Vec<u8> {
    let bytes = (0..r.below(9)).map(|_| *r.pick(BYTES)).filter(|b| *b != b'\n');
    [b'c'].into_iter().chain(bytes).collect()
}

/// What parts two numbers: mostly one space, at times other blanks, at times comment lines.
fn gap(r: &mut Random) -> Vec<u8> {
    match r.below(10) {
        0 | 1 => some(r, b" \t\r\n"),
        2 => [b"\n".to_vec(), comment(r), b"\n".to_vec()].concat(),
        3 => b"\r\n".to_vec(),
        _ => b" ".to_vec(),
    }
}

/// What stands before the header.
fn front(r: &mut Random) -> Vec<u8> {
    match r.below(6) {
        0 => some(r, b" \t\r\n"),
        1 => [comment(r), b"\n".to_vec()].concat(),
        2 => [comment(r), b"\n".to_vec(), comment(r), gap(r), b"\n".to_vec(), some(r, b" \t\r")].concat(),
        _ => Vec::new(),
    }
}

/// What stands behind the last number.
fn back(r: &mut Random) -> Vec<u8> {
    match r.below(4) {
        0 => some(r, b" \t\r\n"),
        1 => [gap(r), b"\n".to_vec(), comment(r)].concat(),
        2 => Vec::new(),
        _ => b"\n".to_vec(),
    }
}

/// A header whose two numbers mostly fit the list, and at times are greater, one too small or at their limits.
fn header(r: &mut Random, booleans: u64, clauses: u64) -> Vec<u8> {
    let booleans = match r.below(16) {
        0 => booleans.saturating_sub(1),
        1 => booleans / 10,
        2 => r.from(536_870_910, 536_870_913) as u64,
        3 | 4 => booleans + r.below(20),
        _ => booleans,
    };
    let clauses = match r.below(16) {
        0 => (clauses + 1).to_string(),
        1 => clauses.saturating_sub(1).to_string(),
        2 => (u64::MAX as u128 - 1 + r.below(4) as u128).to_string(),
        _ => clauses.to_string(),
    };
    let mut between = || if r.once_in(4) { some(r, b" \t") } else { b" ".to_vec() };
    [b"p".to_vec(), between(), b"cnf".to_vec(), between(), booleans.to_string().into(), between(), clauses.into()].concat()
}

/// A text of the list in free layout, legal where its header is right.
pub fn laid_out(r: &mut Random, words: &[u32]) -> Vec<u8> {
    let literals = words.iter().filter(|w| *w >> 30 == 2);
    let booleans = literals.map(|w| w & 0x1FFF_FFFF).max().unwrap_or(0);
    let clauses = words.iter().filter(|w| *w >> 30 == 3).count();
    let mut text = [front(r), header(r, booleans as u64, clauses as u64)].concat();
    for w in words {
        let sign = if w >> 29 == 5 { "-" } else { "" };
        let boolean = if w >> 30 == 3 { 0 } else { w & 0x1FFF_FFFF };
        text.extend(gap(r));
        text.extend(format!("{sign}{boolean}").bytes());
    }
    text.extend(back(r));
    text
}

/// One to three edits of bytes: one is changed, put in or taken out, the end is cut off, or a piece is repeated.
pub fn damage(r: &mut Random, text: &mut Vec<u8>) {
    for _ in 0..r.from(1, 3) {
        let at = r.below(text.len() as u64 + 1) as usize;
        match r.below(9) {
            0 | 1 if at < text.len() => text[at] = *r.pick(BYTES),
            2 | 3 => text.insert(at, *r.pick(BYTES)),
            4 if at < text.len() => drop(text.remove(at)),
            5 => text.truncate(at),
            6 | 7 => {
                let end = (at + r.below(9) as usize).min(text.len());
                let piece = text[at..end].to_vec();
                let to = r.below(text.len() as u64 + 1) as usize;
                text.splice(to..to, piece);
            }
            _ => text.insert(at, *r.pick(b" \t\r\n")),
        }
    }
}

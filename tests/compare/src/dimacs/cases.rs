//! DIMACS texts and clause lists with what the specification says of them, each asked of the archive and of the reference.

use super::{READ, WRITE};
use reference::random::Random;

/// Legal texts and their clause words.
const LEGAL: &[(&[u8], &str)] = &[
    (b"p cnf 4 5\n2 0\n-3 0\n4 0\n-4 2 0\n-4 1 3 0\n", P),
    // The header: numbers without clauses, blanks before it, spaces and tabs in it, any blank behind it.
    (b"p cnf 0 0", ""),
    (b"p cnf 0 0\n", ""),
    (b"p cnf 536870911 0", ""),
    (b" \t\r\n p cnf 1 1\n1 0\n", "80000001 C0000001"),
    (b"p\tcnf \t 3\t \t1\r\n3 0\r\n", "80000003 C0000001"),
    (b"p cnf 1 1\r1 0", "80000001 C0000001"),
    (b"p cnf 1 1 1 0", "80000001 C0000001"),
    (b"p cnf 1 1\t-1\t0\t", "A0000001 C0000001"),
    // Clauses: empty ones, several on a line, one on several lines, none closed by a newline.
    (b"p cnf 0 1 0", "C0000000"),
    (b"p cnf 9 3\n0 0\n0", "C0000000 C0000000 C0000000"),
    (b"p cnf 2 2\n1 -2 0 2\n0", "80000001 A0000002 C0000002 80000002 C0000001"),
    (b"p cnf 2 1\n\n1\n\n\n2\r\r0\n\n", "80000001 80000002 C0000002"),
    (b"p cnf 1 1\n1 1 -1 1 0", "80000001 80000001 A0000001 80000001 C0000004"),
    (b"p cnf 10 1\n10 1 -10 9 0\n", "8000000A 80000001 A000000A 80000009 C0000004"),
    (b"p cnf 536870911 1\n-536870911 536870911 100000000 0", "BFFFFFFF 9FFFFFFF 85F5E100 C0000003"),
    // Comments: first, between, inside a clause, last without a newline, of any bytes.
    (b"c\np cnf 1 1\n1 0\n", "80000001 C0000001"),
    (b"c p cnf 9 9\nccc\n\nc 1 0\n\tp cnf 1 1\n-1 0\n", "A0000001 C0000001"),
    (b"cp cnf 1 1\np cnf 0 0\nc", ""),
    (b"p cnf 0 0\nc no clause", ""),
    (b"p cnf 2 1\n1\nc 2 0\n-2\nc\nc\n0\nc end", "80000001 A0000002 C0000002"),
    (b"c \0\xFF\x0B\r\tp\n p cnf 1 1\nc\0\n1\nc\r\n0\r\n", "80000001 C0000001"),
    (b"p cnf 1 1\nc-1 0\n1\nc0\n0", "80000001 C0000001"),
];

/// Texts that are refused with 16: the mark stands before the first byte that cannot stand there, or at the end where a legal text begins with all of it.
const REFUSED: &[&[u8]] = &[
    // They end too soon.
    b"^",
    b" \r\n^",
    b"c^",
    b"c\r^",
    b"c only a comment^",
    b"c only a comment\n^",
    b"p^",
    b"p \t^",
    b"p c^",
    b"p cn^",
    b"p cnf^",
    b"p cnf ^",
    b"p cnf 1^",
    b"p cnf 1 ^",
    b"p cnf 1 1^",
    b"p cnf 1 1\n^",
    b"p cnf 1 1\n-^",
    b"p cnf 1 1\n1^",
    b"p cnf 1 1\n1 \r\n^",
    b"p cnf 1 1\n1\nc 0^",
    b"p cnf 1 2\n1 0\n^",
    b"p cnf 536870911 18446744073709551615\n0 -536870911^",
    // Before the header.
    b"^x",
    b"^P cnf 0 0",
    b"^1 0",
    b"^-1",
    b"^\0",
    b"^\x0B",
    b"^\x0C",
    b"^\xFF",
    b" ^c\np cnf 0 0",
    b"\t^c",
    b"\r^c\np cnf 0 0",
    b"c a\n ^c b",
    b"c a\n^b",
    // In the header.
    b"p^cnf 0 0",
    b"p^p",
    b"p^\0",
    b"p^\ncnf 0 0",
    b"p^\rcnf 0 0",
    b"p ^\ncnf 0 0",
    b"p\t^\rcnf 0 0",
    b"p ^p",
    b"p ^Cnf 0 0",
    b"p c^Nf 0 0",
    b"p c^\n",
    b"p cn^ f",
    b"p cnf^0 0",
    b"p cnf^f",
    b"p cnf^\n0 0",
    b"p cnf ^\r0 0",
    b"p cnf ^c",
    b"p cnf ^-1 0",
    b"p cnf ^+1 0",
    b"p cnf 0^0 0",
    b"p cnf 0^1 0",
    b"p cnf 1^-1",
    b"p cnf 1^\n1",
    b"p cnf 1^\r1",
    b"p cnf 1 ^\n1",
    b"p cnf 1 ^\r1",
    b"p cnf 1 ^-1",
    b"p cnf 1 ^+0",
    b"p cnf 1 0^0",
    b"p cnf 1 0^1",
    b"p cnf 53687091^2 0",
    b"p cnf 536870911^0 0",
    b"p cnf 100000000^0 0",
    b"p cnf 99999999^99999999999999999999999999999999999999 0",
    b"p cnf 429496729^7 0",
    b"p cnf 0 1844674407370955161^6",
    b"p cnf 1 1844674407370955161^7\n1 0",
    b"p cnf 0 18446744073709551615^0",
    b"p cnf 0 9999999999999999999^9",
    // Right behind the header.
    b"p cnf 0 0^c",
    b"p cnf 0 0^-",
    b"p cnf 0 0^\0\0\0",
    b"p cnf 0 0 ^c",
    b"p cnf 0 0\r^c",
    b"p cnf 1 1 ^c a comment\n1 0",
    b"p cnf 0 0\n^p cnf 0 0\n",
    b"p cnf 0 0\n ^c",
    // Signs and digits of a literal.
    b"p cnf 1 1\n-^0",
    b"p cnf 1 1\n-^ 1 0",
    b"p cnf 1 1\n-^\n1 0",
    b"p cnf 1 1\n-^-1 0",
    b"p cnf 1 1\n1^-",
    b"p cnf 1 1\n1^+",
    b"p cnf 1 1\n^+1 0",
    b"p cnf 1 1\n0^0",
    b"p cnf 9 1\n0^1 0",
    b"p cnf 9 1\n-^01 0",
    b"p cnf 1 1\n1^.0 0",
    // Literals past the header's first number.
    b"p cnf 10 1\n1^1 0",
    b"p cnf 10 1\n-1^1 0",
    b"p cnf 10 1\n10^0 0",
    b"p cnf 5 1\n^6 0",
    b"p cnf 5 1\n-^6 0",
    b"p cnf 0 1\n^1 0",
    b"p cnf 0 1\n^-1 0",
    b"p cnf 536870911 1\n53687091^2 0",
    b"p cnf 536870911 1\n-536870911^0 0",
    b"p cnf 536870911 1\n429496729^7 0",
    b"p cnf 536870911 1\n99999999^9999999999999999999999999999 0",
    // No comment, and no blank.
    b"p cnf 1 1\n1^c",
    b"p cnf 1 1\n1 ^c",
    b"p cnf 1 1\n1\r^c\n0",
    b"p cnf 1 1\n1\n ^c\n0",
    b"p cnf 1 1\n1^\0",
    b"p cnf 1 1\n1 ^\x0B0",
    b"p cnf 1 1\n1 ^\x0C0",
    b"p cnf 1 1\n^%\n",
    b"p cnf 1 1\nc\n1\nc\n^x",
    // Numbers once all clauses are closed.
    b"p cnf 1 0\n^0",
    b"p cnf 1 0 ^1",
    b"p cnf 1 0\r^-1",
    b"p cnf 1 1\n1 0^0",
    b"p cnf 1 1\n1 0^-",
    b"p cnf 1 1\n1 0 ^0",
    b"p cnf 1 1\n1 0\n^1 0",
    b"p cnf 1 1\n1 0\nc\n^-1 0",
    b"p cnf 4 2\n2 0\n-3 0\n^4 0\n",
    b"p cnf 1 1\n1 0\n^\0\0\0\0",
];

/// Clause lists and their written form.
const LISTS: &[(&str, &str)] = &[
    (P, "p cnf 4 5\n2 0\n-3 0\n4 0\n-4 2 0\n-4 1 3 0\n"),
    ("", "p cnf 0 0\n"),
    ("C0000000", "p cnf 0 1\n0\n"),
    ("C0000000 C0000000", "p cnf 0 2\n0\n0\n"),
    ("80000001 C0000001", "p cnf 1 1\n1 0\n"),
    ("A0000001 C0000001 C0000000", "p cnf 1 2\n-1 0\n0\n"),
    ("A000000A 80000009 C0000002 80000001 C0000001", "p cnf 10 2\n-10 9 0\n1 0\n"),
    ("80000064 800003E7 C0000002", "p cnf 999 1\n100 999 0\n"),
    ("80000001 9FFFFFFF C0000002", "p cnf 536870911 1\n1 536870911 0\n"),
    ("BFFFFFFF C0000001 A0000001 C0000001", "p cnf 536870911 2\n-536870911 0\n-1 0\n"),
    ("80000001 80000001 A0000001 C0000003", "p cnf 1 1\n1 1 -1 0\n"),
];

/// Clause lists that are refused, with number and place.
const BAD_LISTS: &[(&str, u64, u64)] = &[
    ("00000001", 11, 0),
    ("40000001", 11, 0),
    ("80000000", 12, 0),
    ("A0000000", 12, 0),
    ("C0000001", 13, 0),
    ("80000001 C0000002", 13, 1),
    ("80000001 C0000000", 13, 1),
    ("80000001", 14, 1),
    ("80000001 C0000001 80000002 80000003", 14, 4),
    ("80000001 C0000001 C0000001", 13, 2),
    ("80000001 C0000001 00000000", 11, 2),
    ("80000001 80000000 00000001", 12, 1),
    ("80000001 00000001 80000000", 11, 1),
    ("80000001 C0000003 80000000", 13, 1),
    ("80000001 FFFFFFFF", 13, 1),
    ("7FFFFFFF 80000000 C0000005", 11, 0),
];

/// Exercise P's clause list.
const P: &str = "80000002 C0000001 A0000003 C0000001 80000004 C0000001 A0000004 80000002 C0000002 A0000004 80000001 80000003 C0000003";

/// The words of a line in hexadecimal.
fn words(line: &str) -> Vec<u32> {
    line.split_whitespace().map(|w| u32::from_str_radix(w, 16).unwrap()).collect()
}

/// Every legal text in rooms that just fit, are longer, are one word short and empty; gives how many.
fn legal_texts(r: &mut Random) -> usize {
    for (text, line) in LEGAL {
        let list = words(line);
        for room in [list.len(), list.len() + 5, list.len().saturating_sub(1), 0] {
            let (reply, made) = READ.both(r, text, room);
            let fits = list.len() <= room;
            READ.hold((reply.number, reply.place) == (if fits { 0 } else { 15 }, 0), &format!("{reply:?}"), text);
            READ.hold(!fits || made == list, line, text);
        }
    }
    LEGAL.len()
}

/// Every refused text, with and without room; gives how many.
fn refused_texts(r: &mut Random) -> usize {
    for marked in REFUSED {
        let place = marked.iter().position(|b| *b == b'^').unwrap();
        let text = [&marked[..place], &marked[place + 1..]].concat();
        for room in [0, 7] {
            let (reply, _) = READ.both(r, &text, room);
            READ.hold((reply.number, reply.place) == (16, place as u64), &format!("{reply:?}, not at {place}"), &text);
        }
    }
    REFUSED.len()
}

/// Every list, legal in rooms that just fit, are longer, are one byte short and empty, refused with and without room; gives how many.
fn lists(r: &mut Random) -> usize {
    for (line, text) in LISTS {
        let list = words(line);
        for room in [text.len(), text.len() + 5, text.len() - 1, 0] {
            let (reply, made) = WRITE.both(r, &list, room);
            let fits = text.len() <= room;
            WRITE.hold((reply.number, reply.place) == (if fits { 0 } else { 15 }, 0), &format!("{reply:?}"), &list);
            WRITE.hold(!fits || made == text.as_bytes(), text, &list);
        }
    }
    for (line, number, place) in BAD_LISTS {
        let list = words(line);
        for room in [0, 90] {
            let (reply, _) = WRITE.both(r, &list, room);
            WRITE.hold((reply.number, reply.place) == (*number, *place), &format!("{reply:?}"), &list);
        }
    }
    LISTS.len() + BAD_LISTS.len()
}

/// All of them; gives how many texts are legal, how many refused, and how many lists.
pub fn all(r: &mut Random) -> (usize, usize, usize) {
    (legal_texts(r), refused_texts(r), lists(r))
}

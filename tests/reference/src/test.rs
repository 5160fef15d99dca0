//! The clause tester: the list is first split into clauses, with every check, and only then valued.

use crate::refusal::Refusal;

/// What the tester says.
#[derive(Clone, Copy, Debug, PartialEq, Eq)]
pub enum Verdict {
    AllTrue,
    False { clause: u64, place: u64 },
    Refused(Refusal),
}

/// The end word of an empty clause.
pub const EMPTY: u32 = 3 << 30;

/// A clause: the place of its first word, and its literals as Boolean and sign.
pub type Clause = (usize, Vec<(usize, bool)>);

/// The clauses of the list, whose Booleans are at most `values`, or the first refusal of 11 to 14.
pub fn split(values: usize, list: &[u32]) -> Result<Vec<Clause>, Refusal> {
    let refuse = |number, place: usize| Err(Refusal { number, place: place as u64 });
    let mut done = Vec::new();
    let mut open = Vec::new();
    let mut start = 0;
    for (k, w) in list.iter().enumerate() {
        match w >> 30 {
            2 => {
                let boolean = (w & 0x1FFF_FFFF) as usize;
                if boolean == 0 || boolean > values {
                    return refuse(12, k);
                }
                open.push((boolean, w & 0x2000_0000 == 0));
            }
            3 => {
                if (w & 0x3FFF_FFFF) as usize != open.len() {
                    return refuse(13, k);
                }
                done.push((start, std::mem::take(&mut open)));
                start = k + 1;
            }
            _ => return refuse(11, k),
        }
    }
    if open.is_empty() {
        Ok(done)
    } else {
        refuse(14, list.len())
    }
}

/// The verdict on the list under the value bytes.
pub fn test(values: &[u8], list: &[u32]) -> Verdict {
    if let Some(k) = values.iter().position(|v| *v > 1) {
        return Verdict::Refused(Refusal { number: 10, place: k as u64 });
    }
    let clauses = match split(values.len(), list) {
        Ok(clauses) => clauses,
        Err(refusal) => return Verdict::Refused(refusal),
    };
    let holds = |c: &Clause| c.1.iter().any(|(b, sign)| (values[b - 1] == 1) == *sign);
    match clauses.iter().position(|c| !holds(c)) {
        Some(k) => Verdict::False { clause: k as u64, place: clauses[k].0 as u64 },
        None => Verdict::AllTrue,
    }
}

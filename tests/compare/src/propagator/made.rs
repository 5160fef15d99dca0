//! Inputs that are put together so that the reply is known: chains of clauses, and faults alone and together.

use super::{refused, Input, Tally, CONFLICT, SETTLED};
use archive::Propagated;
use reference::propagate::OPEN;
use reference::random::Random;
use reference::starts::shuffled;

/// The bit that negates a literal.
const NEGATED: u32 = 1 << 29;

/// A literal of each Boolean from 1 to `n`, in a random order.
fn literals(r: &mut Random, n: usize) -> Vec<u32> {
    shuffled(r, n).into_iter().map(|k| 2 << 30 | (r.below(2) as u32) << 29 | (k as u32 + 1)).collect()
}

/// Clauses that settle the literals one behind the other: each is alone in its clause beside the opposites of earlier ones, of which the one right before it is always there.
fn links(r: &mut Random, literals: &[u32]) -> Vec<Vec<u32>> {
    let mut clauses = Vec::new();
    for (k, literal) in literals.iter().enumerate() {
        let mut clause = vec![*literal];
        if k > 0 {
            clause.push(literals[k - 1] ^ NEGATED);
            clause.extend((0..r.below(3)).map(|_| *r.pick(&literals[..k]) ^ NEGATED));
        }
        if r.once_in(4) {
            clause.push(*literal);
        }
        let order = shuffled(r, clause.len());
        clauses.push(order.into_iter().map(|k| clause[k]).collect());
    }
    clauses
}

/// Chains of up to 60 Booleans, the clauses as the work goes, the other way round, or in a random order; one in three ends in a clause of opposites, so in a conflict. Some
/// of the literals are given by the values.
pub fn chains(r: &mut Random, rounds: u64) -> Tally {
    let mut tally = Tally::default();
    for _ in 0..rounds {
        let n = r.from(1, 60) as usize;
        let literals = literals(r, n);
        let mut clauses = links(r, &literals);
        let conflict = r.once_in(3);
        if conflict {
            clauses.push(vec![literals[n - 1] ^ NEGATED, *r.pick(&literals) ^ NEGATED]);
        }
        match r.below(3) {
            0 => {}
            1 => clauses.reverse(),
            _ => clauses = shuffled(r, clauses.len()).into_iter().map(|k| clauses[k].clone()).collect(),
        }
        let list: Vec<u32> = clauses.iter().flat_map(|c| [&c[..], &[3 << 30 | c.len() as u32]].concat()).collect();
        let (mut values, mut bytes) = (vec![OPEN; n], vec![OPEN; n]);
        let given = r.from(2, 40) as u64;
        for w in literals {
            let (at, truth) = ((w & 0x1FFF_FFFF) as usize - 1, (w & NEGATED == 0) as u8);
            bytes[at] = truth;
            values[at] = if r.once_in(given) { truth } else { OPEN };
        }
        let input = Input::new(&values, &list);
        let (wanted, bytes) = if conflict { (CONFLICT, values) } else { (SETTLED, bytes) };
        tally.known(r, &input, wanted, &bytes);
    }
    tally
}

/// All the faults, by the numbers of their refusals.
const FAULTS: [u64; 6] = [10, 11, 12, 13, 14, 19];

/// An input that gets faults in the order in which the checks come to them, and the reply, which is that of the first.
struct Faulty {
    input: Input,
    reply: Option<Propagated>,
}

impl Faulty {
    /// Notes a fault.
    fn fault(&mut self, number: u64, place: usize) {
        self.reply = self.reply.or(Some(refused(number, place as u64)));
    }

    /// Puts a byte above 2 among the values, and sometimes another.
    fn byte(&mut self, r: &mut Random) {
        let at = r.below(self.input.values.len() as u64) as usize;
        self.input.values[at] = r.from(3, 255) as u8;
        self.fault(10, at);
        if r.once_in(2) {
            *self.input.values.last_mut().unwrap() = 3;
        }
    }

    /// Puts legal clauses behind the list and, where there is to be a fault of 11 to 13, a literal and the fault.
    fn words(&mut self, r: &mut Random, number: Option<u64>) {
        let n = self.input.values.len() as u64;
        let list = &mut self.input.list;
        list.extend(r.clause_list(n));
        let Some(number) = number else { return };
        list.push(2 << 30 | r.from(1, n as i64) as u32);
        let place = list.len();
        match number {
            11 => list.push(r.word() >> 1),
            12 => list.extend([2 << 30 | (r.below(2) as u32) << 29 | *r.pick(&[0, n as u32 + 1, 0x1FFF_FFFF]), 3 << 30 | 2]),
            _ => list.push(3 << 30 | *r.pick(&[0, 2, 0x3FFF_FFFF])),
        }
        self.fault(number, place);
    }

    /// Puts literals without an end word behind the list.
    fn stop(&mut self, r: &mut Random) {
        let n = self.input.values.len() as i64;
        for _ in 0..r.from(1, 3) {
            self.input.list.push(2 << 30 | r.from(1, n) as u32);
        }
        self.fault(14, self.input.list.len());
    }

    /// Makes the buffer empty, one byte shorter, or one longer.
    fn room(&mut self, r: &mut Random) {
        let n = self.input.values.len();
        self.input.room = *r.pick(&[0, n - 1, n + 1]);
        self.fault(19, 0);
    }
}

/// An input with these faults.
fn faulty(r: &mut Random, faults: &[u64]) -> Faulty {
    let n = r.from(1, 6) as u64;
    let mut f = Faulty { input: Input::new(&super::values(r, n), &[]), reply: None };
    if faults.contains(&10) {
        f.byte(r);
    }
    for k in shuffled(r, 3) {
        let number = k as u64 + 11;
        f.words(r, faults.contains(&number).then_some(number));
    }
    if faults.contains(&14) {
        f.stop(r);
    }
    if faults.contains(&19) {
        f.room(r);
    }
    f
}

/// Every choice of one or more of the six faults, that many times.
pub fn faults(r: &mut Random, rounds: u64) -> Tally {
    let mut tally = Tally::default();
    for _ in 0..rounds {
        for choice in 1..1u32 << FAULTS.len() {
            let faults: Vec<u64> = (0..FAULTS.len()).filter(|k| choice >> k & 1 == 1).map(|k| FAULTS[k]).collect();
            let f = faulty(r, &faults);
            tally.known(r, &f.input, f.reply.unwrap(), &[]);
        }
    }
    tally
}

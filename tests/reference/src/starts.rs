//! Starting bytes for unit propagation on a list of the encoder: some order Booleans are fixed, and all other Booleans are open.

use crate::constraint::Constraint;
use crate::propagate::OPEN;
use crate::random::Random;

/// Which values of the terms the order Booleans stand for: all 0; as high as the bound allows, term by term in a random order; or any.
#[derive(Clone, Copy, Debug)]
pub enum Kind {
    Low,
    High,
    Random,
}

/// All kinds.
pub const KINDS: [Kind; 3] = [Kind::Low, Kind::High, Kind::Random];

/// The numbers below `n` in a random order.
pub fn shuffled(r: &mut Random, n: usize) -> Vec<usize> {
    let mut order: Vec<usize> = (0..n).collect();
    for k in 1..n {
        order.swap(k, r.below(k as u64 + 1) as usize);
    }
    order
}

/// Values of a kind, one a term.
fn choice(r: &mut Random, kind: Kind, c: &Constraint) -> Vec<i64> {
    let mut left = c.bound;
    let mut chosen = vec![0; c.terms.len()];
    for k in shuffled(r, c.terms.len()) {
        let t = c.terms[k];
        chosen[k] = match kind {
            Kind::Low => 0,
            Kind::High => (left / t.a).clamp(0, t.d),
            Kind::Random => r.from(0, t.d),
        };
        left -= t.a * chosen[k];
    }
    chosen
}

/// The bytes of all order Booleans under values of a kind.
pub fn orders(r: &mut Random, kind: Kind, c: &Constraint) -> Vec<u8> {
    c.terms.iter().zip(choice(r, kind, c)).flat_map(|(t, y)| (1..=t.d).map(move |j| (y < j) as u8)).collect()
}

/// Opens all but one in `n` of the bytes, and puts open ones behind them up to the count.
pub fn some(r: &mut Random, n: u64, mut bytes: Vec<u8>, count: usize) -> Vec<u8> {
    for b in &mut bytes {
        if !r.once_in(n) {
            *b = OPEN;
        }
    }
    bytes.resize(count, OPEN);
    bytes
}

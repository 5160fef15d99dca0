//! By force, what is known of a small constraint when some of its order Booleans are fixed: all values of these that obey the order rule and the constraint are gone through.

use crate::propagate::OPEN;
use crate::written::Written;

/// The order Booleans, as bytes, under every choice of values that satisfies the constraint. A choice stands for its order Booleans, so no others obey the order rule.
pub fn satisfying(w: &Written) -> Vec<Vec<u8>> {
    let bytes = |values: &Vec<i64>| w.orders(values).into_iter().map(u8::from).collect();
    w.domains().iter().filter(|values| w.holds(values)).map(bytes).collect()
}

/// What those of them that have the fixed bytes agree on, and an open byte where they do not; nothing where none has the fixed bytes.
pub fn agreed(all: &[Vec<u8>], fixed: &[u8]) -> Option<Vec<u8>> {
    let fits = |bytes: &&Vec<u8>| fixed.iter().zip(*bytes).all(|(f, b)| *f == OPEN || f == b);
    let mut completions = all.iter().filter(fits);
    let mut agreed = completions.next()?.clone();
    for bytes in completions {
        for (a, b) in agreed.iter_mut().zip(bytes) {
            *a = if a == b { *b } else { OPEN };
        }
    }
    Some(agreed)
}

//! Lent lists as a call leaves them.

use crate::refusal::Refusal;

/// Puts `made` first and zeros behind it.
pub fn place<T: Copy + Default>(lent: &mut [T], made: &[T]) {
    lent[..made.len()].copy_from_slice(made);
    lent[made.len()..].fill(T::default());
}

/// Places what was made and gives its length, or refuses with 15 where it does not fit; every refusal leaves zeros alone.
pub fn hand_over<T: Copy + Default>(made: Result<Vec<T>, Refusal>, lent: &mut [T]) -> Result<u64, Refusal> {
    let fitting = made.and_then(|m| if m.len() <= lent.len() { Ok(m) } else { Err(Refusal { number: 15, place: 0 }) });
    place(lent, fitting.as_deref().unwrap_or(&[]));
    fitting.map(|m| m.len() as u64)
}

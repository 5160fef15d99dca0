//! Lists as they are lent to the archive: an unreadable page on one side, so that a read or write past that end stops the program, and a margin on the
//! other, which shows a write.

use crate::call::differ;
use crate::guarded::Run;
use archive::Node;
use reference::random::Random;
use std::fmt::Debug;

/// How many bytes on the side without the page a call must leave as they are, and what each of them holds.
const MARGIN: usize = 32;
const FILL: u8 = 0xA5;

/// Where the unreadable page lies: right before the first element, or right behind the last.
#[derive(Clone, Copy, Debug)]
pub enum Side {
    Before,
    Behind,
}

/// Both sides: every call is made with the page on the one, and then on the other.
pub const SIDES: [Side; 2] = [Side::Behind, Side::Before];

/// Rubbish for a call to write over, each element made from a word.
pub fn rubbish<T>(r: &mut Random, length: usize, of: fn(u32) -> T) -> Vec<T> {
    let salt = r.word() | 1;
    (0..length).map(|k| of((k as u32).wrapping_add(salt).wrapping_mul(salt))).collect()
}

/// What lists are lent of.
pub trait Element: Copy + PartialEq + Debug {}

impl Element for u8 {}
impl Element for u32 {}
impl Element for Node {}

/// A list at the edge of a run, and the margin beside it. An empty list is the place of that edge.
pub struct Lent<T> {
    _run: Run,
    first: *mut T,
    length: usize,
    margin: *mut u8,
}

impl<T: Element> Lent<T> {
    /// A copy of the list with the page on this side.
    pub fn new(side: Side, list: &[T]) -> Lent<T> {
        let bytes = size_of_val(list);
        let run = Run::with_room(bytes + MARGIN);
        let (first, margin) = match side {
            Side::Before => (run.start(), run.start().wrapping_add(bytes)),
            Side::Behind => (run.end().wrapping_sub(bytes), run.end().wrapping_sub(bytes + MARGIN)),
        };
        let first = first.cast::<T>();
        // SAFETY: both parts lie in the run, which no other list lies in; an edge of whole pages is aligned for any element.
        unsafe {
            first.copy_from_nonoverlapping(list.as_ptr(), list.len());
            margin.write_bytes(FILL, MARGIN);
        }
        Lent { _run: run, first, length: list.len(), margin }
    }

    /// What is lent to be read.
    pub fn list(&self) -> &[T] {
        // SAFETY: the elements were copied here, and the run is kept as long as the list.
        unsafe { std::slice::from_raw_parts(self.first, self.length) }
    }

    /// What is lent to be written.
    pub fn list_mut(&mut self) -> &mut [T] {
        // SAFETY: as above, and nothing else lies in the run.
        unsafe { std::slice::from_raw_parts_mut(self.first, self.length) }
    }

    /// Ends the program where an element differs from what is wanted after the call, or the margin from what it was before.
    pub fn same(&self, wanted: &[T], name: &str, input: impl Fn() -> String) {
        // SAFETY: the margin was filled and lies in the run.
        let margin = unsafe { std::slice::from_raw_parts(self.margin, MARGIN) };
        if margin != [FILL; MARGIN] {
            differ(name, format!("{}\nwritten outside the list: {margin:02X?}", input()));
        }
        if self.list() != wanted {
            let at = self.list().iter().zip(wanted).position(|(a, b)| a != b).unwrap();
            differ(name, format!("{}\nelement {at}: archive {:X?}, wanted {:X?}", input(), self.list()[at], wanted[at]));
        }
    }
}

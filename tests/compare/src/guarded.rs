//! Memory between unreadable pages: a read or write there stops the program.

use std::cell::RefCell;
use std::ffi::{c_int, c_void};

/// The readable bytes of a run: whole pages, and more than any list here takes.
const READABLE: usize = 1 << 25;

/// The unreadable bytes on either side of them: whole pages, and many, so that a step over the edge by far is stopped too.
const GUARD: usize = 1 << 20;

// The values of x86-64 Linux, which the archive is for.
const PROT_NONE: c_int = 0;
const PROT_READ_WRITE: c_int = 1 | 2;
const MAP_PRIVATE_ANONYMOUS: c_int = 0x02 | 0x20;

extern "C" {
    fn mmap(address: *mut c_void, length: usize, protection: c_int, flags: c_int, file: c_int, offset: i64) -> *mut c_void;
    fn mprotect(address: *mut c_void, length: usize, protection: c_int) -> c_int;
}

thread_local! {
    /// The starts of the runs that no list lies in, kept because mapping one anew takes longer than most calls.
    static SPARE: RefCell<Vec<*mut u8>> = const { RefCell::new(Vec::new()) };
}

/// A run of readable bytes with unreadable pages right before its first byte and right behind its last.
pub struct Run {
    start: *mut u8,
}

impl Run {
    /// A run that no other list lies in, with room for a list of this many bytes.
    pub fn with_room(bytes: usize) -> Run {
        assert!(bytes <= READABLE, "a list of {bytes} bytes is longer than a run");
        let spare = SPARE.with_borrow_mut(Vec::pop);
        Run { start: spare.unwrap_or_else(mapped) }
    }

    /// The first readable byte.
    pub fn start(&self) -> *mut u8 {
        self.start
    }

    /// The first unreadable byte behind the run.
    pub fn end(&self) -> *mut u8 {
        self.start.wrapping_add(READABLE)
    }
}

impl Drop for Run {
    /// Keeps the memory for the next list.
    fn drop(&mut self) {
        SPARE.with_borrow_mut(|spare| spare.push(self.start));
    }
}

/// The start of new readable bytes: unreadable pages are mapped, and those in their middle made readable.
fn mapped() -> *mut u8 {
    // SAFETY: the mapping is new, so nothing else uses a byte of it.
    unsafe {
        let whole = mmap(std::ptr::null_mut(), GUARD + READABLE + GUARD, PROT_NONE, MAP_PRIVATE_ANONYMOUS, -1, 0);
        assert!(whole as isize != -1, "no memory to map: {}", std::io::Error::last_os_error());
        let start = whole.byte_add(GUARD);
        assert!(mprotect(start, READABLE, PROT_READ_WRITE) == 0, "no readable memory: {}", std::io::Error::last_os_error());
        start.cast()
    }
}

//! The calls of include/pongilad.h, for Rust, and the programs beside them.

pub mod program;

#[repr(C)]
#[derive(Clone, Copy, Debug, PartialEq, Eq)]
pub struct Encoded {
    pub number: u64,
    pub place: u64,
    pub nodes: u64,
    pub edges: u64,
    pub words: u64,
}

#[repr(C)]
#[derive(Clone, Copy, Debug, PartialEq, Eq)]
pub struct Node {
    pub level: u32,
    pub lower: u32,
    pub upper: u32,
    pub first: u32,
    pub entering: u32,
}

#[repr(C)]
#[derive(Clone, Copy, Debug, PartialEq, Eq)]
pub struct Found {
    pub found: u64,
    pub number: u64,
}

#[repr(C)]
#[derive(Clone, Copy, Debug, PartialEq, Eq)]
pub struct Tested {
    pub verdict: u64,
    pub number: u64,
    pub place: u64,
}

#[repr(C)]
#[derive(Clone, Copy, Debug, PartialEq, Eq)]
pub struct Propagated {
    pub verdict: u64,
    pub number: u64,
    pub place: u64,
}

#[repr(C)]
#[derive(Clone, Copy, Debug, PartialEq, Eq)]
pub struct Marked {
    pub right: u64,
    pub number: u64,
    pub place: u64,
}

#[repr(C)]
#[derive(Clone, Copy, Debug, PartialEq, Eq)]
pub struct Compared {
    pub same: u64,
    pub word: u64,
}

#[repr(C)]
#[derive(Clone, Copy, Debug, PartialEq, Eq)]
pub struct Text {
    pub number: u64,
    pub place: u64,
    pub length: u64,
}

extern "C" {
    fn pongilad_encode(
        words: *const u32,
        n: usize,
        table: *mut u32,
        t: usize,
        edges: *mut u32,
        e: usize,
        clauses: *mut u32,
        w: usize,
    ) -> Encoded;
    fn pongilad_encode_with(
        most_terms: u64,
        most_nodes: u64,
        words: *const u32,
        n: usize,
        table: *mut u32,
        t: usize,
        edges: *mut u32,
        e: usize,
        clauses: *mut u32,
        w: usize,
    ) -> Encoded;
    fn pongilad_find(table: *const u32, n: usize, level: u32, remainder: u32) -> Found;
    fn pongilad_find_node(nodes: *const Node, n: usize, level: u32, remainder: u32) -> Found;
    fn pongilad_test(values: *const u8, v: usize, clauses: *const u32, w: usize) -> Tested;
    fn pongilad_propagate(values: *const u8, v: usize, clauses: *const u32, w: usize, settled: *mut u8, s: usize) -> Propagated;
    fn pongilad_mark(words: *const u32, n: usize, table: *const u32, t: usize, edges: *const u32, e: usize) -> Marked;
    fn pongilad_compare(bytes: *const u8, b: usize, words: *const u32, w: usize) -> Compared;
    fn pongilad_write(clauses: *const u32, w: usize, text: *mut u8, t: usize) -> Text;
    fn pongilad_read(text: *const u8, t: usize, clauses: *mut u32, w: usize) -> Text;
}

/// The encoder.
pub fn encode(words: &[u32], table: &mut [u32], edges: &mut [u32], clauses: &mut [u32]) -> Encoded {
    let (t, e, w) = (table.len(), edges.len(), clauses.len());
    unsafe { pongilad_encode(words.as_ptr(), words.len(), table.as_mut_ptr(), t, edges.as_mut_ptr(), e, clauses.as_mut_ptr(), w) }
}

/// The encoder under limits on terms and nodes.
pub fn encode_with(terms: u64, nodes: u64, words: &[u32], table: &mut [u32], edges: &mut [u32], clauses: &mut [u32]) -> Encoded {
    let (n, t, e, w) = (words.len(), table.len(), edges.len(), clauses.len());
    let [table, edges, clauses] = [table, edges, clauses].map(<[u32]>::as_mut_ptr);
    unsafe { pongilad_encode_with(terms, nodes, words.as_ptr(), n, table, t, edges, e, clauses, w) }
}

/// The finder.
pub fn find(table: &[u32], level: u32, remainder: u32) -> Found {
    unsafe { pongilad_find(table.as_ptr(), table.len(), level, remainder) }
}

/// The finder over records.
pub fn find_node(nodes: &[Node], level: u32, remainder: u32) -> Found {
    unsafe { pongilad_find_node(nodes.as_ptr(), nodes.len(), level, remainder) }
}

/// The clause tester.
pub fn test(values: &[u8], clauses: &[u32]) -> Tested {
    unsafe { pongilad_test(values.as_ptr(), values.len(), clauses.as_ptr(), clauses.len()) }
}

/// The propagator.
pub fn propagate(values: &[u8], clauses: &[u32], settled: &mut [u8]) -> Propagated {
    let s = settled.len();
    unsafe { pongilad_propagate(values.as_ptr(), values.len(), clauses.as_ptr(), clauses.len(), settled.as_mut_ptr(), s) }
}

/// The marker.
pub fn mark(words: &[u32], table: &[u32], edges: &[u32]) -> Marked {
    unsafe { pongilad_mark(words.as_ptr(), words.len(), table.as_ptr(), table.len(), edges.as_ptr(), edges.len()) }
}

/// The file comparer.
pub fn compare(bytes: &[u8], words: &[u32]) -> Compared {
    unsafe { pongilad_compare(bytes.as_ptr(), bytes.len(), words.as_ptr(), words.len()) }
}

/// The writer of DIMACS text.
pub fn write(clauses: &[u32], text: &mut [u8]) -> Text {
    unsafe { pongilad_write(clauses.as_ptr(), clauses.len(), text.as_mut_ptr(), text.len()) }
}

/// The reader of DIMACS text.
pub fn read(text: &[u8], clauses: &mut [u32]) -> Text {
    unsafe { pongilad_read(text.as_ptr(), text.len(), clauses.as_mut_ptr(), clauses.len()) }
}

//! A second implementation of the calls, for comparison with the proved archive. It shares no code with the archive:
//! the diagram is built from sets of reachable sums (`sums`) or with an ordered map a level (`maps`), on the heap, and only then copied into the lent lists.

pub mod clauses;
pub mod compare;
pub mod completions;
pub mod constraint;
pub mod diagram;
pub mod encode;
pub mod find;
pub mod fixed;
pub mod lent;
pub mod limits;
pub mod maps;
pub mod mark;
pub mod propagate;
pub mod random;
pub mod read;
pub mod refusal;
pub mod starts;
pub mod sums;
pub mod test;
pub mod words;
pub mod write;
pub mod written;

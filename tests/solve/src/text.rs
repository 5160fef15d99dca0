//! The text that the solvers are asked about, beside the clause words that it stands for.

use archive::program::{bytes_of, printed};
use reference::diagram::RECORD;

/// A text and its clause words.
pub struct Clauses {
    pub text: String,
    pub words: Vec<u32>,
}

impl Clauses {
    /// What the program prints for the constraint of the words, and the encoder's clause words.
    pub fn of(constraint: &[u32]) -> Clauses {
        let (mut table, mut edges, mut words) = (vec![0; RECORD * 1_024], vec![0; 8_192], vec![0; 16_384]);
        let reply = archive::encode(constraint, &mut table, &mut edges, &mut words);
        assert_eq!(reply.number, 0, "{constraint:08X?} is refused");
        words.truncate(reply.words as usize);
        let text = String::from_utf8(printed("dimacs", &bytes_of(constraint))).unwrap();
        Clauses { text, words }.read_back()
    }

    /// The same with a clause of one literal more for each of these, and the header's clause count raised to it.
    pub fn with(&self, literals: &[i64]) -> Clauses {
        let (header, clauses) = self.text.split_once('\n').unwrap();
        let (front, count) = header.rsplit_once(' ').unwrap();
        let count = count.parse::<usize>().unwrap() + literals.len();
        let units: String = literals.iter().map(|l| format!("{l} 0\n")).collect();
        let word = |l: &i64| 2 << 30 | ((*l < 0) as u32) << 29 | l.unsigned_abs() as u32;
        let words = self.words.iter().copied().chain(literals.iter().flat_map(|l| [word(l), 3 << 30 | 1])).collect();
        Clauses { text: format!("{front} {count}\n{clauses}{units}"), words }.read_back()
    }

    /// Ends the program unless the text is read back into its words.
    fn read_back(self) -> Clauses {
        let mut list = vec![0; self.words.len()];
        let reply = archive::read(self.text.as_bytes(), &mut list);
        if (reply.number, reply.length) != (0, list.len() as u64) || list != self.words {
            eprintln!("difference: {reply:?}, and other words than the encoder's, are read from\n{}", self.text);
            std::process::exit(1);
        }
        self
    }
}

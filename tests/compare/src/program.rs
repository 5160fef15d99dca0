//! The programs that read constraint words: their whole output against text made from the separate encoder's own result.

use crate::call::{differ, hex, reply_of, Given};
use crate::inputs::{constraint, damage, large};
use crate::signed;
use archive::program::{bytes_of, printed};
use reference::diagram::RECORD;
use reference::encode::encode;
use reference::limits::Limits;
use reference::random::Random;
use reference::sums;

/// The most words that the programs read.
const MOST: usize = 131;

/// The words of an input: every second one has relations, signs and lower ends, and of each kind some are large and some damaged.
fn input(r: &mut Random, k: u64) -> Vec<u32> {
    let signs = k % 2 == 1;
    let mut words = match (signs, k / 2 % 4) {
        (false, 0) => large(r).words(),
        (false, _) => constraint(r).words(),
        (true, 0) => signed::large(r),
        (true, _) => signed::small(r),
    };
    match (signs, k / 2 % 4) {
        (false, 1) => damage(r, &mut words),
        (true, 1 | 2) => signed::damage(r, &mut words),
        _ => {}
    }
    words
}

/// Compares what the program of this name prints with what is wanted; of a long input the front is told.
pub fn expect(name: &str, bytes: &[u8], wanted: &str) {
    let told = printed(name, bytes);
    if told != wanted.as_bytes() {
        let (told, wanted) = (told.escape_ascii(), wanted.escape_default());
        differ(name, format!("{} bytes {:02X?}\nprinted {told}\nwanted  {wanted}", bytes.len(), &bytes[..bytes.len().min(2_000)]));
    }
}

/// A program by its name, and what it prints for an accepted constraint.
pub struct Program {
    pub name: &'static str,
    pub prints: fn(&Given) -> String,
}

impl Program {
    /// The output for a list of words, with the programs' room.
    fn output(&self, words: &[u32]) -> String {
        let (mut table, mut edges, mut clauses) = (vec![0; RECORD * 1_024], vec![0; 8_192], vec![0; 16_384]);
        let reply = reply_of(encode(sums::build, Limits::MAIN, words, &mut table, &mut edges, &mut clauses));
        match reply.number {
            0 => (self.prints)(&Given { reply, table, edges, clauses }),
            number => format!("refused {number} at {}\n", reply.place),
        }
    }

    /// Compares the program's output with what is wanted.
    fn expect(&self, bytes: &[u8], wanted: &str) {
        expect(self.name, bytes, wanted);
    }

    /// Compares the output for the words of accepted constraints with what the specification makes of them; gives how many.
    pub fn examples(&self, cases: &[(&[u32], &str)]) -> u64 {
        for (words, wanted) in cases {
            self.expect(&bytes_of(words), wanted);
        }
        cases.len() as u64
    }

    /// Lengths around the ends, with the specification's lines, and the longest constraint; gives how many.
    pub fn ends(&self) -> u64 {
        let terms: Vec<u32> = [0].into_iter().chain([0x4001_0001; 65]).collect();
        let pairs: Vec<u32> = [0].into_iter().chain([[0xA000_0000, 0x4001_0001]; 65].concat()).collect();
        let late: Vec<u32> = pairs[..129].iter().copied().chain([0x4001_0001, 0xA000_0000]).collect();
        let cases: [(Vec<u8>, &str); 11] = [
            (vec![], "refused 1 at 0\n"),
            (vec![0], "bad length\n"),
            (vec![0; 264], "refused 2 at 1\n"),
            (vec![0; 265], "bad length\n"),
            (vec![0; 523], "bad length\n"),
            (vec![0; 524], "refused 2 at 1\n"),
            (vec![0; 525], "too long\n"),
            (vec![0; 528], "too long\n"),
            (bytes_of(&terms), "refused 3 at 66\n"),
            (bytes_of(&pairs), "refused 3 at 131\n"),
            (bytes_of(&late), "refused 2 at 131\n"),
        ];
        for (bytes, wanted) in &cases {
            self.expect(bytes, wanted);
        }
        let longest: Vec<u32> = [0x2000_0007, 0xC000_0001].iter().chain(&pairs[1..129]).copied().collect();
        self.expect(&bytes_of(&longest), &self.output(&longest));
        cases.len() as u64 + 1
    }

    /// Random constraints, small, large and damaged; gives how many were refused by number.
    pub fn random(&self, r: &mut Random, count: u64) -> [u64; 19] {
        let mut numbers = [0; 19];
        for k in 0..count {
            let words = input(r, k);
            let wanted = if words.len() > MOST { "too long\n".to_string() } else { self.output(&words) };
            if let Some(rest) = wanted.strip_prefix("refused ") {
                numbers[rest.split(' ').next().unwrap().parse::<usize>().unwrap_or_else(|_| differ("number", hex(&words)))] += 1;
            }
            self.expect(&bytes_of(&words), &wanted);
        }
        numbers
    }
}

//! Times the file comparer on 16 MiB against a byte loop, a loop with one word a turn, and `memcmp`, which say only yes or no.

use crate::once;
use reference::random::Random;
use std::ffi::c_void;
use std::hint::black_box;
use std::time::{Duration, Instant};

/// The file's length, in MiB.
const SIZE: usize = 16;

extern "C" {
    fn memcmp(a: *const c_void, b: *const c_void, n: usize) -> i32;
}

/// The yes and no of the comparer as a byte loop: one comparison a byte.
fn by_bytes(bytes: &[u8], words: &[u32]) -> bool {
    for (four, w) in bytes.chunks_exact(4).zip(words) {
        for (k, b) in four.iter().enumerate() {
            if *b != (w >> (24 - 8 * k)) as u8 {
                return false;
            }
        }
    }
    bytes.len() == 4 * words.len()
}

/// The same with one comparison a word, one word a turn, and both lengths looked at in each, as ours was once.
fn by_words(bytes: &[u8], words: &[u32]) -> bool {
    for (k, w) in words.iter().enumerate() {
        match bytes.get(4 * k..4 * k + 4) {
            Some(&[a, b, c, d]) if u32::from_be_bytes([a, b, c, d]) == *w => (),
            _ => return false,
        }
    }
    bytes.len() == 4 * words.len()
}

/// Whether the bytes are those of the words as they lie in memory.
fn by_memory(bytes: &[u8], swapped: &[u32]) -> bool {
    bytes.len() == 4 * swapped.len() && unsafe { memcmp(bytes.as_ptr().cast(), swapped.as_ptr().cast(), bytes.len()) } == 0
}

/// Puts each word's highest byte first in memory.
fn swap(words: &[u32], swapped: &mut [u32]) {
    for (s, w) in swapped.iter_mut().zip(words) {
        *s = w.to_be();
    }
}

/// The least time of each way to compare a file with its words: ours, the two loops, `memcmp` on words swapped beforehand, and `memcmp` with the swapping.
fn least(bytes: &[u8], words: &[u32]) -> [f64; 5] {
    let [mut swapped, mut room] = [words.to_vec(), words.to_vec()];
    swap(words, &mut swapped);
    let mut times = [f64::MAX; 5];
    let begin = Instant::now();
    let mut rounds = 0;
    while rounds < 3 || begin.elapsed() < Duration::from_secs(2) {
        let calls: [&mut dyn FnMut() -> bool; 5] = [
            &mut || archive::compare(black_box(bytes), black_box(words)).same == 1,
            &mut || by_bytes(black_box(bytes), black_box(words)),
            &mut || by_words(black_box(bytes), black_box(words)),
            &mut || by_memory(black_box(bytes), black_box(&swapped)),
            &mut || {
                swap(black_box(words), &mut room);
                by_memory(black_box(bytes), black_box(&room))
            },
        ];
        for (time, call) in times.iter_mut().zip(calls) {
            *time = time.min(once(1, &mut || assert!(call(), "the file is not the words")));
        }
        rounds += 1;
    }
    times
}

/// Times a file that is its words, so that all of it is compared.
pub fn file() {
    let mut r = Random::new(1);
    let words: Vec<u32> = (0..SIZE << 18).map(|_| r.word()).collect();
    let bytes: Vec<u8> = words.iter().flat_map(|w| w.to_be_bytes()).collect();
    let times = least(&bytes, &words);
    println!("File comparer, {SIZE} MiB that are the words: times in microseconds, and ours over each.");
    let names = ["ours", "a byte loop", "a loop with a word a turn", "memcmp, words swapped before", "words swapped, then memcmp"];
    for (name, time) in names.iter().zip(times) {
        println!("{name:>30} {:>12.2} {:>8.2}", time * 1e6, times[0] / time);
    }
}

//! Times the writer and the reader of DIMACS text, both ways in the same run, calls in turn, the least time of each.

use crate::once;
use reference::{fixed, read, sums, write};
use std::hint::black_box;
use std::time::{Duration, Instant};

/// A call from one list into another.
type Call<I, T> = fn(&[I], &mut [T]);

/// The least time of each call, in turn, at least three times each, in a room as long as `made`, which each of them must make.
fn least<I, T: Copy + Default + PartialEq>(reps: u32, calls: [Call<I, T>; 3], input: &[I], made: &[T]) -> [f64; 3] {
    let mut times = [f64::MAX; 3];
    let mut room = made.to_vec();
    let begin = Instant::now();
    let mut rounds = 0;
    while rounds < 3 || begin.elapsed() < Duration::from_millis(500) {
        for (time, call) in times.iter_mut().zip(calls) {
            room.fill(T::default());
            *time = time.min(once(reps, &mut || call(black_box(input), black_box(&mut room))));
            assert!(room == made, "another result");
        }
        rounds += 1;
    }
    times
}

/// The text of a list that is taken to be legal and to fit: each number is formatted, and nothing else is looked at but what the header needs.
fn plainly(list: &[u32], text: &mut [u8]) {
    use std::io::Write as _;
    let mut rest = text;
    let boolean = |w: &u32| if w >> 30 == 2 { w & 0x1FFF_FFFF } else { 0 };
    let greatest = list.iter().map(boolean).max().unwrap_or(0);
    writeln!(rest, "p cnf {greatest} {}", list.iter().filter(|w| *w >> 30 == 3).count()).unwrap();
    for w in list {
        match w >> 29 {
            4 => write!(rest, "{} ", boolean(w)),
            5 => write!(rest, "-{} ", boolean(w)),
            _ => writeln!(rest, "0"),
        }
        .unwrap();
    }
}

/// The clause words of a text that is taken to be legal and to fit: every number behind the header is parsed, and nothing else is looked at.
fn parsed(text: &[u8], list: &mut [u32]) {
    let mut literals = 0;
    let numbers = std::str::from_utf8(text).unwrap().split_ascii_whitespace().skip(4);
    for (word, n) in list.iter_mut().zip(numbers.map(|n| n.parse::<i32>().unwrap())) {
        *word = if n == 0 { 3 << 30 | literals } else { 2 << 30 | ((n < 0) as u32) << 29 | n.unsigned_abs() };
        literals = if n == 0 { 0 } else { literals + 1 };
    }
}

/// Takes a reply that only has to be made.
fn ignore<R>(reply: R) {
    black_box(reply);
}

/// A line on one kind of call: our time, that of two others, the ratios, and our speed over the text.
fn line(name: &str, bytes: usize, [ours, plain, reference]: [f64; 3]) {
    println!(
        "{name:>20} {bytes:>9} {:>12.2} {:>12.2} {:>12.2} {:>8.2} {:>8.2} {:>8.1}",
        ours * 1e6,
        plain * 1e6,
        reference * 1e6,
        ours / plain,
        ours / reference,
        bytes as f64 / ours / 1e6
    );
}

/// Times both calls on one list.
fn both(name: &str, list: &[u32]) {
    let mut text = vec![0; 12 * list.len() + 40];
    let bytes = write::write(list, &mut text).unwrap() as usize;
    text.truncate(bytes);
    let reps = (100_000 / bytes as u32).max(1);
    let writers: [Call<u32, u8>; 3] = [|l, t| ignore(archive::write(l, t)), plainly, |l, t| ignore(write::write(l, t))];
    line(&format!("write {name}"), bytes, least(reps, writers, list, &text));
    let readers: [Call<u8, u32>; 3] = [|t, l| ignore(archive::read(t, l)), parsed, |t, l| ignore(read::read(t, l))];
    line(&format!("read {name}"), bytes, least(reps, readers, &text, list));
}

/// Times the clause lists of the fixed diagrams.
pub fn sizes() {
    println!("DIMACS text, times in microseconds. plain: Rust's own number formatting and parsing over lists taken to be legal, nothing checked; separate: the separately written calls.");
    println!(
        "{:>20} {:>9} {:>12} {:>12} {:>12} {:>8} {:>8} {:>8}",
        "call and diagram", "bytes", "ours", "plain", "separate", "/plain", "/sep.", "MB/s"
    );
    for (count, c) in fixed::sizes() {
        let d = sums::build(&c, 65_536).unwrap();
        both(&count.to_string(), &reference::clauses::clauses(&c, &d));
    }
}

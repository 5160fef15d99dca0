//! Times the encoder under the main limits, given as data, against the encoder without limits of the caller's: the same inputs in the same run, calls in turn, the least time
//! of each.

use crate::once;
use reference::clauses::clauses;
use reference::constraint::Constraint;
use reference::diagram::RECORD;
use reference::limits::Limits;
use reference::{fixed, sums};
use std::hint::black_box;
use std::time::{Duration, Instant};

/// The least time without limits and under them, in turn, at least three times each.
fn least(c: &Constraint) -> [f64; 2] {
    let (words, d) = (c.words(), sums::build(c, 65_536).unwrap());
    let [mut t, mut e, mut w] = [RECORD * d.nodes.len(), d.edges.len(), clauses(c, &d).len()].map(|n| vec![0u32; n]);
    let Limits { terms, nodes } = Limits::MAIN;
    let reps = (2_000 / d.nodes.len() as u32).max(1);
    let mut times = [f64::MAX; 2];
    let begin = Instant::now();
    let mut rounds = 0;
    while rounds < 3 || begin.elapsed() < Duration::from_millis(500) {
        let without = &mut || {
            black_box(archive::encode(black_box(&words), black_box(&mut t), black_box(&mut e), black_box(&mut w)));
        };
        times[0] = times[0].min(once(reps, without));
        let under = &mut || {
            let lists = (black_box(&mut t), black_box(&mut e), black_box(&mut w));
            black_box(archive::encode_with(black_box(terms), black_box(nodes), black_box(&words), lists.0, lists.1, lists.2));
        };
        times[1] = times[1].min(once(reps, under));
        rounds += 1;
    }
    times
}

/// Times the fixed diagrams of up to 250 nodes.
pub fn sizes() {
    println!("The encoder under limits, the main ones, and without: times in microseconds, and the first over the second.");
    println!("{:>7} {:>12} {:>12} {:>8}", "nodes", "limits", "without", "/without");
    for (nodes, c) in fixed::sizes().into_iter().take(3) {
        let [without, under] = least(&c);
        println!("{nodes:>7} {:>12.2} {:>12.2} {:>8.3}", under * 1e6, without * 1e6, under / without);
    }
}

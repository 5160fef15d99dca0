//! Times marking the encoder's own tables, against the encoder's time for the same diagram and against a separately written marker: the same inputs in the same run, calls in
//! turn, the least time of each.

use crate::once;
use reference::clauses::clauses;
use reference::constraint::Constraint;
use reference::diagram::{Diagram, RECORD};
use reference::{fixed, mark, sums};
use std::hint::black_box;
use std::time::{Duration, Instant};

/// The least time of the encoder, of our marker and of the separate one, in turn, at least three times each.
fn least(c: &Constraint, d: &Diagram) -> [f64; 3] {
    let words = c.words();
    let [mut t, mut e, mut w] = [RECORD * d.nodes.len(), d.edges.len(), clauses(c, d).len()].map(|n| vec![0u32; n]);
    let reply = archive::encode(&words, &mut t, &mut e, &mut w);
    assert!(reply.number == 0 && archive::mark(&words, &t, &e).right == 1 && mark::mark(&words, &t, &e).is_ok(), "not right");
    let reps = (20_000 / d.edges.len() as u32).max(1);
    let mut times = [f64::MAX; 3];
    let begin = Instant::now();
    let mut rounds = 0;
    while rounds < 3 || begin.elapsed() < Duration::from_millis(500) {
        let encoder = &mut || {
            black_box(archive::encode(black_box(&words), black_box(&mut t), black_box(&mut e), black_box(&mut w)));
        };
        times[0] = times[0].min(once(reps, encoder));
        let ours = &mut || {
            black_box(archive::mark(black_box(&words), black_box(&t), black_box(&e)));
        };
        times[1] = times[1].min(once(reps, ours));
        let separate = &mut || {
            let _ = black_box(mark::mark(black_box(&words), black_box(&t), black_box(&e)));
        };
        times[2] = times[2].min(once(reps, separate));
        rounds += 1;
    }
    times
}

/// Times the tables of the fixed diagrams.
pub fn sizes() {
    println!("Marking the encoder's own tables, all right, so that every record is looked at: times in microseconds, ours over the encoder's and over a separate marker's, and nanoseconds of ours for each edge.");
    println!(
        "{:>7} {:>8} {:>12} {:>12} {:>12} {:>9} {:>9} {:>8}",
        "nodes", "edges", "encoder", "ours", "separate", "/encoder", "/separate", "an edge"
    );
    for (nodes, c) in fixed::sizes() {
        let d = sums::build(&c, 65_536).unwrap();
        let [encoder, ours, separate] = least(&c, &d);
        println!(
            "{nodes:>7} {:>8} {:>12.2} {:>12.2} {:>12.2} {:>9.3} {:>9.2} {:>8.2}",
            d.edges.len(),
            encoder * 1e6,
            ours * 1e6,
            separate * 1e6,
            ours / encoder,
            ours / separate,
            ours * 1e9 / d.edges.len() as f64
        );
    }
}

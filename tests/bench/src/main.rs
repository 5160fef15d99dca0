//! Times the proved archive against the separately written calls, and the file comparer against loops and `memcmp`: the same inputs in the same run, calls in turn, the least time of each.

mod compare;
mod limits;
mod mark;
mod propagate;
mod text;

use reference::constraint::Constraint;
use reference::diagram::RECORD;
use reference::encode::Build;
use reference::limits::Limits;
use reference::{encode, fixed, maps, sums};
use std::hint::black_box;
use std::time::{Duration, Instant};

/// The time of one call, over as many calls as make it measurable.
fn once(reps: u32, call: &mut dyn FnMut()) -> f64 {
    let start = Instant::now();
    for _ in 0..reps {
        call();
    }
    start.elapsed().as_secs_f64() / reps as f64
}

/// The nodes, the children that are nodes, and the least time of each of the three encoders, called in turn, at least three times each.
fn least(c: &Constraint, lengths: [usize; 3]) -> (u64, usize, [f64; 3]) {
    let words = c.words();
    let [mut t, mut e, mut w] = lengths.map(|n| vec![0u32; n]);
    let reply = archive::encode(&words, &mut t, &mut e, &mut w);
    let nodes = reply.nodes;
    let children = e[..reply.edges as usize].iter().filter(|&&edge| (edge as u64) < nodes).count();
    let reps = if nodes == 0 { 1 } else { (2_000 / nodes as u32).max(1) };
    let mut times = [f64::MAX; 3];
    let begin = Instant::now();
    let mut rounds = 0;
    while rounds < 3 || begin.elapsed() < Duration::from_millis(500) {
        let ours = &mut || {
            black_box(archive::encode(black_box(&words), black_box(&mut t), black_box(&mut e), black_box(&mut w)));
        };
        times[0] = times[0].min(once(reps, ours));
        for (k, build) in [maps::build as Build, sums::build].into_iter().enumerate() {
            let other = &mut || {
                let _ = black_box(encode::encode(
                    build,
                    Limits::MAIN,
                    black_box(&words),
                    black_box(&mut t),
                    black_box(&mut e),
                    black_box(&mut w),
                ));
            };
            times[k + 1] = times[k + 1].min(once(reps, other));
        }
        rounds += 1;
    }
    (nodes, children, times)
}

/// Times one constraint and prints a line.
fn line(name: &str, c: &Constraint, lengths: [usize; 3]) {
    let (nodes, children, [ours, map, sum]) = least(c, lengths);
    let log = (nodes.max(2) as f64).log2();
    let cost = |n: usize| if n > 0 { format!("{:8.1}", ours * 1e9 / n as f64 / log) } else { format!("{:>8}", "-") };
    println!(
        "{name:>14} {nodes:>7} {:>12.2} {:>12.2} {:>12.2} {:>8.2} {:>8.2} {} {}",
        ours * 1e6,
        map * 1e6,
        sum * 1e6,
        ours / map,
        ours / sum,
        cost(nodes as usize),
        cost(children)
    );
}

fn main() {
    println!("Times in microseconds, the least of at least 3 calls. The lists are as long as the diagram needs and are not cleared before a call: they hold the result of the call before.");
    println!("maps: the separate encoder with an ordered map a level; sums: the same with sets of sums. Both build on the heap and copy. a node, a child: nanoseconds of ours for each node, and for each child that is a node, over log2 of the nodes.");
    println!(
        "{:>14} {:>7} {:>12} {:>12} {:>12} {:>8} {:>8} {:>8} {:>8}",
        "diagram", "nodes", "ours", "maps", "sums", "/maps", "/sums", "a node", "a child"
    );
    for (count, c) in fixed::sizes() {
        let d = sums::build(&c, 65_536).unwrap();
        assert_eq!(d.nodes.len(), count);
        let lengths = [RECORD * count, d.edges.len(), reference::clauses::clauses(&c, &d).len()];
        line(&format!("{count} nodes"), &c, lengths);
    }
    let room = [RECORD * 65_536, 1_048_576, 4_194_304];
    println!("Refused with 6; lists of {room:?} words, zeroed by each call:");
    line("65,537 nodes", &fixed::full_with(2), room);
    line("far more", &fixed::beyond(), room);
    limits::sizes();
    propagate::sizes();
    mark::sizes();
    text::sizes();
    compare::file();
}

//! Times unit propagation on lists of the encoder against a queue with occurrence lists, whose building and whose checks are included: the same inputs in the same run,
//! calls in turn, the least time of each.

use crate::once;
use reference::clauses::clauses;
use reference::propagate::{queue, Verdict};
use reference::random::Random;
use reference::starts::{orders, some, Kind, KINDS};
use reference::{fixed, sums};
use std::hint::black_box;
use std::time::{Duration, Instant};

/// Looks at a clause as one pass does: sets what it settles. Gives whether that changes a byte; nothing where all its literals are false.
fn step(bytes: &mut [u8], clause: &[u32]) -> Option<bool> {
    let byte = |w: &u32| (w & 0x1FFF_FFFF) as usize - 1;
    let negated = |w: &u32| (w >> 29 & 1) as u8;
    if clause.iter().any(|w| bytes[byte(w)] == 1 - negated(w)) {
        return Some(false);
    }
    let mut open = clause.iter().filter(|w| bytes[byte(w)] == 2);
    let first = open.next()?;
    let unit = open.all(|w| w == first);
    if unit {
        bytes[byte(first)] = 1 - negated(first);
    }
    Some(unit)
}

/// Passes until one changes nothing or comes upon a conflict: how many, at how many clauses they look, and whether it is a conflict.
#[derive(Default)]
struct Work {
    passes: u32,
    looks: usize,
    conflict: bool,
}

/// Settles some clauses: forward only, each pass over all of them; or in alternating directions, each pass from where the one before made its last change.
fn settle(bytes: &mut [u8], clauses: &[&[u32]], alternating: bool) -> Work {
    let mut work = Work::default();
    let mut from = 0;
    loop {
        let backward = alternating && work.passes % 2 == 1;
        let seen = if backward { 0..from } else { from..clauses.len() };
        work.passes += 1;
        let mut last = None;
        for k in seen.clone() {
            let at = if backward { seen.end - 1 - k } else { k };
            work.looks += 1;
            match step(bytes, clauses[at]) {
                Some(true) => last = Some(at),
                Some(false) => {}
                None => return Work { conflict: true, ..work },
            }
        }
        match last {
            None => return work,
            Some(_) if !alternating => {}
            Some(at) => from = if backward { at } else { at + 1 },
        }
    }
}

/// The work of our order, which settles the clauses of two literals at the front first: the passes over all clauses, and how often a clause is looked at on average;
/// and the passes forward only.
fn passes(values: &[u8], list: &[u32]) -> (u32, f64, u32) {
    let clauses: Vec<&[u32]> = list.split_inclusive(|w| *w >= 3 << 30).map(|c| &c[..c.len() - 1]).collect();
    let front = clauses.iter().take_while(|c| c.len() == 2).count();
    let mut bytes = values.to_vec();
    let first = settle(&mut bytes, &clauses[..front], true);
    let then = if first.conflict { Work::default() } else { settle(&mut bytes, &clauses, true) };
    let looks = (first.looks + then.looks) as f64 / clauses.len() as f64;
    (then.passes, looks, settle(&mut values.to_vec(), &clauses, false).passes)
}

/// The least time of ours and of the queue, in turn, at least three times each.
fn least(values: &[u8], list: &[u32]) -> [f64; 2] {
    let reps = (20_000 / list.len() as u32).max(1);
    let mut settled = values.to_vec();
    let mut times = [f64::MAX; 2];
    let begin = Instant::now();
    let mut rounds = 0;
    while rounds < 3 || begin.elapsed() < Duration::from_millis(500) {
        let ours = &mut || {
            black_box(archive::propagate(black_box(values), black_box(list), black_box(&mut settled)));
        };
        times[0] = times[0].min(once(reps, ours));
        let other = &mut || {
            black_box(queue(black_box(values), black_box(list), black_box(&mut settled)));
        };
        times[1] = times[1].min(once(reps, other));
        rounds += 1;
    }
    times
}

/// Times one start and prints a line.
fn line(nodes: usize, kind: Kind, values: &[u8], list: &[u32]) {
    let [mut ours, mut other] = [values.to_vec(), values.to_vec()];
    let reply = archive::propagate(values, list, &mut ours);
    let verdict = queue(values, list, &mut other);
    assert!(ours == other && (reply.verdict == 1) == (verdict == Verdict::Conflict), "another result");
    let [time, queued] = least(values, list);
    let (count, looks, forward) = passes(values, list);
    println!(
        "{nodes:>7} {:>8} {:>9} {count:>7} {looks:>7.2} {forward:>8} {:>12.2} {:>12.2} {:>8.2}{}",
        format!("{kind:?}").to_lowercase(),
        list.len(),
        time * 1e6,
        queued * 1e6,
        time / queued,
        if reply.verdict == 1 { " conflict" } else { "" }
    );
}

/// Times the clause lists of the fixed diagrams.
pub fn sizes() {
    println!("Unit propagation, a third of the order Booleans fixed: times in microseconds. low: as with all values 0; high: as with values that reach for the bound; random: as with any values.");
    println!("queue: a queue with occurrence lists, its building and the same checks included. passes: over all clauses, in alternating directions, each from where the one before made its last change; looks: at a clause on average, those at the front first included; forward: passes where all go forward.");
    println!(
        "{:>7} {:>8} {:>9} {:>7} {:>7} {:>8} {:>12} {:>12} {:>8}",
        "nodes", "start", "words", "passes", "looks", "forward", "ours", "queue", "/queue"
    );
    let mut r = Random::new(7);
    for (nodes, c) in fixed::sizes() {
        let d = sums::build(&c, 65_536).unwrap();
        let list = clauses(&c, &d);
        let count = c.booleans() as usize + 2 + d.nodes.len();
        for kind in KINDS {
            let all = orders(&mut r, kind, &c);
            line(nodes, kind, &some(&mut r, 3, all, count), &list);
        }
    }
}

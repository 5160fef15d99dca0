//! Compares the proved archive and the programs with the separately written implementation: replies, every lent word, every printed byte.
//! Every list lent to the archive lies at an unreadable page: a call is made with the pages behind the last elements and again with the pages before the
//! first ones, so that a read or write outside a list stops the program. The seed is fixed, so a difference, or a stop, can be met again.

mod answers;
mod call;
mod capacity;
mod comparer;
mod dimacs;
mod encoder;
mod exercises;
mod finder;
mod guarded;
mod inputs;
mod lent;
mod limits;
mod marker;
mod program;
mod propagator;
mod show;
mod signed;
mod signs;
mod tester;

use reference::random::Random;

/// The numbers that came up, with how often.
fn numbers(tally: &[u64]) -> String {
    let some: Vec<String> = tally.iter().enumerate().filter(|(_, n)| **n > 0).map(|(k, n)| format!("{k}: {n}")).collect();
    some.join(", ")
}

/// A line on one kind of encoding call.
fn report(name: &str, t: &encoder::Tally) {
    let counted = t.never + t.always > 0;
    let roots = if counted { format!(", root F: {}, root T: {}", t.never, t.always) } else { String::new() };
    let most = format!("most nodes: {}, most edges into one: {}", t.nodes, t.entering);
    println!("{name}: {}, calls: {} (by number, {}), {most}{roots}", t.constraints, t.calls, numbers(&t.numbers));
}

/// A line on one kind of encoding call under limits.
fn report_limited(name: &str, t: &limits::Tally) {
    println!("{name}: {}, calls: {} (by number, {}), refused by the limits alone: {}", t.inputs, t.calls, numbers(&t.numbers), t.stricter);
}

/// A line on one kind of call over DIMACS text.
fn report_text(name: &str, t: &dimacs::Tally) {
    println!("{name}: {}, calls: {} (by number, {}), refused in the second half: {}", t.inputs, t.calls(), numbers(&t.numbers), t.late);
}

/// The numbers from `k` on.
fn numbers_from(tally: &[u64], k: usize) -> String {
    let mut rest = tally.to_vec();
    rest[..k].fill(0);
    numbers(&rest)
}

/// A line on the clause tester.
fn report_tested(name: &str, t: &tester::Tally) {
    let [all_true, one_false, ..] = t.numbers;
    let refused = numbers_from(&t.numbers, 2);
    println!(
        "{name}: {} calls (all true {all_true}, a clause {one_false}, of these an empty one {}, refused by number {refused})",
        t.numbers.iter().sum::<u64>(),
        t.empty
    );
}

/// A line on the propagator.
fn report_propagated(name: &str, t: &propagator::Tally) {
    let [settled, conflict, ..] = t.numbers;
    let calls = t.numbers.iter().sum::<u64>();
    let refused = numbers_from(&t.numbers, 2);
    let refused = if refused.is_empty() { refused } else { format!(", refused by number {refused}") };
    println!("{name}: {calls} calls (settled {settled}, of these {} more than was given, conflict {conflict}{refused})", t.more);
}

/// A line on the marker.
fn report_marked(name: &str, t: &marker::Tally) {
    let (calls, right, bad) = (t.numbers.iter().sum::<u64>(), t.numbers[0], t.numbers[20]);
    let words = numbers_from(&t.numbers[..20], 1);
    let words = if words.is_empty() { words } else { format!(", refused by number {words}") };
    println!("{name}: {calls} calls (right {right}, a bad record {bad}, of these record 0 {}{words})", t.first);
}

/// A line on the file comparer.
fn report_compared(name: &str, t: &comparer::Tally) {
    let comparer::Tally { yes, lacking, differing, left_over } = t;
    let calls = yes + lacking + differing + left_over;
    println!("{name}: {calls} calls (yes {yes}, a word lacks bytes {lacking}, a word differs {differing}, bytes left over {left_over})");
}

/// Unit propagation.
fn propagation(r: &mut Random) {
    report_propagated("propagator by the request", &propagator::cases::all(r));
    report_propagated("propagator, chains of clauses", &propagator::made::chains(r, 10_000));
    report_propagated("propagator, faults alone and together", &propagator::made::faults(r, 1_000));
    report_propagated("propagator", &propagator::random(r, 20_000));
    report_propagated("propagator, every list of up to five words out of nine", &propagator::every(r, 5));
    report_propagated("propagator, every list of up to three clauses of up to two literals", &propagator::every_clause(r, 3));
    let f = propagator::completions::by_force(r, 10_000);
    println!("propagator, constraints whose completions are found by force: {}, never: {}, always: {}", f.constraints, f.never, f.always);
    report_propagated("propagator on these", &f.calls);
    println!("propagator on these: {} order Booleans settled that were open, {} left open", f.settled, f.open);
    report_propagated("propagator on larger lists of the encoder", &propagator::completions::larger(r, 80));
}

/// Marking.
fn marking(r: &mut Random) {
    report_marked("marker by the specification", &marker::cases::all());
    report_marked("marker, every hand-in of one record with small fields", &marker::small::every());
    report_marked("marker, every hand-in of a root and one record more", &marker::small::every_pair());
    report_marked("marker, small records", &marker::small::random(r, 200_000));
    report_marked("marker, any words", &marker::small::rubbish(r, 50_000));
    report_marked("marker, tables of the encoder", &marker::tables::small_ones(r, 500));
    report_marked("marker, larger tables of the encoder", &marker::tables::larger(r, 40));
    report_marked("marker, other right drawings", &marker::drawings::changed(r, 10_000));
    report_marked("marker, 65,535 to 70,000 records", &marker::many::records());
    let f = marker::admitted::solutions(r, 2_000);
    let kinds = format!("the encoder's {}, changed at random {}, random {}, without records {}", f.own, f.damaged, f.random, f.empty);
    println!("marker, hand-ins whose clauses are held against the solutions: {} ({kinds})", f.hand_ins);
    println!("marker on these: values of all order Booleans: {} admitted, {} not", f.admitted, f.shut_out);
    report_marked("marker on these", &f.calls);
    let p = marker::program::program(r, 600);
    println!(
        "marking program: {} inputs (of the random ones right {}, record {}, refused {}, other {})",
        p.inputs, p.right, p.record, p.refused, p.other
    );
}

/// DIMACS text, written, read and printed.
fn text(r: &mut Random) {
    let (legal, refused, lists) = dimacs::cases::all(r);
    println!("DIMACS by the specification: {legal} legal texts, {refused} refused, {lists} lists");
    report_text("DIMACS lists written", &dimacs::written(r, 4_000));
    report_text("DIMACS texts read", &dimacs::read(r, 20_000));
    report_text("DIMACS texts of larger lists read", &dimacs::larger(r, 40));
    report_text("DIMACS texts read, every one of a small kind", &dimacs::every(r, 4));
    println!("places of DIMACS refusals, by their definition: {}", dimacs::places::defined(3));
    let (shown, refused) = dimacs::program::program(r, 450);
    println!("DIMACS program: {shown} inputs (refused by number {})", numbers(&refused));
}

/// The encoder on random words: those of document 01 alone, then with relations, signs and lower ends.
fn encoders(r: &mut Random) {
    report("random constraints", &encoder::valid(r, 3_000, |r| inputs::constraint(r).words()));
    report("larger constraints", &encoder::larger(r, 80, |r| inputs::large(r).words()));
    report("damaged constraints", &encoder::damaged(r, 3_000, inputs::damaged));
    report("random constraints with signs", &encoder::valid(r, 3_000, signed::small));
    report("larger constraints with signs", &encoder::larger(r, 80, signed::large));
    report("damaged constraints with signs", &encoder::damaged(r, 20_000, signed::damaged));
    report("every list of up to five words out of nine behind a bound", &encoder::every(r, 5));
    let answers::Tally { can, cannot } = answers::random(r, 4_000);
    println!("values as a student writes them: {can} satisfy their constraint, {cannot} do not");
}

/// The encoder under limits on terms and nodes.
fn limited(r: &mut Random) {
    report_limited("limits, starred exercises", &limits::exercises(r));
    report_limited("limits, random constraints", &limits::random(r, 400));
    report_limited("limits, larger constraints", &limits::larger(r, 12));
    report_limited("limits, damaged constraints", &limits::damaged(r, 2_000));
    report_limited("limits, one fault in up to 65 terms", &limits::faults(r));
    report_limited("limits, 15 to 17 and 63 to 65 terms", &limits::terms_counted(r, 4));
    report_limited("limits, 15 to 17 terms with 255 to 257 nodes", &limits::nodes_counted(r));
    report_limited("limits, 65,535 to 65,537 nodes", &limits::full(r));
}

fn main() {
    let begin = std::time::Instant::now();
    let mut r = Random::new(1);
    println!("exercises P to ZZ: {}", exercises::rows(&mut r));
    println!("lists that just fit, or do not: {}", exercises::rooms(&mut r));
    println!("limits of the words: {}", exercises::limits(&mut r));
    println!("request Five: {} refused or at a limit, {} drawn", signs::refused(&mut r), signs::drawn(&mut r));
    println!("request Five: {} with farthest lower ends that balance, {} that do not", signs::balanced(&mut r), signs::farthest(&mut r));
    println!("crowded levels: {}", exercises::crowded(&mut r));
    println!("node capacity: {}", capacity::both_ends(&mut r));
    encoders(&mut r);
    let (finds, hits) = finder::random(&mut r, 1_000);
    println!("finder, over words and over records: {finds} calls each, {hits} found");
    println!("clause tester by the specification: {} lists", tester::cases());
    report_tested("clause tester", &tester::random(&mut r, 8_000));
    report_tested("clause tester, every list of up to six words out of nine", &tester::every(6));
    propagation(&mut r);
    marking(&mut r);
    println!("file comparer by the request: {} files, and {} by their damage", comparer::cases(), comparer::damaged(&mut r));
    report_compared("file comparer", &comparer::random(&mut r, 2_000));
    report_compared("file comparer, every file of up to nine bytes, each 0 or 1", &comparer::every());
    text(&mut r);
    let (shown, refused) = show::program(&mut r, 600);
    println!("printing program: {shown} inputs (refused by number {})", numbers(&refused));
    limited(&mut r);
    println!("no difference, {:.1} s", begin.elapsed().as_secs_f64());
}

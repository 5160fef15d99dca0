//! Asks real solvers about the text that the program `dimacs` prints: with the order Booleans fixed to values as the student writes them it can be satisfied exactly where
//! these satisfy the constraint, and as it is exactly where some do. Every text is also read back into the words it stands for. With only some order Booleans fixed it can
//! be satisfied exactly where unit propagation finds no conflict. Then it asks about random clause lists, and compares with the clause tester. It uses `minisat`, `cadical`
//! and `picosat` where they are installed, and says so where none is.

mod lists;
mod propagation;
mod text;
mod values;

use reference::random::Random;
use std::io::Write as _;
use std::process::{Command, Stdio};

const CONSTRAINTS: u64 = 80;
const STARTS: u64 = 400;
const LISTS: u64 = 100;

/// The exit status where nothing could be asked.
const SKIPPED: i32 = 3;

/// A solver and the arguments that keep it quiet; all read standard input, and end with 10 for yes and 20 for no.
type Solver = (&'static str, &'static [&'static str]);

const SOLVERS: [Solver; 3] = [("minisat", &["-verb=0"]), ("cadical", &["-q"]), ("picosat", &["-n"])];

/// The solver's answer to the text; nothing where it cannot be run.
fn ask(solver: Solver, text: &str) -> Option<bool> {
    let mut child = Command::new(solver.0).args(solver.1).stdin(Stdio::piped()).stdout(Stdio::null()).stderr(Stdio::null()).spawn().ok()?;
    child.stdin.take()?.write_all(text.as_bytes()).ok()?;
    match child.wait().ok()?.code() {
        Some(10) => Some(true),
        Some(20) => Some(false),
        _ => None,
    }
}

/// Ends the program unless the solver gives the answer.
fn expect(solver: Solver, text: &str, answer: bool, of: impl Fn() -> String) {
    let told = ask(solver, text);
    if told != Some(answer) {
        eprintln!("difference: {} says {told:?} and not {answer} of {}\n{text}", solver.0, of());
        std::process::exit(1);
    }
}

fn main() {
    let mut asked = 0;
    for solver in SOLVERS {
        if ask(solver, "p cnf 1 1\n1 0\n") != Some(true) || ask(solver, "p cnf 1 2\n1 0\n-1 0\n") != Some(false) {
            println!("{}: cannot be run here, skipped", solver.0);
            continue;
        }
        let mut r = Random::new(2);
        let v = values::check(solver, &mut r, CONSTRAINTS);
        let [at_most, less, at_least, greater] = v.relations;
        println!("{}: {CONSTRAINTS} constraints ({at_most} at most, {less} less, {at_least} at least, {greater} greater)", solver.0);
        println!(
            "{}: of these {} always hold and {} never; {} values satisfy theirs, {} do not",
            solver.0, v.always, v.never, v.can, v.cannot
        );
        let f = propagation::check(solver, &mut r, STARTS);
        println!(
            "{}: {STARTS} starts for unit propagation, {} settled and satisfiable, {} in conflict and not ({} of these fix nothing)",
            solver.0, f.settled, f.conflict, f.nothing
        );
        let t = lists::check(solver, &mut r, LISTS);
        println!("{}: {LISTS} clause lists, {} satisfiable, {} not ({} of these with an empty clause)", solver.0, t.can, t.cannot, t.empty);
        asked += CONSTRAINTS + v.can + v.cannot + STARTS + LISTS;
    }
    if asked == 0 {
        println!("no solver can be run here: skipped");
        std::process::exit(SKIPPED);
    }
    println!("no difference, {asked} answers");
}

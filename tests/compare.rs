//! The module beside the reference, on seeded random histories of calls, on the documents' vectors and on random
//! inputs of the session program.
//!
//!   compare [--histories N] [--inputs N] [--seed S] (--session PATH | --no-session)
//!   compare --history S
//!
//! History i of a run has seed S + i, which a failure prints; `--history` repeats that one history.
//! The last line is `N passed, M failed`, and the exit status is 1 where M is not 0.

mod reference;

#[path = "compare/foreign.rs"]
mod foreign;
#[path = "compare/histories.rs"]
mod histories;
#[path = "compare/library.rs"]
mod library;
#[path = "compare/random.rs"]
mod random;
#[path = "compare/seat.rs"]
mod seat;
#[path = "compare/session.rs"]
mod session;
#[path = "compare/sheets.rs"]
mod sheets;
#[path = "compare/vectors.rs"]
mod vectors;

use seat::Coverage;
use std::sync::atomic::{AtomicU64, Ordering};

struct Options {
    histories: u64,
    inputs: u64,
    seed: u64,
    session: Option<String>,
    only: Option<u64>,
}

const USAGE: &str = "usage: compare [--histories N] [--inputs N] [--seed S] (--session PATH | --no-session)
       compare --history S";

fn options() -> Option<Options> {
    let mut options = Options { histories: 2600, inputs: 400, seed: 1, session: None, only: None };
    let mut decided = false;
    let mut words = std::env::args().skip(1);
    while let Some(word) = words.next() {
        match word.as_str() {
            "--histories" => options.histories = words.next()?.parse().ok()?,
            "--inputs" => options.inputs = words.next()?.parse().ok()?,
            "--seed" => options.seed = words.next()?.parse().ok()?,
            "--history" => options.only = Some(words.next()?.parse().ok()?),
            "--session" => (options.session, decided) = (Some(words.next()?), true),
            "--no-session" => decided = true,
            _ => return None,
        }
    }
    (decided || options.only.is_some()).then_some(options)
}

#[derive(Default)]
struct Tally {
    passed: u64,
    failed: u64,
}

impl Tally {
    fn count(&mut self, name: &str, result: Result<(), String>) {
        match result {
            Ok(()) => self.passed += 1,
            Err(why) => {
                self.failed += 1;
                println!("FAILED {name}: {why}");
            }
        }
    }
}

/// The history under way, 0 before the first, for a module that ends the process.
static RUNNING: AtomicU64 = AtomicU64::new(0);

extern "C" fn ended(signal: i32) {
    match RUNNING.load(Ordering::Relaxed) {
        0 => println!("FAILED vectors: signal {signal}"),
        seed => println!("FAILED history --history {seed}: signal {signal}"),
    }
    std::process::exit(1);
}

fn run_history(seed: u64, coverage: &mut Coverage, tally: &mut Tally) {
    RUNNING.store(seed, Ordering::Relaxed);
    let (family, result) = histories::run(seed, coverage);
    tally.count(&format!("history --history {seed} ({family})"), result);
}

fn main() {
    let Some(options) = options() else {
        eprintln!("{USAGE}");
        std::process::exit(2);
    };
    library::on_fault(ended);
    let mut tally = Tally::default();
    let mut coverage = Coverage::default();
    if let Some(seed) = options.only {
        run_history(seed, &mut coverage, &mut tally);
    } else {
        for vector in vectors::all() {
            tally.count(&vector.name(), vector.check(options.session.as_deref(), &mut coverage));
        }
        for seed in options.seed..options.seed + options.histories {
            run_history(seed, &mut coverage, &mut tally);
        }
        // Fewer histories may miss an answer by chance.
        if options.histories >= 2000 {
            tally.count("every answer seen", coverage.complete());
        }
        if let Some(program) = &options.session {
            for seed in options.seed..options.seed + options.inputs {
                tally.count(&format!("session input {seed}"), session::random_input(program, seed));
            }
        }
    }
    println!("{} passed, {} failed", tally.passed, tally.failed);
    std::process::exit((tally.failed != 0) as i32);
}

//! Runs the library under test and the judge, which is the naive reference
//! version, on the same inputs and stops with an error if they ever differ.
//!
//! Each entry of the library has a module of its own with a `run` that says
//! whether all went well.
//!
//! With a number of seconds and a seed it goes on for so long, over inputs that
//! no other seed has, and prints the calls by entry and refusal at the end: for
//! a night, say.

mod best;
mod bound;
mod bytes;
mod charge;
mod charge_limit;
mod charge_refine;
mod check;
mod choice;
mod draw;
mod floor;
mod foreign;
mod improve;
mod keep;
mod limit;
mod list;
mod open;
mod partition;
mod placed;
mod plan;
mod play;
mod read;
mod refine;
mod report;
mod sheets;
mod write;

use slopeboard_reference::gen::Rng;
use std::env;
use std::process::ExitCode;
use std::time::{Duration, Instant};

/// Each entry's comparison, and the seed of its inputs.
const ENTRIES: [(fn(u64) -> bool, u64); 21] = [
    (read::run, 2024),
    (read::run_short, 2034),
    (write::run, 2025),
    (open::run, 2026),
    (choice::run, 2031),
    (plan::run, 2027),
    (check::run, 2029),
    (bound::run, 2030),
    (list::run, 2028),
    (partition::run, 2032),
    (best::run, 2035),
    (improve::run, 2037),
    (draw::run, 2036),
    (keep::run, 2038),
    (keep::run_restore, 2039),
    (play::run, 2040),
    (charge::run, 2041),
    (limit::run, 2042),
    (refine::run, 2043),
    (charge_limit::run, 2044),
    (charge_refine::run, 2045),
];

/// All entries once, on the inputs of the gate, and the drawn sheets.
fn once() -> bool {
    let good = ENTRIES
        .iter()
        .fold(true, |good, (run, seed)| run(*seed) & good);
    floor::run() & good
}

/// All entries again and again, on ever other inputs, until the time is over
/// or something differs.
fn lasting(time: Duration, seed: u64) -> bool {
    let begun = Instant::now();
    report::be_short();
    let mut seeds = Rng::new(seed);
    let mut good = true;
    while good && begun.elapsed() < time {
        for (run, _) in ENTRIES {
            let seed = seeds.draw();
            let fine = run(seed);
            if !fine {
                println!("compare: the inputs were those of seed {seed}");
            }
            good &= fine;
        }
    }
    report::print_totals();
    good
}

fn main() -> ExitCode {
    let words: Vec<String> = env::args().skip(1).collect();
    let numbers: Result<Vec<u64>, _> = words.iter().map(|word| word.parse()).collect();
    let good = match numbers.as_deref() {
        Ok([]) => once(),
        Ok(&[seconds, seed]) => lasting(Duration::from_secs(seconds), seed),
        _ => {
            eprintln!("usage: compare [SECONDS SEED]");
            false
        }
    };
    if good {
        ExitCode::SUCCESS
    } else {
        ExitCode::FAILURE
    }
}

//! Compares random walks and pushes of the proved library with the oracle, as many as asked for.

use std::env;
use std::process::ExitCode;
use std::time::Instant;

use compare::agree::Call;
use compare::cases::Comparison;

/// What the program says when it is called with other words.
const USAGE: &str = "usage: compare CASES   in each layout; WAKKEMOSUT_SEED names another seed";

/// The number of cases after which a line is printed.
const STRIDE: u64 = 1_000_000;

fn main() -> ExitCode {
    let words: Vec<String> = env::args().skip(1).collect();
    match number(&words) {
        Some(cases) => {
            compare(cases);
            ExitCode::SUCCESS
        }
        None => {
            eprintln!("{USAGE}");
            ExitCode::from(2)
        }
    }
}

/// The number that the words are, if they are one.
fn number(words: &[String]) -> Option<u64> {
    match words {
        [word] => word.parse().ok(),
        _ => None,
    }
}

/// Compares so many cases in each layout; the first difference ends the program with a message.
fn compare(cases: u64) {
    let start = Instant::now();
    for comparison in Comparison::in_each_layout() {
        compare_layout(comparison, cases, start);
    }
}

/// Compares so many cases in one layout.
fn compare_layout(mut comparison: Comparison, cases: u64, start: Instant) {
    let layout = comparison.tally.layout();
    for case in 1..=cases {
        comparison.any_case();
        if case % STRIDE == 0 {
            let seconds = start.elapsed().as_secs();
            println!("{layout}: {case} cases, {seconds} seconds");
        }
    }
    comparison.tally.assert_calls(cases);
    let pushes = comparison.tally.calls_of(Call::Push);
    println!("{layout}: {cases} cases, {pushes} of them pushes: no difference");
}

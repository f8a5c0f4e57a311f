//! Random walks and pushes: the proved library against the oracle.
//! `tools/compare` runs more of them.

use compare::agree::Call;
use compare::cases::Comparison;
use compare::layout::Layout;
use compare::random::Random;

/// The number of cases in each layout.
const CASES: u64 = 2_000_000;

/// Compares random cases in one layout.
fn compare_cases(layout: Layout) {
    let mut comparison = Comparison::new(layout, Random::of_this_run());
    (0..CASES).for_each(|_| comparison.any_case());
    let tally = comparison.tally;
    tally.assert_calls(CASES);
    assert!(tally.calls_of(Call::Push) > 1_400_000);
    for call in [Call::Walk, Call::Push] {
        tally.assert_answers(call, &[0, 5], 50_000);
        tally.assert_answers(call, &[1, 3, 4], 5_000);
    }
}

#[test]
fn random_walks_and_pushes_are_those_of_the_rust() {
    compare_cases(Layout::Usual);
}

#[test]
fn random_walks_and_pushes_onto_slim_tapes_are_those_of_the_rust() {
    compare_cases(Layout::Slim);
}

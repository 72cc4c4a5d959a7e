//! What the tests of boards with one fault have in common.

use compare::{run_cases, Difference, Kind};
use model::packed::Board;
use std::fmt::Debug;

/// Lists the points in which the calls may go wrong once, for the type and for the test.
#[allow(unused_macros)]
macro_rules! faults {
    ($($fault:ident)+) => {
        #[derive(Clone, Copy, Debug, PartialEq, Eq)]
        enum Fault {
            None,
            $($fault),+
        }

        const FAULTS: &[Fault] = &[$(Fault::$fault),+];
    };
}

/// The cases of these kinds among the first so many.
pub fn cases_of(kinds: &[Kind], count: u64) -> Vec<u64> {
    (0..count)
        .filter(|&index| kinds.contains(&Kind::of(index)))
        .collect()
}

/// A board without a fault differs nowhere.
pub fn assert_agrees(board: &dyn Board, seed: u64, cases: Vec<u64>) {
    if let Err(failure) = run_cases(board, seed, cases) {
        panic!("{failure}");
    }
}

/// A board with a fault differs, in a call whose words begin so.
pub fn assert_noticed(
    fault: impl Debug,
    board: &dyn Board,
    seed: u64,
    cases: Vec<u64>,
    calls: &[&str],
) {
    match run_cases(board, seed, cases) {
        Ok(_) => panic!("{fault:?} is not noticed"),
        Err(failure) => match failure.difference {
            Difference::Call { what, .. } => {
                let expected = calls.iter().any(|call| what.starts_with(call));
                assert!(expected, "{fault:?}: {what}");
            }
            Difference::Breach { breach, .. } => panic!("{fault:?}: {breach}"),
        },
    }
}

//! A board against the model, case by case. Every case follows from a seed and
//! an index, and can be run again alone.

#![forbid(unsafe_code)]

mod cabinet_vectors;
mod calls;
mod cases;
mod difference;
#[cfg(feature = "linked")]
mod library;
mod lists;
mod retimings;
mod road_vectors;
mod seal_vectors;
mod seals;
mod tally;
mod vectors;
mod wait_vectors;
mod watches;
mod why_vectors;
mod whys;

pub use cabinet_vectors::run_cabinet_vectors;
pub use cases::{run_case, Kind};
pub use difference::{Difference, Failure};
#[cfg(feature = "linked")]
pub use library::Library;
pub use lists::run_lists;
pub use road_vectors::run_road_vectors;
pub use seal_vectors::run_seal_vectors;
pub use tally::Tally;
pub use vectors::Lists;
pub use wait_vectors::run_wait_vectors;
pub use watches::{run_watches, Watched};
pub use why_vectors::{run_why_vectors, Asked};

/// The board that is compared, with its name: the library, if it is linked. The model does
/// not stand in for it, as it would agree with itself.
pub fn board() -> Option<(&'static dyn model::packed::Board, String)> {
    #[cfg(feature = "linked")]
    return Some((
        &Library,
        format!("the board library, version {:#x}", willowera::version()),
    ));
    #[cfg(not(feature = "linked"))]
    return None;
}

/// Runs the cases with the indices, until one fails.
pub fn run_cases(
    board: &dyn model::packed::Board,
    seed: u64,
    indices: impl IntoIterator<Item = u64>,
) -> Result<Tally, Box<Failure>> {
    let mut tally = Tally::default();
    for index in indices {
        run_case(board, seed, index, &mut tally)?;
    }
    Ok(tally)
}

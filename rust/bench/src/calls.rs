//! The calls that are timed: those of the model, those of the library, and a step in C.

use model::packed::{self, Board, Model};

/// A board, and the step that is timed with it.
pub struct Calls {
    pub name: &'static str,
    pub board: &'static dyn Board,
    pub step: fn(&[u8], &mut [u8], u64, &mut [u8]) -> u64,
}

pub const MODEL: Calls = Calls {
    name: "model",
    board: &Model,
    step: packed::step,
};

/// The sets of which steps are timed. A step in C starts from a state of the model.
#[cfg(feature = "linked")]
pub const WITH_C: &[Calls] = &[
    MODEL,
    Calls {
        name: "library",
        board: &compare::Library,
        step: willowera::packed::step,
    },
    Calls {
        name: "C",
        step: crate::c_step::step,
        ..MODEL
    },
];

/// The sets of which everything else is timed: the model, and the library.
#[cfg(feature = "linked")]
pub const BOARDS: &[Calls] = WITH_C.split_at(2).0;

#[cfg(not(feature = "linked"))]
pub const WITH_C: &[Calls] = &[MODEL];

#[cfg(not(feature = "linked"))]
pub const BOARDS: &[Calls] = WITH_C;

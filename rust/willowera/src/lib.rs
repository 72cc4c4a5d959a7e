//! The board library of Willowera from Rust.
//!
//! The library is proved; these wrappers only carry slices to its C functions
//! and take its packed answers apart. The functions are there with the feature
//! `linked`, which links `libwillowera.a`. Without it the crate has the codes, the
//! fields of a state, the record of a cabinet and the refusals.
//!
//! # As a dependency
//!
//! ```toml
//! [dependencies]
//! willowera = { path = "../willowera/rust/willowera", features = ["linked"] }
//! ```
//!
//! with the path to this package, or `git = ".."` with the address of the repository;
//! cargo finds the package in it. The environment variable `WILLOWERA_LIB_DIR` names the
//! folder of `libwillowera.a`, best as an absolute path:
//!
//! ```text
//! WILLOWERA_LIB_DIR=/path/to/the/archive cargo build
//! ```
//!
//! Without it the archive is looked for in `target/staticlib` of the repository, where
//! `tools/library.sh` puts it. On another processor than x86-64, name the folder of
//! the archive that is built for it.
//!
//! `examples/steps.rs` is a whole program: in `rust/`,
//!
//! ```text
//! cargo run -p willowera --features linked --example steps -- \
//!     ../examples/two_phases/personality.bin 80 12-12:1
//! ```

mod answer;
#[cfg(feature = "linked")]
mod board;
#[cfg(feature = "linked")]
mod cabinet;
mod codes;
mod fields;
#[cfg(feature = "linked")]
pub mod packed;
mod record;
pub mod refusal;
mod why;

pub use answer::{part, sheet_settings, wait_bound_or_refusal, Part, Refusal, Settings};
#[cfg(feature = "linked")]
pub use board::{
    groups, read, road, section, settings, version, version_fits, wait_bound, waits, yellow,
    Controller, Detector, RoadEnd, Stream, Vehicles, Waits,
};
#[cfg(feature = "linked")]
pub use cabinet::Cabinet;
pub use codes::{colour, interval, stage};
pub use fields::{Fields, Movement, MOVEMENTS};
pub use record::Record;
pub use why::{Why, LONGEST_LINE};

/// The version of the interface that these wrappers are for.
pub const VERSION: u32 = 6;

/// The length of a state in bytes.
pub const STATE_LEN: usize = 336;

/// Most bytes that the waits of a site take: two for each phase and each movement.
pub const MOST_WAIT_BYTES: usize = 2 * (7 + MOVEMENTS);

/// The length of a sealed record in bytes.
pub const SEALED_LEN: usize = 347;

/// The length of the longest personality that is accepted, in bytes.
pub const MOST_PERSONALITY_BYTES: usize = 477;

/// The records of a cabinet.
pub const RECORDS: usize = 4;

/// The outputs of a cabinet, one byte each.
pub const OUTPUTS: usize = 32;

/// The length of a [`Record`] in bytes.
pub const RECORD_LEN: usize = 4 + MOST_PERSONALITY_BYTES + STATE_LEN;

/// The length of a cabinet's row of records in bytes.
pub const ROW_LEN: usize = RECORDS * RECORD_LEN;

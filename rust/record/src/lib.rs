//! Records calls of the board library with their answers and with what they leave in
//! memory, so that the same calls can be made on another processor. With the feature
//! `linked`, without which there is no library to call.

#[cfg(feature = "linked")]
mod exports;
pub mod header;
#[cfg(feature = "linked")]
mod recorder;
#[cfg(feature = "linked")]
mod scenes;
#[cfg(feature = "linked")]
mod seen;
mod tape;

#[cfg(feature = "linked")]
pub use recorder::Recorder;
#[cfg(feature = "linked")]
pub use seen::Seen;
pub use tape::{sum, Tape, FORMAT, MAGIC};

// Its build script links the library.
#[cfg(feature = "linked")]
use willowera as _;

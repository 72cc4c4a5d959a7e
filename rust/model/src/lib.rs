//! An isolated traffic signal controller after document 01, written from the
//! paper and from nothing else.
//!
//! One step is 0.1 s and every time is counted in steps. The model reads a
//! personality, steps the controller, gives the colours of the signal groups,
//! the wait bound, the wait of each phase and each movement and the sections of a
//! personality, takes new times while it runs,
//! says why a phase holds its green, runs a simulated road, keeps four sites in one
//! cabinet, and seals a state for the time without power. It needs no heap and nothing
//! of the standard library but its core.
//!
//! A [`State`] is what the rules of a step are about. A [`TimedState`] has the times
//! in it too, those that rule and those that wait: it is what a call hands back.
//!
//! [`packed`] holds the same functions in the shape of the board library: states
//! as bytes, by [`layout`], and answers as one number.

#![no_std]
#![forbid(unsafe_code)]

#[cfg(test)]
extern crate std;

mod bits;
mod cabinet;
mod colours;
mod crc;
pub mod layout;
mod limits;
mod lookup;
pub mod packed;
mod reader;
mod record;
mod refusal;
mod retime;
mod road;
pub mod sealed;
mod site;
mod state;
mod step;
mod timed;
mod times;
mod valid;
mod wait;
mod waits;
mod why;

pub use cabinet::{place, step_held, take_out, OUTPUTS};
pub use colours::Colour;
pub use crc::crc32;
pub use layout::{PLAIN_LEN, STATE_LEN};
pub use limits::{Edition, Limits, Setting};
pub use lookup::{section, Part};
pub use reader::read;
pub use record::{
    parts_in, records_in, records_of, row_of, Record, RecordBytes, RECORDS, RECORD_LEN, ROOM,
    ROW_LEN,
};
pub use refusal::{Number, Refusal, Verdict};
pub use retime::{retime, retime_on, times_alone_differ};
pub use road::{Road, Stream, Vehicles, MAX_RATE, MAX_STEPS, MAX_STREAMS, RESULT_LEN, STREAM_LEN};
pub use sealed::{resume, resume_on, seal, seal_on, SEALED_LEN};
pub use site::{Detector, Group, Mark, Movement, PhaseTimes, Site};
pub use state::{fresh, Interval, MovementState, Stage, State, MAX_AGE};
pub use step::{scan, step, step_on, Answer};
pub use timed::{step_timed, step_timed_on, valid_timed, TimedAnswer, TimedState};
pub use times::{Times, TIMES_LEN};
pub use valid::valid;
pub use wait::wait_bound;
pub use waits::{waits, MOST_WAIT_BYTES};
pub use why::{why, why_on, Reasons, LONGEST_LINE};

/// Most phases of a site.
pub const MAX_PHASES: usize = 7;
/// Most signal groups of a site, pedestrian groups included.
pub const MAX_GROUPS: usize = 32;
/// Most detectors of a site.
pub const MAX_DETECTORS: usize = 48;
/// Most pedestrian movements of a site, each with one push button.
pub const MAX_MOVEMENTS: usize = 8;
/// The input bit of the first push button; the bits below are the detectors.
pub const FIRST_BUTTON: u32 = 48;

//! Site texts: `site.txt` to the bytes of a personality and back.
//!
//! [`read`] gives the site of a text or all its mistakes, [`Site::build`] its bytes with
//! the place in the text that made each of them, [`show`] the text of bytes. The grammar
//! is in workbench/README.md.
//!
//! Nothing here judges a site. A text can be read if it can be written as bytes; the
//! proved library accepts or refuses these. [`tell`] puts a refusal of the library into
//! words and finds the line, [`warnings`] lists what is allowed and probably wrong.

#![forbid(unsafe_code)]

mod build;
mod differ;
mod inputs;
pub mod json;
mod parse;
/// The numbers of the refusals and their general sentences, as the Rust wrappers of the
/// library have them.
#[path = "../../../rust/willowera/src/refusal.rs"]
pub mod refusal;
mod row;
mod show;
mod site;
mod tell;
pub mod waits;
mod warn;
mod words;

pub use build::Built;
pub use differ::differences;
pub use inputs::{read_inputs, Script};
pub use parse::{read, read_road};
pub use row::{listed, Time};
pub use show::{show, NotShown};
pub use site::{
    letter, letters, Approach, Detector, Group, Movement, Phase, Place, Road, Setting, Side, Site,
    Stream, ARROWS, CALLS, EARLY_CUT_OFF, EXTENDS, FIRST_BUTTON, HEADINGS, LATE_START, MARKS,
    MOVEMENT_SETTINGS, PEDESTRIAN, PHASE_SETTINGS, ROAD_STEPS,
};
pub use tell::{tell, Told};
pub use warn::{speeds, warnings, Kind, Warning, YELLOW_GRADES, YELLOW_SPEEDS};
pub use words::{Mistake, Span};

/// Steps as seconds, such as `4.5 s`.
pub fn seconds(steps: u64) -> String {
    format!("{}.{} s", steps / 10, steps % 10)
}

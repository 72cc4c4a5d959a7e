//! Runs a board under a [`Monitor`](monitor::Monitor): [`watch`] with random or adversarial
//! inputs, [`follow`] with chosen ones, [`watch_cabinet`] the sites of a cabinet. Retimings or
//! times without power may be among the calls. The model is used here to choose inputs; the
//! monitor judges every accepted call, and says what a call must answer, without it.

#![forbid(unsafe_code)]

mod cabinet;
mod drivers;
mod following;
mod watching;

pub use cabinet::watch_cabinet;
pub use drivers::{Driver, Strategy};
pub use following::follow;
pub use watching::{watch, Among, Report};

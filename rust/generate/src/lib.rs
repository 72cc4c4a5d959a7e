//! Random personalities of every shape, damaged ones, second ones with other times,
//! states, inputs, the streams of a road, the records of a cabinet, and sealed records
//! good and damaged. All of it is decided by a seed.

#![forbid(unsafe_code)]

mod cabinets;
mod damage;
mod inputs;
mod plan;
mod retimes;
mod rng;
mod seals;
mod states;
mod streams;
mod timed;

pub use cabinets::{any_records, held_record, twist, CabinetCall, Twist};
pub use damage::{damaged, other_edition, scrambled, twice_damaged, AIMED};
pub use inputs::{any_inputs, known_inputs, unknown_inputs};
pub use plan::{Pace, Plan, Shape, MODES};
pub use retimes::{any_second, changed_beyond_times, refused_second, retimed, time_fields};
pub use rng::Rng;
pub use seals::{damaged_record, record_of, SealDamage};
pub use states::{broken_state_bytes, invalid_state, running_state, valid_state, Breakage};
pub use streams::{RoadDamage, RoadPlan};
pub use timed::{
    broken_times, invalid_timed_state, running_timed_state, valid_timed_state, TimesBreakage,
};

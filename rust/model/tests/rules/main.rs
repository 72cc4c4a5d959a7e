//! The rules of document 01, and of the requests of document 02 that are built,
//! case by case.

mod cabinet;
mod calls;
mod demanded;
mod early_cut_off;
mod editions;
mod junction;
mod late_start;
mod letter;
mod lookup;
mod order;
mod overlaps;
mod pedestrians;
mod refusals;
mod resting_walk;
mod retime;
mod road;
mod running;
mod sealed;
mod states;
mod trace;
mod wait;
mod waits;
mod why;

//! Which states are valid at a site.

use crate::site::Site;
use crate::state::{Interval, MovementState, Stage, State, MAX_AGE};
use crate::step::scan;

/// Whether a state may be stepped at a site.
#[inline]
pub fn valid(site: &Site, state: &State) -> bool {
    let phase_count = site.phase_count();
    let held = |phase: u8| usize::from(phase) < phase_count;
    if !held(state.phase) {
        return false;
    }
    let times = site.phase(state.phase);
    let target_fits = match state.target {
        None => !state.interval.is_clearing(),
        Some(target) => state.interval.is_clearing() && held(target) && target != state.phase,
    };
    let interval_fits = state.interval != Interval::EarlyCutOff || site.has_early_cut_offs();
    target_fits
        && interval_fits
        && state.came_from.is_none_or(held)
        && age_fits(state.age)
        && state.gap_count <= times.gap
        && state.maximum_count <= times.maximum_green
        && state.locks & !site.all_phases() == 0
        && state.demands & !site.all_movements() == 0
        && state.demanded == scan(site, state)
        && movements_fit(site, state)
}

#[inline]
fn age_fits(age: u16) -> bool {
    (1..=MAX_AGE).contains(&age)
}

/// Only movements of the phase may be out of idle, and only in the stages that
/// the interval allows. Records the site does not have are idle.
#[inline]
fn movements_fit(site: &Site, state: &State) -> bool {
    let own = 1 << state.phase;
    let sets = &site.groups.movement_set;
    state
        .movements
        .iter()
        .zip(sets)
        .all(|(movement, &set)| match movement.stage {
            Stage::Idle => *movement == MovementState::IDLE,
            stage => set == own && stage_fits(stage, state.interval) && age_fits(movement.age),
        })
}

/// Whether a movement may be in a stage other than idle in an interval.
#[inline]
fn stage_fits(stage: Stage, interval: Interval) -> bool {
    match interval {
        Interval::StartRed => false,
        interval if interval.is_clearing() => stage == Stage::ClearanceTwo,
        _ => true,
    }
}

//! The situations in which a demand has to wait long. After each of them everything is
//! occupied and pressed: each other phase has its whole turn.

use crate::demand::{wait_for, Demand, Driven};
use crate::run::{button, buttons, callers, detectors, extenders, is_at, is_open, Run};
use model::{Interval, Site, Stage, State};

/// The longest wait of a demand in all situations.
pub fn longest(site: &Site, demand: Demand) -> Option<Driven> {
    let mut all: Vec<Driven> = in_start_red(site, demand).into_iter().collect();
    all.extend(while_a_phase_is_left(site, demand));
    if let Demand::Walk { movement } = demand {
        all.extend(in_the_own_phase(site, movement));
        all.extend(in_the_own_clearance(site, movement));
    }
    longer(all.into_iter())
}

/// The longest of some waits, the first of these.
pub fn longer(all: impl Iterator<Item = Driven>) -> Option<Driven> {
    all.reduce(|best, other| if other.wait > best.wait { other } else { best })
}

/// In the first step.
fn in_start_red(site: &Site, demand: Demand) -> Option<Driven> {
    wait_for(demand, Run::new(site), "in the first step", |_| {
        site.known_inputs()
    })
}

/// In the first step after running of any phase ended, with any target, without a walk of
/// the phase and with each of them alone: together with others it may be over earlier.
fn while_a_phase_is_left(site: &Site, demand: Demand) -> Vec<Driven> {
    let phases = || 0..site.phase_count() as u8;
    let mut all = Vec::new();
    for phase in phases() {
        let of_phase = |&one: &usize| site.movement(one).phase == phase;
        let walks = (0..site.movement_count()).filter(of_phase).map(Some);
        for walk in [None].into_iter().chain(walks) {
            let Some(open) = opened(site, phase, walk.map(button)) else {
                continue;
            };
            for target in phases().filter(|&target| target != phase) {
                let left = open.clone().until(
                    |state| state.interval.is_clearing(),
                    |_| some_demand(site, target),
                );
                let walked = walk.map_or(String::new(), |one| format!(" after P{}", one + 1));
                let (from, to) = (letter(phase), letter(target));
                let how = format!("when {from} is left for {to}{walked}");
                let flood = |_: &State| site.known_inputs();
                all.extend(left.and_then(|run| wait_for(demand, run, &how, flood)));
            }
        }
    }
    all
}

/// In the first step after the own phase has started without a walk of the movement.
fn in_the_own_phase(site: &Site, movement: usize) -> Vec<Driven> {
    let phase = site.movement(movement).phase;
    let others = buttons(site, phase, Some(movement));
    let mut all = Vec::new();
    for pressed in [0, others] {
        let open = opened(site, phase, Some(pressed));
        let how = "when its phase has just started without it";
        let flood = |_: &State| site.known_inputs();
        all.extend(open.and_then(|run| wait_for(Demand::Walk { movement }, run, how, flood)));
    }
    all
}

/// In the first step of the own first clearance. Either another phase stays demanded, or it
/// was a call that has dropped away and comes back at the end of the second clearance, one
/// step after the walks of the other movements began.
fn in_the_own_clearance(site: &Site, movement: usize) -> Vec<Driven> {
    let phase = site.movement(movement).phase;
    let demand = Demand::Walk { movement };
    let clears = |state: &State| is_at(state, movement, Stage::ClearanceOne, 1);
    let own = button(movement);
    let all_buttons = buttons(site, phase, None);
    let mut all = Vec::new();
    for pressed in [own, all_buttons] {
        let open = opened(site, phase, Some(pressed));
        let flood = |_: &State| site.known_inputs();
        let run = open.and_then(|open| open.until(clears, flood));
        let how = "when its clearance begins";
        all.extend(run.and_then(|run| wait_for(demand, run, how, flood)));
    }
    for caller in 0..site.detector_count() {
        let detector = site.detector(caller);
        if !detector.calls() || detector.phase == phase {
            continue;
        }
        let open = opened(site, phase, Some(own));
        // The call comes when the walk ends at once, so that the maximum is not used up.
        let may_end = |state: &State| {
            let running = state.interval == Interval::Running && state.gap_count == 0;
            running && is_at(state, movement, Stage::Walk, site.movement(movement).walk)
        };
        let call = |state: &State| u64::from(may_end(state)) << caller;
        // The phase starts by the own button. Then nothing is demanded until the call.
        let run = open.and_then(|open| open.until(clears, call));
        let how = format!("when its clearance begins, and detector {caller} drops away");
        let inputs = |state: &State| until_cleared(site, movement, state);
        all.extend(run.and_then(|run| wait_for(demand, run, &how, inputs)));
    }
    all
}

/// Holds the own phase alone while a movement clears. In the last step but one the other
/// buttons are pressed, and from the last step on everything is.
fn until_cleared(site: &Site, movement: usize, state: &State) -> u64 {
    let times = site.movement(movement);
    let two = times.clearance_two;
    let last_but_one = match two {
        1 => is_at(state, movement, Stage::ClearanceOne, times.clearance_one),
        _ => is_at(state, movement, Stage::ClearanceTwo, two - 1),
    };
    let clears = [Stage::ClearanceOne, Stage::ClearanceTwo];
    let extends = extenders(site, times.phase);
    if is_at(state, movement, Stage::ClearanceTwo, two)
        || !clears.contains(&state.movements[movement].stage)
    {
        site.known_inputs()
    } else if last_but_one {
        extends | buttons(site, times.phase, Some(movement))
    } else {
        extends
    }
}

/// A run to the first step of a phase, which alone is demanded: by these buttons, or if
/// there are none by its detectors, or else by one of its buttons.
fn opened<'a>(site: &'a Site, phase: u8, pressed: Option<u64>) -> Option<Run<'a>> {
    let inputs = match pressed {
        Some(0) => callers(site, phase),
        Some(pressed) => pressed,
        None => some_demand(site, phase),
    };
    Run::new(site).until(|state| is_open(state, phase), |_| inputs)
}

/// Something that demands a phase.
fn some_demand(site: &Site, phase: u8) -> u64 {
    let of_phase = callers(site, phase);
    let locking = detectors(site, |one| one.phase == phase && one.locks());
    match (locking, of_phase) {
        (0, 0) => {
            let buttons = buttons(site, phase, None);
            buttons & buttons.wrapping_neg()
        }
        (0, calling) => calling,
        (locking, _) => locking,
    }
}

fn letter(phase: u8) -> char {
    (b'A' + phase) as char
}

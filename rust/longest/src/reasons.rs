//! What rules out the last steps of a wait at a site: the formula of the wait looks at the
//! times alone, and not at the detectors.

use crate::demand::Demand;
use crate::run::{callers, detectors, extenders};
use model::Site;

/// Steps of a wait that no inputs reach, and why.
#[derive(Clone, Debug, PartialEq, Eq)]
pub struct Reason {
    pub steps: u32,
    pub words: String,
}

/// The steps of a wait that are ruled out. What is left of the wait is the longest that a
/// demand can wait.
pub fn ruled_out(site: &Site, demand: Demand) -> Vec<Reason> {
    let phase = demand.phase(site);
    let mut all = vec![Reason {
        steps: 1,
        words: "the wait is promised in fewer steps".to_string(),
    }];
    let others = (0..site.phase_count() as u8).filter(|&other| other != phase);
    for other in others {
        let steps = site.turn(other) - turn(site, other);
        let letter = (b'A' + other) as char;
        let words = format!("nothing extends {letter}");
        all.push(Reason { steps, words });
    }
    let (wait, found, words) = match demand {
        Demand::Green { .. } => {
            let found = first(site, phase);
            let words = "A is not next after it, so that not every turn comes after start red";
            (site.first(phase), found, words)
        }
        Demand::Walk { movement } => {
            let (found, words) = before_walk(site, movement);
            (site.first(phase).max(site.own(movement)), found, words)
        }
    };
    all.push(Reason {
        steps: wait - found,
        words: words.to_string(),
    });
    all.retain(|reason| reason.steps > 0);
    all
}

/// The steps of maximum green that a phase can have: none past its gap if nothing extends it.
fn maximum(site: &Site, phase: u8) -> u32 {
    let times = site.phase(phase);
    if times.gap > 0 && extenders(site, phase) != 0 {
        return times.maximum_green.into();
    }
    let left = times.gap.saturating_sub(times.minimum_green);
    left.min(times.maximum_green).into()
}

/// The longest that a phase goes on from its start, with walks of its movements except one.
fn ending(site: &Site, phase: u8, except: Option<usize>) -> u32 {
    let times = site.phase(phase);
    let held = u32::from(times.late_start) + u32::from(times.minimum_green) + maximum(site, phase);
    let least = u32::from(times.late_start) + u32::from(times.minimum_green) + 1;
    let walks = of_phase(site, phase, except).map(|other| {
        let walk = site.movement(other);
        (held + 1).max(walk.walk.into()) + clearing(site, other)
    });
    walks.fold(held.max(least) + leaving(site, phase), u32::max)
}

fn turn(site: &Site, phase: u8) -> u32 {
    ending(site, phase, None)
}

/// The first clearance of a movement, and what follows it.
fn clearing(site: &Site, movement: usize) -> u32 {
    let times = site.movement(movement);
    let two = u32::from(times.clearance_two);
    u32::from(times.clearance_one) + two.max(leaving(site, times.phase))
}

fn leaving(site: &Site, phase: u8) -> u32 {
    let times = site.phase(phase);
    u32::from(site.early_cut_off(phase)) + u32::from(times.yellow) + u32::from(times.all_red)
}

fn of_phase<'a>(
    site: &'a Site,
    phase: u8,
    except: Option<usize>,
) -> impl Iterator<Item = usize> + 'a {
    let all = 0..site.movement_count();
    all.filter(move |&one| site.movement(one).phase == phase && Some(one) != except)
}

/// What can come before the turns of all other phases. Start red does if A is next after
/// the phase; else some turns do not follow it.
fn first(site: &Site, phase: u8) -> u32 {
    let all = (1_u8 << site.phase_count()) - 1;
    let after = site.first_after(phase, all & !(1 << phase));
    let others = (0..site.phase_count() as u8).filter(|&other| other != phase);
    let rest: u32 = others.map(|other| turn(site, other)).sum();
    let mut next = 0;
    let mut path = 0;
    while next != phase {
        path += turn(site, next);
        next = site.first_after(next, all & !(1 << next));
    }
    let start_red = (u32::from(site.start_red()) + path).saturating_sub(rest);
    let clearing = (0..site.phase_count() as u8).filter(|&other| other != after);
    let longest = clearing.map(|other| {
        let second = of_phase(site, other, None);
        let second = second.map(|one| site.movement(one).clearance_two);
        leaving(site, other).max(second.max().unwrap_or(0).into())
    });
    longest.fold(start_red, u32::max)
}

/// What can come before the turns after a press, and what rules out the rest.
fn before_walk(site: &Site, movement: usize) -> (u32, &'static str) {
    let times = site.movement(movement);
    let phase = times.phase;
    let mut best = first(site, phase).max(clearing(site, movement));
    let others = of_phase(site, phase, Some(movement));
    if phase == 0 || callers(site, phase) != 0 || others.count() > 0 {
        best = best.max(ending(site, phase, Some(movement)));
    }
    let back = u32::from(times.clearance_one) + u32::from(times.clearance_two);
    let calls = detectors(site, |one| one.phase != phase && one.calls());
    if calls == 0 {
        return (
            best,
            "no other phase has a call without lock, which alone can drop away while it clears",
        );
    }
    // One step of the maximum is used when the walk ends. The other walks begin one step
    // before the clearance ends: in its last step the own walk would begin too.
    let held = maximum(site, phase).saturating_sub(1);
    let others = of_phase(site, phase, Some(movement));
    let walks = others.map(|other| {
        let ends = back - 1 + u32::from(site.movement(other).walk);
        ends.max(held + 1) + clearing(site, other)
    });
    let walks = walks.max().unwrap_or(0);
    let alone = back.max(held) + leaving(site, phase);
    let words = if walks > best.max(alone) {
        "another walk begins at the latest one step before the own clearance ends"
    } else {
        "its phase starts by this button alone, or nothing extends it"
    };
    (best.max(alone).max(walks), words)
}

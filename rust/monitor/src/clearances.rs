//! Greens and clearances.

use crate::site::{Site, Times};
use crate::state::Interval;
use crate::step::Step;
use crate::times::Ruling;
use crate::Breach;

const RED: u8 = 0;
const YELLOW: u8 = 1;
const GREEN: u8 = 2;
const FLASHING_RED: u8 = 3;

/// What every group has shown so far, as far as it matters.
#[derive(Clone, Debug)]
pub struct Clearances {
    groups: Vec<Shown>,
    pub green_starts: u64,
}

/// What one group has shown.
#[derive(Clone, Debug, Default)]
struct Shown {
    /// The colour after the last accepted step.
    colour: Option<u8>,
    /// What follows its last green, if it was ever green.
    since_green: Option<SinceGreen>,
}

/// The colours of a group since its last green.
#[derive(Clone, Debug)]
struct SinceGreen {
    due: Due,
    /// Colours, each with the number of steps it was shown in a row.
    runs: Vec<(u8, u64)>,
}

/// The clearance that a group owes, by the state after its last green step: its
/// phase, and the times ruling then.
#[derive(Clone, Copy, Debug)]
enum Due {
    Vehicle { yellow: u64, all_red: u64 },
    Pedestrian { flashing: u64 },
}

impl Clearances {
    pub fn new(site: &Site) -> Clearances {
        Clearances {
            groups: vec![Shown::default(); site.groups.len()],
            green_starts: 0,
        }
    }

    pub fn step(&mut self, site: &Site, ruling: &Ruling, step: &Step) -> Result<(), Breach> {
        for group in 0..site.groups.len() {
            if step.colours[group] == GREEN {
                no_green_beside(site, step, group)?;
                if self.groups[group].colour != Some(GREEN) {
                    self.green_starts += 1;
                    self.all_cleared(site, step.number, group)?;
                }
            }
        }
        early_groups_close(site, step)?;
        for (group, shown) in self.groups.iter_mut().enumerate() {
            shown.take(step.colours[group], || {
                Due::by(site, &ruling.times, group, step.after.phase)
            });
        }
        Ok(())
    }

    /// Every group that conflicts with one that starts a green is cleared.
    fn all_cleared(&self, site: &Site, step: u64, starting: usize) -> Result<(), Breach> {
        for conflicting in conflicting_groups(site, starting) {
            match &self.groups[conflicting].since_green {
                Some(since) if !since.is_cleared() => {
                    return Err(Breach::Uncleared {
                        step,
                        starting,
                        conflicting,
                        shown: since.runs.clone(),
                    });
                }
                _ => {}
            }
        }
        Ok(())
    }
}

fn conflicting_groups<'a>(site: &'a Site, group: usize) -> impl Iterator<Item = usize> + 'a {
    let conflicts = site.groups[group].conflicts;
    (0..site.groups.len()).filter(move |other| conflicts >> other & 1 != 0)
}

fn no_green_beside(site: &Site, step: &Step, group: usize) -> Result<(), Breach> {
    match conflicting_groups(site, group).find(|&other| step.colours[other] == GREEN) {
        Some(other) => Err(Breach::GreenTogether {
            step: step.number,
            group,
            other,
        }),
        None => Ok(()),
    }
}

/// When early cut-off begins, its groups begin their yellow: those of the phase
/// that stop early and are not of the target.
fn early_groups_close(site: &Site, step: &Step) -> Result<(), Breach> {
    let early = Interval::EarlyCutOff;
    let after = &step.after;
    if after.interval != early || step.before.interval == early {
        return Ok(());
    }
    let stays_open = |&index: &usize| {
        let group = site.groups[index];
        let stays = after.target.is_some_and(|target| group.is_of(target));
        let closing = group.stops_early() && group.is_of(after.phase) && !stays;
        closing && step.colours[index] != YELLOW
    };
    match (0..site.groups.len()).find(stays_open) {
        Some(group) => Err(Breach::StaysOpen {
            step: step.number,
            group,
        }),
        None => Ok(()),
    }
}

impl Shown {
    fn take(&mut self, colour: u8, due: impl FnOnce() -> Due) {
        self.colour = Some(colour);
        if colour == GREEN {
            self.since_green = Some(SinceGreen {
                due: due(),
                runs: Vec::new(),
            });
        } else if let Some(since) = &mut self.since_green {
            match since.runs.last_mut() {
                Some((last, steps)) if *last == colour => *steps += 1,
                _ => since.runs.push((colour, 1)),
            }
        }
    }
}

impl SinceGreen {
    /// A vehicle group: yellow for Y steps, then red for at least R. A
    /// pedestrian group: flashing red for C1 + C2 steps, then at most red.
    fn is_cleared(&self) -> bool {
        match (self.due, self.runs.as_slice()) {
            (Due::Pedestrian { flashing }, [(FLASHING_RED, shown), rest @ ..]) => {
                let red_after = matches!(rest, [] | [(RED, _)]);
                *shown == flashing && red_after
            }
            (Due::Vehicle { yellow, all_red }, [(YELLOW, shown_yellow), (RED, shown_red)]) => {
                *shown_yellow == yellow && *shown_red >= all_red
            }
            _ => false,
        }
    }
}

impl Due {
    /// What a group owes by these times that is green in a phase.
    fn by(site: &Site, times: &Times, group: usize, phase: usize) -> Due {
        if site.groups[group].is_pedestrian() {
            let mut movements = site.movements.iter().zip(&times.movements);
            let own = movements.find(|(movement, _)| movement.group == group);
            let (_, times) = own.expect("a pedestrian group has a movement");
            let flashing = times.first_clearance + times.second_clearance;
            return Due::Pedestrian { flashing };
        }
        let times = &times.phases[phase];
        Due::Vehicle {
            yellow: times.yellow,
            all_red: times.all_red,
        }
    }
}

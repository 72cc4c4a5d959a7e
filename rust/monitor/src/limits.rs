//! How long a demand may wait by given times: the wait bound (R10 of `docs/RULES.md`), and
//! the parts of the wait of each phase and each movement (R22).

use crate::site::{Site, Times};

/// The limits of a site by some times.
#[derive(Clone, Copy, Debug)]
pub struct Limits {
    /// The wait bound.
    pub bound: u64,
    /// For each phase: its turn, what comes first before it, and its late start.
    pub turn: [u64; 7],
    pub first: [u64; 7],
    pub late_start: [u64; 7],
    /// For each movement: what comes before the turns of the other phases.
    pub walk_first: [u64; 8],
}

impl Limits {
    pub fn of(site: &Site, times: &Times) -> Limits {
        let all = || 0..site.phases;
        let mut limits = Limits {
            bound: times.start_red + all().map(|phase| share(site, times, phase)).sum::<u64>(),
            turn: [0; 7],
            first: [0; 7],
            late_start: [0; 7],
            walk_first: [0; 8],
        };
        for phase in all() {
            limits.turn[phase] = turn(site, times, phase, None);
            let under_way = all()
                .filter(|&other| other != site.following[phase])
                .map(|other| leaving(times, other).max(longest_clearance(site, times, other)));
            limits.first[phase] = under_way.max().unwrap_or(0).max(times.start_red);
            limits.late_start[phase] = times.phases[phase].late_start;
        }
        for (index, movement) in site.movements.iter().enumerate() {
            let own = own_part(site, times, index);
            limits.walk_first[index] = limits.first[movement.phase].max(own);
        }
        limits
    }

    /// The wait of a phase.
    pub fn phase_wait(&self, phase: usize) -> u64 {
        self.late_start[phase] + self.first[phase] + self.others(phase)
    }

    /// The wait of a movement of a phase.
    pub fn movement_wait(&self, movement: usize, phase: usize) -> u64 {
        self.walk_first[movement] + self.others(phase)
    }

    /// One turn of each other phase.
    fn others(&self, phase: usize) -> u64 {
        self.turn.iter().sum::<u64>() - self.turn[phase]
    }
}

/// What a phase adds to the wait bound.
fn share(site: &Site, times: &Times, phase: usize) -> u64 {
    let of = &times.phases[phase];
    let walks = site.movements_of(phase).map(|index| {
        let movement = &times.movements[index];
        movement.walk + movement.first_clearance
    });
    let leaving = leaving(times, phase) + longest_clearance(site, times, phase);
    let twice = walks.max().unwrap_or(0) + leaving;
    of.late_start + of.minimum + of.maximum + 2 * twice
}

/// V: E + Y + R.
fn leaving(times: &Times, phase: usize) -> u64 {
    let of = &times.phases[phase];
    of.early + of.yellow + of.all_red
}

/// The longest C2 of a phase.
fn longest_clearance(site: &Site, times: &Times, phase: usize) -> u64 {
    let clearances = site
        .movements_of(phase)
        .map(|index| times.movements[index].second_clearance);
    clearances.max().unwrap_or(0)
}

/// The turn of a phase, from its start to the next, without one of its movements if that is
/// not to count.
fn turn(site: &Site, times: &Times, phase: usize, without: Option<usize>) -> u64 {
    let of = &times.phases[phase];
    let green = of.late_start + of.minimum + of.maximum;
    let walks = others_of(site, phase, without).map(|index| {
        walk_ending(
            times,
            phase,
            index,
            times.movements[index].walk.max(green + 1),
        )
    });
    walks.max().unwrap_or(0).max(green + leaving(times, phase))
}

/// The own part of a movement: the turn without it; or its clearances and then another walk
/// of its phase, or at once what leaves the phase.
fn own_part(site: &Site, times: &Times, movement: usize) -> u64 {
    let phase = site.movements[movement].phase;
    let own = &times.movements[movement];
    let walks = others_of(site, phase, Some(movement))
        .map(|index| walk_ending(times, phase, index, times.movements[index].walk));
    let after = walks.max().unwrap_or(0).max(leaving(times, phase));
    let cleared = own.first_clearance + own.second_clearance;
    turn(site, times, phase, Some(movement)).max(cleared + after)
}

/// A walk of so many steps with its clearances, to the end of the phase.
fn walk_ending(times: &Times, phase: usize, movement: usize, walk: u64) -> u64 {
    let of = &times.movements[movement];
    walk + of.first_clearance + of.second_clearance.max(leaving(times, phase))
}

/// The movements of a phase, without one.
fn others_of(
    site: &Site,
    phase: usize,
    without: Option<usize>,
) -> impl Iterator<Item = usize> + '_ {
    let counts = move |index: &usize| Some(*index) != without;
    site.movements_of(phase).filter(counts)
}

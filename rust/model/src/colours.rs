//! The colours of the signal groups.

use crate::bits::{set_bits, spread};
use crate::site::Site;
use crate::state::{Interval, Stage, State};
use crate::MAX_GROUPS;

/// The colour codes, one byte a group or output.
#[derive(Clone, Copy, Debug, PartialEq, Eq)]
#[repr(u8)]
pub enum Colour {
    Red = 0,
    Yellow = 1,
    Green = 2,
    FlashingRed = 3,
    /// An output of a cabinet whose site was taken out; no group shows it.
    Dark = 4,
}

/// Writes the colour of every group; the buffer is as long as the group count.
#[inline]
pub(crate) fn show(site: &Site, state: &State, colours: &mut [u8]) {
    let aspects = Aspects::of(site, state);
    let mut codes = [0; MAX_GROUPS];
    for (eight, codes) in codes.as_chunks_mut::<8>().0.iter_mut().enumerate() {
        *codes = aspects.codes(eight).to_le_bytes();
    }
    colours.copy_from_slice(&codes[..colours.len()]);
}

/// The groups that are not red, bit g for group g.
struct Aspects {
    yellow: u32,
    green: u32,
    flashing_red: u32,
}

impl Aspects {
    #[inline]
    fn of(site: &Site, state: &State) -> Aspects {
        let mut aspects = Aspects::of_vehicles(site, state);
        let groups = set_bits(site.groups.pedestrian.into());
        for (group, movement) in groups.zip(&state.movements) {
            match movement.stage {
                Stage::Idle => {}
                Stage::Walk => aspects.green |= 1 << group,
                Stage::ClearanceOne | Stage::ClearanceTwo => aspects.flashing_red |= 1 << group,
            }
        }
        aspects
    }

    #[inline]
    fn of_vehicles(site: &Site, state: &State) -> Aspects {
        let groups_of = |phase: u8| site.groups.of_phase[usize::from(phase & 7)];
        let own = groups_of(state.phase) & !site.groups.pedestrian;
        let next = state.target.map_or(0, groups_of);
        let closing = own & !next;
        let (green, yellow) = match state.interval {
            Interval::StartRed => (0, 0),
            Interval::LateStart => {
                let from = state.came_from.map_or(0, groups_of);
                (own & !(site.groups.late & !from), 0)
            }
            Interval::MinimumGreen | Interval::Running => (own, 0),
            Interval::EarlyCutOff => {
                let early = closing & site.groups.early;
                (own & !early, early & early_yellow(site, state))
            }
            Interval::Yellow => {
                let others = closing & !site.groups.early;
                (own & next, others | closing & early_yellow(site, state))
            }
            Interval::AllRed => (own & next, 0),
        };
        Aspects {
            yellow,
            green,
            flashing_red: 0,
        }
    }

    /// The codes of eight groups, one byte each.
    #[inline]
    fn codes(&self, eight: usize) -> u64 {
        let bytes = |set: u32| spread((set >> (8 * eight)) as u8);
        let coded = |set: u32, colour: Colour| bytes(set) * colour as u64;
        coded(self.yellow, Colour::Yellow)
            | coded(self.green, Colour::Green)
            | coded(self.flashing_red, Colour::FlashingRed)
    }
}

/// The groups that stop early, while their yellow lasts: Y steps from the start
/// of early cut-off. None of them afterwards.
#[inline]
fn early_yellow(site: &Site, state: &State) -> u32 {
    let before = match state.interval {
        Interval::Yellow => site.early_cut_off(state.phase),
        _ => 0,
    };
    if before + state.age <= site.phase(state.phase).yellow {
        site.groups.early
    } else {
        0
    }
}

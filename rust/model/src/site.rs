//! A site: an accepted personality, looked at without copying it.

use crate::limits::Edition;
use crate::{FIRST_BUTTON, MAX_MOVEMENTS};

/// The time settings of a phase.
#[derive(Clone, Copy, Debug, PartialEq, Eq)]
pub struct PhaseTimes {
    pub late_start: u16,
    pub minimum_green: u16,
    pub maximum_green: u16,
    pub gap: u16,
    pub yellow: u16,
    pub all_red: u16,
}

/// What kind of signal group it is.
#[derive(Clone, Copy, Debug, PartialEq, Eq)]
#[repr(u8)]
pub enum Mark {
    Vehicle = 0,
    /// A vehicle group that waits in red during late start.
    LateStart = 1,
    Pedestrian = 2,
    /// A vehicle group that stops early.
    EarlyCutOff = 3,
}

/// A signal group.
#[derive(Clone, Copy, Debug, PartialEq, Eq)]
pub struct Group {
    /// The phases it belongs to; bit 0 is phase A.
    pub set: u8,
    pub mark: Mark,
}

/// A detector.
#[derive(Clone, Copy, Debug, PartialEq, Eq)]
pub struct Detector {
    pub phase: u8,
    /// 0 no call, 1 calling, 2 calling with lock; plus 4 where it extends.
    pub mode: u8,
}

impl Detector {
    /// Calls its phase while occupied, without lock.
    pub fn calls(self) -> bool {
        self.mode & 3 == 1
    }

    /// Locks a demand of its phase.
    pub fn locks(self) -> bool {
        self.mode & 3 == 2
    }

    /// Extends the green of its phase.
    pub fn extends(self) -> bool {
        self.mode & 4 != 0
    }
}

/// A pedestrian movement: its group, phase and time settings.
#[derive(Clone, Copy, Debug, PartialEq, Eq)]
pub struct Movement {
    pub group: u8,
    pub phase: u8,
    pub walk: u16,
    pub clearance_one: u16,
    pub clearance_two: u16,
}

/// The bytes of the sections' records, each within its limits.
#[derive(Clone, Copy, Debug)]
pub(crate) struct Records<'a> {
    pub edition: Edition,
    pub start_red: u16,
    pub phases: &'a [[u8; 12]],
    pub groups: &'a [[u8; 2]],
    pub conflicts: &'a [[u8; 4]],
    pub detectors: &'a [[u8; 2]],
    pub movements: &'a [[u8; 6]],
    /// The early cut-off times; none without their section.
    pub early_cut_offs: Option<&'a [[u8; 2]]>,
    /// The phases in running order; none where letters rule.
    pub order: Option<&'a [u8]>,
}

/// What the group records say, turned round: sets of groups, bit g for group g.
#[derive(Clone, Copy, Debug, Default)]
pub(crate) struct Groups {
    /// The groups of every phase, vehicle and pedestrian.
    pub of_phase: [u32; 8],
    /// The vehicle groups with late start.
    pub late: u32,
    /// The pedestrian groups.
    pub pedestrian: u32,
    /// The vehicle groups that stop early.
    pub early: u32,
    /// The phase set of every movement: one bit.
    pub movement_set: [u8; MAX_MOVEMENTS],
    pub movement_count: usize,
}

/// An accepted site.
#[derive(Clone, Copy, Debug)]
pub struct Site<'a> {
    pub(crate) records: Records<'a>,
    pub(crate) groups: Groups,
}

impl Site<'_> {
    /// The edition of the limits that its times are within.
    pub fn edition(&self) -> Edition {
        self.records.edition
    }

    pub fn start_red(&self) -> u16 {
        self.records.start_red
    }

    pub fn phase_count(&self) -> usize {
        self.records.phases.len()
    }

    pub fn group_count(&self) -> usize {
        self.records.groups.len()
    }

    pub fn detector_count(&self) -> usize {
        self.records.detectors.len()
    }

    pub fn movement_count(&self) -> usize {
        self.records.movements.len()
    }

    /// The settings of a phase below the phase count.
    #[inline]
    pub fn phase(&self, phase: u8) -> PhaseTimes {
        PhaseTimes::decode(&self.records.phases[usize::from(phase)])
    }

    /// Whether the site has a section of early cut-off times.
    #[inline]
    pub fn has_early_cut_offs(&self) -> bool {
        self.records.early_cut_offs.is_some()
    }

    /// The early cut-off time of a phase below the phase count: 0 without the
    /// section.
    #[inline]
    pub fn early_cut_off(&self, phase: u8) -> u16 {
        match self.records.early_cut_offs {
            Some(times) => u16::from_le_bytes(times[usize::from(phase)]),
            None => 0,
        }
    }

    /// Whether the site has a section with the order of its phases.
    pub fn has_order(&self) -> bool {
        self.records.order.is_some()
    }

    /// The first phase of a set after a phase in running order, which goes round.
    /// The set has a phase, and not this one.
    #[inline]
    pub fn first_after(&self, phase: u8, set: u8) -> u8 {
        match self.records.order {
            None => first_letter_after(phase, set),
            Some(order) => {
                let after = order.iter().cycle().skip_while(|&&other| other != phase);
                let mut round = after.skip(1).take(order.len());
                let next = round.find(|&&other| set >> other & 1 != 0);
                *next.unwrap_or(&phase)
            }
        }
    }

    /// A group below the group count.
    pub fn group(&self, group: usize) -> Group {
        let [set, mark] = self.records.groups[group];
        let mark = match mark {
            0 => Mark::Vehicle,
            1 => Mark::LateStart,
            2 => Mark::Pedestrian,
            _ => Mark::EarlyCutOff,
        };
        Group { set, mark }
    }

    /// The groups that conflict with a group, bit g for group g.
    pub fn conflicts(&self, group: usize) -> u32 {
        u32::from_le_bytes(self.records.conflicts[group])
    }

    /// A detector below the detector count.
    pub fn detector(&self, detector: usize) -> Detector {
        let [phase, mode] = self.records.detectors[detector];
        Detector { phase, mode }
    }

    /// A movement below the movement count.
    pub fn movement(&self, movement: usize) -> Movement {
        let [walk, clearance_one, clearance_two] =
            movement_times(&self.records.movements[movement]);
        let group = crate::bits::set_bits(self.groups.pedestrian.into()).nth(movement);
        Movement {
            group: group.expect("a movement for every record") as u8,
            phase: self.groups.movement_set[movement].trailing_zeros() as u8,
            walk,
            clearance_one,
            clearance_two,
        }
    }

    /// The input bits that have a detector or a button.
    #[inline]
    pub fn known_inputs(&self) -> u64 {
        let detectors = (1_u64 << self.detector_count()) - 1;
        let buttons = (1_u64 << self.movement_count()) - 1;
        detectors | buttons << FIRST_BUTTON
    }

    /// The set of all phases.
    #[inline]
    pub(crate) fn all_phases(&self) -> u8 {
        !(u8::MAX << self.phase_count())
    }

    /// The set of all movements.
    #[inline]
    pub(crate) fn all_movements(&self) -> u8 {
        ((1_u16 << self.movement_count()) - 1) as u8
    }
}

impl PhaseTimes {
    /// The settings in a phase record.
    #[inline]
    pub(crate) fn decode(record: &[u8; 12]) -> PhaseTimes {
        let field = |i: usize| u16::from_le_bytes([record[2 * i], record[2 * i + 1]]);
        PhaseTimes {
            late_start: field(0),
            minimum_green: field(1),
            maximum_green: field(2),
            gap: field(3),
            yellow: field(4),
            all_red: field(5),
        }
    }
}

/// Walk, clearance one and clearance two of a pedestrian record.
#[inline]
pub(crate) fn movement_times(record: &[u8; 6]) -> [u16; 3] {
    core::array::from_fn(|i| u16::from_le_bytes([record[2 * i], record[2 * i + 1]]))
}

/// The first phase of a set after a phase, in cyclic letter order.
#[inline]
fn first_letter_after(phase: u8, set: u8) -> u8 {
    let later = set & (u8::MAX << phase);
    let from = if later != 0 { later } else { set };
    from.trailing_zeros() as u8
}

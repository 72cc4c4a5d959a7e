//! A site, read from the bytes of an accepted personality as R1 and R2 of `docs/RULES.md`
//! describe them, and its times in the form that a state has them in (`docs/DATA-SHEET.md`).

use std::ops::Range;

/// The push buttons begin at this input bit.
const FIRST_BUTTON: usize = 48;

/// Times as bytes: start red, seven phases, eight movements, seven early cut-off times.
pub const TIMES_LEN: usize = 148;
const PHASES_AT: usize = 2;
const MOVEMENTS_AT: usize = 86;
const EARLY_AT: usize = 134;

/// A number of two bytes, the lower one first.
pub fn two_at(bytes: &[u8], at: usize) -> u64 {
    u64::from(bytes[at]) | u64::from(bytes[at + 1]) << 8
}

/// What a personality says of a site.
#[derive(Clone, Debug)]
pub struct Site {
    personality: Vec<u8>,
    /// Where the personality has its times.
    time_places: [Range<usize>; 4],
    pub phases: usize,
    pub groups: Vec<Group>,
    pub detectors: Vec<Detector>,
    pub movements: Vec<Movement>,
    /// The phase after each phase in the running order.
    pub following: Vec<usize>,
    /// The times of the personality.
    pub times: [u8; TIMES_LEN],
}

#[derive(Clone, Copy, Debug)]
pub struct Group {
    /// Its phases; bit 0 is A.
    pub set: u8,
    pub mark: u8,
    /// The groups it conflicts with.
    pub conflicts: u32,
}

impl Group {
    pub fn is_pedestrian(self) -> bool {
        self.mark == 2
    }

    pub fn stops_early(self) -> bool {
        self.mark == 3
    }

    pub fn is_of(self, phase: usize) -> bool {
        self.set >> phase & 1 != 0
    }
}

#[derive(Clone, Copy, Debug)]
pub struct Detector {
    pub phase: usize,
    mode: u8,
}

impl Detector {
    pub fn locks(self) -> bool {
        matches!(self.mode, 2 | 6)
    }

    pub fn calls_without_lock(self) -> bool {
        matches!(self.mode, 1 | 5)
    }
}

#[derive(Clone, Copy, Debug)]
pub struct Movement {
    pub phase: usize,
    pub group: usize,
}

impl Site {
    /// The site of a personality, which must be an accepted one.
    pub fn read(personality: &[u8]) -> Site {
        let body = bodies(personality);
        let bytes = |kind: usize| &personality[body[kind].clone()];
        let phases = usize::from(personality[4]);
        let conflicts = bytes(4).chunks(4);
        let groups: Vec<Group> = (bytes(3).chunks(2).zip(conflicts))
            .map(|(group, conflicts)| Group {
                set: group[0],
                mark: group[1],
                conflicts: (two_at(conflicts, 0) | two_at(conflicts, 2) << 16) as u32,
            })
            .collect();
        let detector = |record: &[u8]| Detector {
            phase: record[0].into(),
            mode: record[1],
        };
        let crosses = |(group, one): (usize, &Group)| {
            let phase = one.set.trailing_zeros() as usize;
            one.is_pedestrian().then_some(Movement { phase, group })
        };
        let order: Vec<usize> = match bytes(9) {
            [] => (0..phases).collect(),
            order => order.iter().map(|&phase| phase.into()).collect(),
        };
        let mut times = [0; TIMES_LEN];
        let time_places = [6..8, body[2].clone(), body[6].clone(), body[7].clone()];
        for (at, place) in [0, PHASES_AT, MOVEMENTS_AT, EARLY_AT]
            .into_iter()
            .zip(&time_places)
        {
            times[at..at + place.len()].copy_from_slice(&personality[place.clone()]);
        }
        Site {
            personality: personality.to_vec(),
            phases,
            detectors: bytes(5).chunks(2).map(detector).collect(),
            movements: groups.iter().enumerate().filter_map(crosses).collect(),
            following: (0..phases).map(|phase| after(&order, phase)).collect(),
            groups,
            times,
            time_places,
        }
    }

    /// Whether an input bit is set that has no detector and no button.
    pub fn has_stray(&self, inputs: u64) -> bool {
        let known = |bit: usize| match bit.checked_sub(FIRST_BUTTON) {
            Some(button) => button < self.movements.len(),
            None => bit < self.detectors.len(),
        };
        (0..64).any(|bit| inputs >> bit & 1 != 0 && !known(bit))
    }

    /// Whether the button of a movement is pressed.
    pub fn is_pressed(inputs: u64, movement: usize) -> bool {
        inputs >> (FIRST_BUTTON + movement) & 1 != 0
    }

    /// Whether another personality differs from that of the site in times at most.
    pub fn differs_in_times_at_most(&self, other: &[u8]) -> bool {
        let same = |at: usize| other[at] == self.personality[at];
        let is_time = |at: usize| self.time_places.iter().any(|place| place.contains(&at));
        other.len() == self.personality.len() && (0..other.len()).all(|at| is_time(at) || same(at))
    }

    /// The movements of a phase.
    pub fn movements_of(&self, phase: usize) -> impl Iterator<Item = usize> + '_ {
        (0..self.movements.len()).filter(move |&index| self.movements[index].phase == phase)
    }
}

/// The place of the body of each kind of section; an empty one if the kind is not there.
fn bodies(personality: &[u8]) -> [Range<usize>; 10] {
    let mut bodies = [const { 0..0 }; 10];
    let mut head = 0;
    while head < personality.len() {
        let body = head + 4..head + 4 + two_at(personality, head) as usize;
        let kind = two_at(personality, head + 2) as usize;
        head = body.end;
        bodies[kind] = body;
    }
    bodies
}

/// The phase after a phase in an order.
fn after(order: &[usize], phase: usize) -> usize {
    let at = order.iter().position(|&one| one == phase);
    order[(at.expect("each phase is in the order") + 1) % order.len()]
}

/// Times, in steps.
#[derive(Clone, Copy, Debug)]
pub struct Times {
    pub start_red: u64,
    pub phases: [PhaseTimes; 7],
    pub movements: [MovementTimes; 8],
}

#[derive(Clone, Copy, Debug)]
pub struct PhaseTimes {
    pub late_start: u64,
    pub minimum: u64,
    pub maximum: u64,
    pub yellow: u64,
    pub all_red: u64,
    pub early: u64,
}

#[derive(Clone, Copy, Debug)]
pub struct MovementTimes {
    pub walk: u64,
    pub first_clearance: u64,
    pub second_clearance: u64,
}

impl Times {
    pub fn of(bytes: &[u8]) -> Times {
        let phase = |index: usize| {
            let [late_start, minimum, maximum, _gap, yellow, all_red] =
                [0, 2, 4, 6, 8, 10].map(|at| two_at(bytes, PHASES_AT + 12 * index + at));
            PhaseTimes {
                late_start,
                minimum,
                maximum,
                yellow,
                all_red,
                early: two_at(bytes, EARLY_AT + 2 * index),
            }
        };
        let movement = |index: usize| {
            let [walk, first_clearance, second_clearance] =
                [0, 2, 4].map(|at| two_at(bytes, MOVEMENTS_AT + 6 * index + at));
            MovementTimes {
                walk,
                first_clearance,
                second_clearance,
            }
        };
        Times {
            start_red: two_at(bytes, 0),
            phases: std::array::from_fn(phase),
            movements: std::array::from_fn(movement),
        }
    }
}

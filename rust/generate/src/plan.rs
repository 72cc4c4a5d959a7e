//! The plan of a site, from which a personality is written. A plan may hold
//! what no accepted personality may.

use crate::rng::Rng;
use model::{Edition, Limits, Mark, Setting, MAX_DETECTORS, MAX_GROUPS, MAX_MOVEMENTS, MAX_PHASES};

/// The modes a detector may have.
pub const MODES: [u8; 6] = [0, 1, 2, 4, 5, 6];
/// Those that call.
const CALLING: [u8; 4] = [1, 2, 5, 6];

const VEHICLE: u8 = Mark::Vehicle as u8;
const LATE_START: u8 = Mark::LateStart as u8;
const PEDESTRIAN: u8 = Mark::Pedestrian as u8;
const EARLY_CUT_OFF: u8 = Mark::EarlyCutOff as u8;

/// The plan of a site.
#[derive(Clone, Debug, PartialEq, Eq)]
pub struct Plan {
    /// The edition of the limits that its site section names.
    pub edition: Edition,
    pub start_red: u16,
    /// Late start, minimum green, maximum green, gap, yellow, all-red.
    pub phases: Vec<[u16; 6]>,
    /// Phase set and mark.
    pub groups: Vec<[u8; 2]>,
    pub conflicts: Vec<u32>,
    /// Phase and mode.
    pub detectors: Vec<[u8; 2]>,
    /// Walk, clearance one, clearance two.
    pub movements: Vec<[u16; 3]>,
    /// The early cut-off time of each phase, where there is such a section.
    pub early_cut_offs: Option<Vec<u16>>,
    /// The phases in running order, where there is such a section.
    pub order: Option<Vec<u8>>,
}

/// How a random plan chooses its times.
#[derive(Clone, Copy, Debug, PartialEq, Eq)]
pub enum Pace {
    /// Near the lowest value, so that a run sees many changes.
    Short,
    /// The lowest or highest value, or one beside it.
    Edges,
    /// Anywhere within the limits.
    Anywhere,
}

/// The sizes of a random plan.
#[derive(Clone, Copy, Debug, PartialEq, Eq)]
pub struct Shape {
    pub edition: Edition,
    pub phases: usize,
    pub groups: usize,
    pub pedestrians: usize,
    pub detectors: usize,
    pub early_cut_offs: bool,
    pub order: bool,
    pub pace: Pace,
}

impl Shape {
    /// A random shape; the edges of every size are as likely as all between.
    pub fn random(rng: &mut Rng) -> Shape {
        let groups = edged(rng, 1, MAX_GROUPS);
        Shape {
            edition: rng.pick(&Edition::ALL),
            phases: rng.range(2, MAX_PHASES),
            groups,
            pedestrians: edged(rng, 0, MAX_MOVEMENTS.min(groups)),
            detectors: edged(rng, 0, MAX_DETECTORS),
            early_cut_offs: rng.percent(60),
            order: rng.percent(50),
            pace: rng.pick(&[Pace::Short, Pace::Short, Pace::Edges, Pace::Anywhere]),
        }
    }

    fn time(&self, rng: &mut Rng, setting: Setting) -> u16 {
        random_time(rng, setting, self.edition, self.pace)
    }
}

/// A size: often the lowest or the highest.
fn edged(rng: &mut Rng, low: usize, high: usize) -> usize {
    match rng.below(8) {
        0 => low,
        1 => high,
        _ => rng.range(low, high),
    }
}

impl Plan {
    /// The personality of the plan.
    pub fn bytes(&self) -> Vec<u8> {
        let mut bytes = Vec::new();
        let mut site = vec![self.phases.len() as u8, self.groups.len() as u8];
        site.extend(self.start_red.to_le_bytes());
        section(&mut bytes, self.edition.site_kind(), site);
        section(&mut bytes, 2, times(self.phases.as_flattened()));
        section(&mut bytes, 3, self.groups.concat());
        let conflicts = self.conflicts.iter().flat_map(|row| row.to_le_bytes());
        section(&mut bytes, 4, conflicts.collect());
        section(&mut bytes, 5, self.detectors.concat());
        section(&mut bytes, 6, times(self.movements.as_flattened()));
        if let Some(early_cut_offs) = &self.early_cut_offs {
            section(&mut bytes, 7, times(early_cut_offs));
        }
        if let Some(order) = &self.order {
            section(&mut bytes, 9, order.clone());
        }
        bytes
    }

    /// The groups that stop early.
    pub fn early_groups(&self) -> impl Iterator<Item = usize> + '_ {
        (0..self.groups.len()).filter(|&group| self.groups[group][1] == EARLY_CUT_OFF)
    }

    /// The junction of two phases of document 01.
    pub fn junction() -> Plan {
        Plan {
            edition: Edition::One,
            start_red: 10,
            phases: vec![[0, 20, 30, 5, 30, 10]; 2],
            groups: vec![[1, VEHICLE], [2, VEHICLE]],
            conflicts: vec![2, 1],
            detectors: vec![[0, 6], [1, 6]],
            movements: vec![],
            early_cut_offs: None,
            order: None,
        }
    }

    /// Two phases and a crossing with long clearances. A has 10 steps of minimum green, 100
    /// of maximum, 30 of yellow, 10 of all-red, a detector that only extends, and a crossing
    /// with 10 steps of walk, 200 and 100 of clearance. B has 10, 10, 30, 10, and a call
    /// without lock.
    pub fn long_clearance() -> Plan {
        Plan {
            phases: vec![[0, 10, 100, 5, 30, 10], [0, 10, 10, 0, 30, 10]],
            groups: vec![[1, VEHICLE], [2, VEHICLE], [1, PEDESTRIAN]],
            conflicts: vec![0b010, 0b101, 0b010],
            detectors: vec![[0, 4], [1, 1]],
            movements: vec![[10, 200, 100]],
            ..Plan::junction()
        }
    }

    /// The junction of two phases as a site of edition two, with the lowest start
    /// red and all-red of that edition.
    pub fn junction_two() -> Plan {
        Plan {
            edition: Edition::Two,
            start_red: 30,
            phases: vec![[0, 20, 30, 5, 30, 15]; 2],
            ..Plan::junction()
        }
    }

    /// The junction of two phases with a turning arrow of A beside its main
    /// green, and early cut-off times of A and B.
    pub fn turning_arrow(early_cut_offs: Option<Vec<u16>>) -> Plan {
        Plan {
            groups: vec![[1, VEHICLE], [1, EARLY_CUT_OFF], [2, VEHICLE]],
            conflicts: vec![4, 4, 3],
            early_cut_offs,
            ..Plan::junction()
        }
    }

    /// Three phases in conflict, with a group and a locking detector each and every
    /// phase as in the junction of two phases, in this order.
    pub fn three_phases(order: Option<Vec<u8>>) -> Plan {
        Plan {
            phases: vec![[0, 20, 30, 5, 30, 10]; 3],
            groups: vec![[1, VEHICLE], [2, VEHICLE], [4, VEHICLE]],
            conflicts: vec![6, 5, 3],
            detectors: vec![[0, 6], [1, 6], [2, 6]],
            order,
            ..Plan::junction()
        }
    }

    /// The smallest site there is: two phases that share the only group, each with
    /// a detector.
    pub fn smallest() -> Plan {
        Plan {
            edition: Edition::One,
            start_red: 10,
            phases: vec![[0, 20, 30, 5, 30, 10]; 2],
            groups: vec![[3, VEHICLE]],
            conflicts: vec![0],
            detectors: vec![[0, 6], [1, 6]],
            movements: vec![],
            early_cut_offs: None,
            order: None,
        }
    }

    /// A site as large as they come: 7 phases, 32 groups, 48 detectors and 8
    /// movements, with overlaps, late starts, early cut-offs, an order of its own
    /// and every possible conflict.
    pub fn largest() -> Plan {
        let vehicle = |group: usize| {
            let overlap = if group % 4 == 3 {
                1 << ((group + 1) % 7)
            } else {
                0
            };
            let mark = match group % 5 {
                2 => LATE_START,
                3 => EARLY_CUT_OFF,
                _ => VEHICLE,
            };
            [1 << (group % 7) | overlap, mark]
        };
        let pedestrian = |movement: usize| [1 << (movement % 7), PEDESTRIAN];
        let mut plan = Plan {
            edition: Edition::One,
            start_red: 60,
            phases: (0..7).map(|p| [5 * (p % 2), 50, 300, 25, 35, 20]).collect(),
            groups: (0..24).map(vehicle).chain((0..8).map(pedestrian)).collect(),
            conflicts: vec![0; MAX_GROUPS],
            detectors: (0..MAX_DETECTORS)
                .map(|d| [(d % 7) as u8, [6, 6, 5, 4, 2, 1][d % 6]])
                .collect(),
            movements: vec![[60, 50, 40]; MAX_MOVEMENTS],
            early_cut_offs: Some(vec![0, 10, 20, 35, 36, 50, 100]),
            order: Some(vec![0, 2, 4, 6, 1, 3, 5]),
        };
        plan.make_conflicts(|| true);
        plan
    }

    /// A random plan that is accepted.
    pub fn random(rng: &mut Rng) -> Plan {
        let shape = Shape::random(rng);
        Plan::of_shape(rng, shape)
    }

    /// A random plan that is accepted, with so many groups at most.
    pub fn small(rng: &mut Rng, most: usize) -> Plan {
        let groups = rng.range(1, most);
        let shape = Shape {
            groups,
            pedestrians: edged(rng, 0, MAX_MOVEMENTS.min(groups)),
            ..Shape::random(rng)
        };
        Plan::of_shape(rng, shape)
    }

    /// A random accepted plan of a shape. Where pedestrian groups alone cannot
    /// serve every phase, one of them becomes a vehicle group.
    pub fn of_shape(rng: &mut Rng, shape: Shape) -> Plan {
        let groups = random_groups(rng, &shape);
        let pedestrians = groups.iter().filter(|group| group[1] == PEDESTRIAN);
        let movements = pedestrians
            .map(|_| random_times(rng, Setting::OF_MOVEMENT, &shape))
            .collect();
        let mut plan = Plan {
            edition: shape.edition,
            start_red: shape.time(rng, Setting::StartRed),
            phases: (0..shape.phases)
                .map(|_| random_phase(rng, &shape))
                .collect(),
            conflicts: vec![0; groups.len()],
            groups,
            detectors: (0..shape.detectors)
                .map(|_| [rng.below(shape.phases) as u8, rng.pick(&MODES)])
                .collect(),
            movements,
            early_cut_offs: shape
                .early_cut_offs
                .then(|| random_early_cut_offs(rng, &shape)),
            order: shape.order.then(|| random_order(rng, shape.phases)),
        };
        plan.make_callable(rng);
        let density = rng.pick(&[0, 30, 70, 100, 100]);
        plan.make_conflicts(|| rng.percent(density));
        plan
    }

    /// The phases that a detector calls or a pedestrian group has.
    pub fn called_phases(&self) -> u8 {
        let by_group = self.groups.iter().filter(|group| group[1] == PEDESTRIAN);
        let by_groups = by_group.fold(0, |called, group| called | group[0]);
        let calling = self.detectors.iter().filter(|[_, mode]| mode & 3 != 0);
        calling.fold(by_groups, |called, [phase, _]| called | 1 << phase)
    }

    /// Gives every phase that nobody can call a calling detector: one that another
    /// phase can spare, or one more.
    fn make_callable(&mut self, rng: &mut Rng) {
        for phase in 0..self.phases.len() as u8 {
            if self.called_phases() >> phase & 1 != 0 {
                continue;
            }
            let calling = [phase, rng.pick(&CALLING)];
            let before = self.called_phases();
            let spare = (0..self.detectors.len()).find(|&detector| {
                let mut without = self.clone();
                without.detectors[detector] = calling;
                without.called_phases() == before | 1 << phase
            });
            match spare {
                Some(detector) => self.detectors[detector] = calling,
                None => self.detectors.push(calling),
            }
        }
    }

    /// Lets two groups conflict where they share no phase and the choice says so.
    fn make_conflicts(&mut self, mut choose: impl FnMut() -> bool) {
        for one in 0..self.groups.len() {
            for other in 0..one {
                if self.groups[one][0] & self.groups[other][0] == 0 && choose() {
                    self.conflicts[one] |= 1 << other;
                    self.conflicts[other] |= 1 << one;
                }
            }
        }
    }
}

fn section(bytes: &mut Vec<u8>, kind: u16, body: Vec<u8>) {
    bytes.extend((body.len() as u16).to_le_bytes());
    bytes.extend(kind.to_le_bytes());
    bytes.extend(body);
}

fn times(times: &[u16]) -> Vec<u8> {
    times.iter().flat_map(|time| time.to_le_bytes()).collect()
}

/// A time within its limits. The edges are those of both editions.
pub(crate) fn random_time(rng: &mut Rng, setting: Setting, edition: Edition, pace: Pace) -> u16 {
    let Limits { low, high } = setting.limits(edition);
    let raised = setting.limits(Edition::Two).low;
    match pace {
        Pace::Short => rng.time(low, high.min(low + 12)),
        Pace::Edges => {
            let below = raised.saturating_sub(1).max(low);
            rng.pick(&[low, low, low + 1, below, raised, high - 1, high])
        }
        Pace::Anywhere => rng.time(low, high),
    }
}

fn random_times<const FIELDS: usize>(
    rng: &mut Rng,
    settings: [Setting; FIELDS],
    shape: &Shape,
) -> [u16; FIELDS] {
    settings.map(|setting| shape.time(rng, setting))
}

/// The times of a phase; half of the phases have no late start.
fn random_phase(rng: &mut Rng, shape: &Shape) -> [u16; 6] {
    let mut times = random_times(rng, Setting::OF_PHASE, shape);
    if rng.percent(50) {
        times[0] = 0;
    }
    times
}

/// The early cut-off times; some phases have none, some have one beside the
/// lowest yellow.
fn random_early_cut_offs(rng: &mut Rng, shape: &Shape) -> Vec<u16> {
    let yellow = Setting::Yellow.limits(shape.edition);
    (0..shape.phases)
        .map(|_| match rng.below(4) {
            0 => 0,
            1 => rng.time(yellow.low - 1, yellow.low + 13),
            _ => shape.time(rng, Setting::EarlyCutOff),
        })
        .collect()
}

/// The phases in any order.
fn random_order(rng: &mut Rng, phases: usize) -> Vec<u8> {
    let mut order: Vec<u8> = (0..phases as u8).collect();
    rng.shuffle(&mut order);
    order
}

/// Groups in which every phase is served.
fn random_groups(rng: &mut Rng, shape: &Shape) -> Vec<[u8; 2]> {
    let mut groups: Vec<[u8; 2]> = (0..shape.groups)
        .map(|index| {
            if index < shape.pedestrians {
                [1 << rng.below(shape.phases), PEDESTRIAN]
            } else {
                random_vehicle_group(rng, shape)
            }
        })
        .collect();
    serve_every_phase(rng, &mut groups, shape);
    rng.shuffle(&mut groups);
    groups
}

/// A vehicle group: most have one phase, some overlap, a few have none. It may
/// stop early only where the site has the times.
fn random_vehicle_group(rng: &mut Rng, shape: &Shape) -> [u8; 2] {
    let phases = shape.phases;
    let any = || (1_u16 << phases) - 1;
    let set = match rng.below(10) {
        0 => 0,
        1..=5 => 1 << rng.below(phases),
        6..=8 => 1 << rng.below(phases) | 1 << rng.below(phases),
        _ => (rng.draw() as u16 & any()) as u8,
    };
    let mark = if shape.early_cut_offs {
        rng.pick(&[VEHICLE, VEHICLE, LATE_START, EARLY_CUT_OFF, EARLY_CUT_OFF])
    } else {
        rng.pick(&[VEHICLE, VEHICLE, LATE_START])
    };
    [set, mark]
}

/// Adds the phases that no group has. Pedestrian groups come first; without
/// detectors they call the phases, where there are enough.
fn serve_every_phase(rng: &mut Rng, groups: &mut [[u8; 2]], shape: &Shape) {
    if shape.detectors == 0 && shape.pedestrians >= shape.phases {
        for (phase, group) in groups.iter_mut().take(shape.phases).enumerate() {
            group[0] = 1 << phase;
        }
    }
    if shape.pedestrians == shape.groups {
        if shape.groups < shape.phases {
            groups[shape.groups - 1][1] = VEHICLE;
        } else {
            for (phase, group) in groups.iter_mut().take(shape.phases).enumerate() {
                group[0] = 1 << phase;
            }
        }
    }
    let served = groups.iter().fold(0, |served, group| served | group[0]);
    for phase in 0..shape.phases {
        if served >> phase & 1 == 0 {
            let first_vehicle = groups.iter().position(|group| group[1] != PEDESTRIAN);
            let first = first_vehicle.expect("pedestrian groups alone serve every phase");
            let chosen = rng.range(first, groups.len() - 1);
            groups[chosen][0] |= 1 << phase;
        }
    }
}

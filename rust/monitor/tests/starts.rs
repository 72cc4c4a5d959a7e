//! No phase starts twice while a demand waits: the model, controllers that look for
//! the next phase in another way, and which starts count.

use drive::{watch, watch_cabinet, Among, Driver, Report, Strategy};
use generate::{Pace, Plan, Rng, Shape};
use model::packed::{self, number, Board, Model};
use model::{
    parts_in, section, Edition, Interval, MovementState, RecordBytes, Site, Stage, State,
    TimedState, OUTPUTS, RECORDS,
};
use monitor::{Breach, Demand, Monitor, Seen};
use variant::{AsBoard, Variant};

// ── Controllers that choose the next phase in another way ──

/// The model, with another running order in each step: what a controller does that
/// looks for the next phase from elsewhere. The function gets the order of the site and
/// the state; the phase comes first in what it gives.
struct Reordered(fn(&[u8], &State) -> Vec<u8>);

/// Always takes the first demanded phase in the order from its beginning.
const FROM_THE_BEGINNING: AsBoard<Reordered> = AsBoard(Reordered(|order, state| {
    let others = order.iter().copied().filter(|&other| other != state.phase);
    [state.phase].into_iter().chain(others).collect()
}));

/// Goes back to the phase that it came from, if that is demanded.
const BACK: AsBoard<Reordered> = AsBoard(Reordered(|order, state| {
    let from = state.came_from.filter(|&from| from != state.phase);
    let others = order.iter().copied();
    let others = others.filter(|&other| other != state.phase && Some(other) != from);
    [state.phase]
        .into_iter()
        .chain(from)
        .chain(others)
        .collect()
}));

/// Goes round the other way. Each phase still starts once.
const BACKWARDS: AsBoard<Reordered> = AsBoard(Reordered(|order, state| {
    let mut order: Vec<u8> = order.iter().copied().rev().collect();
    let place = order.iter().position(|&phase| phase == state.phase);
    order.rotate_left(place.expect("a phase of the order"));
    order
}));

impl Reordered {
    /// The personality with the order of this step.
    fn personality(&self, personality: &[u8], state: &State) -> Vec<u8> {
        // The order is the last section: a head of four bytes, and one byte a phase.
        let (rest, order) = match section(personality, 9) {
            Ok(part) => {
                let body = part.offset as usize;
                (&personality[..body - 4], personality[body..].to_vec())
            }
            Err(_) => (personality, (0..personality[4]).collect()),
        };
        let order = (self.0)(&order, state);
        [rest, &[order.len() as u8, 0, 9, 0], &order].concat()
    }
}

impl Variant for Reordered {
    fn step(&self, personality: &[u8], state: &mut [u8], inputs: u64, colours: &mut [u8]) -> u64 {
        let before = TimedState::from_bytes(state).expect("a state");
        let personality = self.personality(personality, &before.state);
        packed::step(&personality, state, inputs, colours)
    }

    fn cabinet_step(
        &self,
        row: &mut [RecordBytes],
        record: usize,
        inputs: u64,
        outputs: &mut [u8],
    ) -> u64 {
        let tried = packed::cabinet_step(&mut row.to_vec(), record, inputs, &mut outputs.to_vec());
        if number(tried) != 0 {
            return tried;
        }
        let first = usize::from(row[record][1]);
        let (personality, state) = parts_in(row, record).expect("a whole row");
        let groups = Site::read(personality).expect("a site").group_count();
        self.step(personality, state, inputs, &mut outputs[first..][..groups])
    }
}

/// A site with short times and three phases or more, each of which many detectors
/// lock.
fn busy_site(rng: &mut Rng, groups: usize) -> Plan {
    let shape = Shape {
        edition: rng.pick(&Edition::ALL),
        phases: rng.range(3, 7),
        groups,
        pedestrians: rng.range(0, 4),
        detectors: 40,
        early_cut_offs: rng.percent(50),
        order: rng.percent(50),
        pace: Pace::Short,
    };
    Plan::of_shape(rng, shape)
}

/// A run alone, with or without retimings.
fn watched(
    board: &dyn Board,
    plan: &Plan,
    strategy: Strategy,
    retimed: bool,
    seed: u64,
) -> Result<Report, Breach> {
    let personality = plan.bytes();
    let site = Site::read(&personality).unwrap();
    let mut driver = Driver::new(strategy, &site, Rng::new(seed));
    let among = if retimed {
        Among::Retimings
    } else {
        Among::Nothing
    };
    let mut rng = Rng::new(!seed);
    let watched = watch(among, board, &personality, &mut driver, &mut rng, 4_000);
    watched.unwrap()
}

/// The breaches of runs alone at busy sites where every phase is demanded often.
fn breaches(board: &dyn Board, retimed: bool) -> Vec<Breach> {
    let mut rng = Rng::new(14);
    let mut found = Vec::new();
    for seed in 0..20 {
        let plan = busy_site(&mut rng, 10);
        for strategy in [Strategy::Flood, Strategy::Random, Strategy::Greedy] {
            found.extend(watched(board, &plan, strategy, retimed, seed).err());
        }
    }
    found
}

fn all_start_twice(found: &[Breach]) -> bool {
    let twice = |breach: &Breach| matches!(breach, Breach::StartsTwice { .. });
    found.iter().all(twice)
}

#[test]
fn the_first_demanded_phase_of_the_order_is_taken() {
    // Without retimings and with them, and nothing else is broken before.
    for retimed in [false, true] {
        let found = breaches(&FROM_THE_BEGINNING, retimed);
        assert!(all_start_twice(&found), "{found:?}");
        assert!(found.len() > 50, "{} of 60 runs", found.len());
    }
}

#[test]
fn the_phase_that_ran_before_is_taken() {
    for retimed in [false, true] {
        let found = breaches(&BACK, retimed);
        assert!(all_start_twice(&found), "{found:?}");
        assert!(found.len() > 50, "{} of 60 runs", found.len());
    }
}

#[test]
fn an_order_that_is_gone_round_backwards_is_an_order() {
    for retimed in [false, true] {
        assert_eq!(breaches(&BACKWARDS, retimed), []);
        assert_eq!(breaches(&Model, retimed), []);
    }
}

#[test]
fn the_three_phases_of_a_small_site() {
    // A starts in step 10, B in step 100 and A again in step 190; C waits.
    let plan = Plan::three_phases(None);
    let found = watched(&FROM_THE_BEGINNING, &plan, Strategy::Flood, false, 1);
    let twice = Breach::StartsTwice {
        step: 190,
        phase: 0,
        demand: Demand::Lock(2),
        registered: 1,
    };
    assert_eq!(found, Err(twice.clone()));
    assert_eq!(
        twice.to_string(),
        "step 190: phase 0 starts again while the lock of phase 2 of step 1 waits"
    );
}

#[test]
fn a_site_of_a_cabinet_that_takes_the_first_demanded_phase() {
    let (mut rng, mut found) = (Rng::new(14), Vec::new());
    for _ in 0..20 {
        let sites = [(); RECORDS].map(|()| busy_site(&mut rng, OUTPUTS / RECORDS).bytes());
        let watched = watch_cabinet(&FROM_THE_BEGINNING, &sites, &mut rng.clone(), 12_000);
        found.extend(watched.err().map(|(_, breach)| breach));
        let watched = watch_cabinet(&Model, &sites, &mut rng, 12_000);
        assert!(watched.is_ok(), "{watched:?}");
    }
    assert!(all_start_twice(&found), "{found:?}");
    assert!(found.len() > 15, "{} of 20 cabinets", found.len());
}

#[test]
fn every_phase_may_start_while_a_demand_waits() {
    let mut rng = Rng::new(14);
    let mut all = 0;
    for seed in 0..20 {
        let plan = busy_site(&mut rng, 10);
        let report = watched(&Model, &plan, Strategy::Flood, false, seed).unwrap();
        assert!(report.most_starts <= plan.phases.len() as u32);
        all += usize::from(report.most_starts == plan.phases.len() as u32);
    }
    assert!(all > 5, "at {all} of 20 sites");
    let three = watched(&Model, &Plan::three_phases(None), Strategy::Flood, false, 1);
    assert_eq!(three.unwrap().most_starts, 3);
}

// ── Which starts count ──

/// Three phases with a vehicle group and a locking detector each, and a movement of C.
fn crossing() -> Plan {
    Plan {
        groups: vec![[1, 0], [2, 0], [4, 0], [4, 2]],
        conflicts: vec![0; 4],
        movements: vec![[10, 5, 7]],
        ..Plan::three_phases(None)
    }
}

/// The inputs that lock A or C, and that press the button of C.
const LOCK_A: u64 = 1;
const LOCK_C: u64 = 1 << 2;
const PRESS_C: u64 = 1 << model::FIRST_BUTTON;

/// Where a made-up run stands after a step: the phase, the interval, and whether the
/// movement walks.
type Place = (u8, Interval, bool);

const START_RED: Place = (0, Interval::StartRed, false);

const fn green(phase: u8) -> Place {
    (phase, Interval::MinimumGreen, false)
}

const fn late(phase: u8) -> Place {
    (phase, Interval::LateStart, false)
}

const fn red(phase: u8) -> Place {
    (phase, Interval::AllRed, false)
}

const WALK_C: Place = (2, Interval::MinimumGreen, true);

/// The breach of a made-up run from start red: inputs, and where each step leads. All
/// groups show red.
fn breach_of(steps: &[(u64, Place)]) -> Option<Breach> {
    let personality = crossing().bytes();
    let site = Site::read(&personality).unwrap();
    let mut monitor = Monitor::new(&personality);
    let mut before = TimedState::fresh(&site);
    for &(inputs, (phase, interval, walks)) in steps {
        let mut after = before;
        (after.state.phase, after.state.interval) = (phase, interval);
        after.state.movements[0] = match walks {
            true => MovementState::begin(Stage::Walk),
            false => MovementState::IDLE,
        };
        let seen = Seen {
            before: &before.to_bytes(),
            inputs,
            after: &after.to_bytes(),
            colours: &[0; 4],
            wait: after.wait_bound(&site).into(),
        };
        if let Err(breach) = monitor.accepted_step(&seen) {
            return Some(breach);
        }
        before = after;
    }
    None
}

/// A phase starts again in the last step of a run, while a demand of a step waits, and
/// not before.
fn starts_again(steps: &[(u64, Place)], phase: usize, demand: Demand, registered: u64) {
    let twice = Breach::StartsTwice {
        step: steps.len() as u64,
        phase,
        demand,
        registered,
    };
    assert_eq!(breach_of(steps), Some(twice));
    assert_eq!(breach_of(&steps[..steps.len() - 1]), None);
}

#[test]
fn a_start_after_start_red_counts() {
    let steps = [
        (LOCK_C, START_RED),
        (0, green(0)),
        (0, red(0)),
        (0, green(1)),
        (0, red(1)),
        (0, green(0)),
    ];
    starts_again(&steps, 0, Demand::Lock(2), 1);
}

#[test]
fn a_start_in_the_step_that_registers_counts() {
    let steps = [
        (LOCK_C, green(0)),
        (0, red(0)),
        (0, green(1)),
        (0, red(1)),
        (0, late(0)),
    ];
    starts_again(&steps, 0, Demand::Lock(2), 1);
}

#[test]
fn a_start_before_the_step_that_registers_does_not_count() {
    let steps = [
        (0, green(0)),
        (LOCK_C, red(0)),
        (0, green(1)),
        (0, red(1)),
        (0, green(0)),
        (0, red(0)),
        (0, green(1)),
    ];
    starts_again(&steps, 1, Demand::Lock(2), 2);
}

#[test]
fn the_first_of_several_steps_that_register_counts() {
    let steps = [
        (LOCK_C, green(0)),
        (LOCK_C, red(0)),
        (LOCK_C, green(1)),
        (LOCK_C, red(1)),
        (LOCK_C, green(0)),
    ];
    starts_again(&steps, 0, Demand::Lock(2), 1);
}

#[test]
fn a_demand_that_is_met_waits_no_longer() {
    let round = [
        (LOCK_C, red(0)),
        (0, green(2)),
        (0, red(2)),
        (0, green(0)),
        (0, red(0)),
        (0, green(1)),
        (0, red(1)),
        (0, green(0)),
    ];
    assert_eq!(breach_of(&[&[(0, green(0))], &round[..]].concat()), None);
    // In the step that meets it it is registered and met again.
    let mut again = round;
    again[1].0 = LOCK_C;
    assert_eq!(breach_of(&[&[(0, green(0))], &again[..]].concat()), None);
}

#[test]
fn a_demand_registered_and_met_in_one_step() {
    // The lock of A in its late start, cleared by the minimum green that begins.
    let steps = [
        (0, late(0)),
        (LOCK_A, green(0)),
        (0, red(0)),
        (0, green(1)),
        (0, red(1)),
        (0, green(2)),
        (0, red(2)),
        (0, green(1)),
    ];
    assert_eq!(breach_of(&steps), None);
}

#[test]
fn the_demanded_phase_starts_once_too_and_the_step_that_meets_counts() {
    // C starts with late start, which does not meet its lock; all-red follows, and the
    // start that meets it is the second one.
    let steps = [
        (LOCK_C, green(0)),
        (0, red(0)),
        (0, late(2)),
        (0, red(2)),
        (0, green(2)),
    ];
    starts_again(&steps, 2, Demand::Lock(2), 1);
}

#[test]
fn a_press_waits_for_its_walk() {
    let met = [
        (PRESS_C, green(0)),
        (0, red(0)),
        (0, WALK_C),
        (0, red(2)),
        (0, green(0)),
        (0, red(0)),
        (0, green(1)),
        (0, red(1)),
        (0, green(0)),
    ];
    assert_eq!(breach_of(&met), None);
    // The minimum green of its phase does not meet it.
    let steps = [
        (PRESS_C, green(0)),
        (0, red(0)),
        (0, green(2)),
        (0, red(2)),
        (0, green(0)),
    ];
    starts_again(&steps, 0, Demand::Press(0), 1);
}

#[test]
fn a_lock_in_green_and_a_press_in_walk_register_nothing() {
    let round = |inputs: u64, place: Place| {
        [
            (0, place),
            (inputs, place),
            (0, red(place.0)),
            (0, green(1)),
            (0, red(1)),
            (0, green(0)),
            (0, red(0)),
            (0, green(1)),
        ]
    };
    assert_eq!(breach_of(&round(LOCK_A, green(0))), None);
    assert_eq!(breach_of(&round(PRESS_C, WALK_C)), None);
    // The press registers in the minimum green alone.
    let pressed = round(PRESS_C, green(2));
    starts_again(&pressed, 1, Demand::Press(0), 2);
}

#[test]
fn only_start_red_and_all_red_lead_to_a_start() {
    // Minimum green after late start, or after itself, is no start.
    let steps = [
        (LOCK_C, late(0)),
        (0, green(0)),
        (0, green(0)),
        (0, red(0)),
        (0, late(1)),
        (0, green(1)),
    ];
    assert_eq!(breach_of(&steps), None);
}

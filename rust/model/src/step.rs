//! One step of the controller.

use crate::bits::set_bits;
use crate::colours::show;
use crate::refusal::{Number, Refusal};
use crate::site::{movement_times, Site};
use crate::state::{Interval, MovementState, Stage, State, MAX_AGE};
use crate::valid::valid;
use crate::FIRST_BUTTON;

/// The answer to a step call: the state handed back (the old one where the step
/// is refused), and the wait bound or the refusal.
#[derive(Clone, Copy, Debug, PartialEq, Eq)]
pub struct Answer {
    pub state: State,
    pub wait_bound: Result<u32, Refusal>,
}

/// A full step call: the personality is read and checked, then the state, the
/// inputs and the colour buffer; only then is anything written.
pub fn step(personality: &[u8], state: &State, inputs: u64, colours: &mut [u8]) -> Answer {
    let stepped = Site::read(personality).and_then(|site| {
        let next = step_on(&site, state, inputs, colours)?;
        Ok((next, site.wait_bound()))
    });
    match stepped {
        Ok((next, bound)) => Answer {
            state: next,
            wait_bound: Ok(bound),
        },
        Err(refusal) => Answer {
            state: *state,
            wait_bound: Err(refusal),
        },
    }
}

/// A step on a site already read.
#[inline]
pub fn step_on(
    site: &Site,
    state: &State,
    inputs: u64,
    colours: &mut [u8],
) -> Result<State, Refusal> {
    if !valid(site, state) {
        return Err(Refusal::without_place(Number::InvalidState));
    }
    if inputs & !site.known_inputs() != 0 {
        return Err(Refusal::without_place(Number::UnknownInput));
    }
    let Some(colours) = colours.get_mut(..site.group_count()) else {
        return Err(Refusal::without_place(Number::ShortBuffer));
    };
    let next = advance(site, state, inputs);
    show(site, &next, colours);
    Ok(next)
}

/// The state after a valid one.
#[inline]
pub(crate) fn advance(site: &Site, before: &State, inputs: u64) -> State {
    advance_with(site, None, before, inputs).0
}

/// The state after a valid one, and whether a phase starts. Where other times wait,
/// the site by them is given: a start goes by it, everything before the start by
/// the site as it is.
#[inline]
pub(crate) fn advance_with(
    site: &Site,
    waiting: Option<&Site>,
    before: &State,
    inputs: u64,
) -> (State, bool) {
    let mut state = *before;
    let occupied = Occupied::by(site, inputs);
    let demanded = register_demands(site, &mut state, &occupied, inputs);
    let others = demanded & !(1 << state.phase);
    run_movements(site, &mut state, others != 0);
    run_counts(site, &mut state, &occupied, others != 0);
    let phase_starts = run_interval(site, waiting, &mut state, others);
    begin_walks(site, &mut state, phase_starts, others != 0);
    state.demanded = scan(site, &state);
    (state, phase_starts)
}

/// The phases demanded by lock or movement, found in the locks and demands.
#[inline]
pub fn scan(site: &Site, state: &State) -> u8 {
    set_bits(state.demands.into()).fold(state.locks, |set, movement| {
        set | site.groups.movement_set[movement & 7]
    })
}

/// The phases with an occupied detector that calls, locks or extends.
pub(crate) struct Occupied {
    pub(crate) calling: u8,
    locking: u8,
    extending: u8,
}

impl Occupied {
    #[inline]
    pub(crate) fn by(site: &Site, inputs: u64) -> Occupied {
        let mut occupied = Occupied {
            calling: 0,
            locking: 0,
            extending: 0,
        };
        for detector in set_bits(inputs & ((1 << FIRST_BUTTON) - 1)) {
            // Bit 0 of the mode calls, bit 1 locks, bit 2 extends.
            let [phase, mode] = site.records.detectors[detector];
            occupied.calling |= (mode & 1) << (phase & 7);
            occupied.locking |= (mode >> 1 & 1) << (phase & 7);
            occupied.extending |= (mode >> 2 & 1) << (phase & 7);
        }
        occupied
    }
}

/// Part 1: locks and button demands are registered; gives the phases demanded
/// in this step.
#[inline]
fn register_demands(site: &Site, state: &mut State, occupied: &Occupied, inputs: u64) -> u8 {
    let green = u8::from(state.interval.is_green()) << state.phase;
    state.locks |= occupied.locking & !green;
    for movement in set_bits(inputs >> FIRST_BUTTON) {
        if state.movements[movement & 7].stage != Stage::Walk {
            state.demands |= 1 << movement;
        }
    }
    scan(site, state) | occupied.calling & !green
}

/// Part 2: walk and the clearances follow each other. Walk lasts at least its
/// time, and then until running would give way; the counts are those before
/// part 3.
#[inline]
fn run_movements(site: &Site, state: &mut State, other_demanded: bool) {
    let maximum_green = site.phase(state.phase).maximum_green;
    let gives_way =
        state.interval == Interval::Running && other_demanded && counts_end(state, maximum_green);
    for (movement, record) in state.movements.iter_mut().zip(site.records.movements) {
        let [walk, clearance_one, clearance_two] = movement_times(record);
        let ends = match movement.stage {
            Stage::Idle => continue,
            Stage::Walk => gives_way && movement.age >= walk,
            Stage::ClearanceOne => movement.age >= clearance_one,
            Stage::ClearanceTwo => movement.age >= clearance_two,
        };
        if ends {
            *movement = MovementState::begin(movement.stage.next());
        } else {
            movement.age = older(movement.age);
        }
    }
}

/// Part 3: the gap count and the maximum count.
#[inline]
fn run_counts(site: &Site, state: &mut State, occupied: &Occupied, other_demanded: bool) {
    if !state.interval.is_green() {
        return;
    }
    let times = site.phase(state.phase);
    state.gap_count = if occupied.extending >> state.phase & 1 != 0 {
        times.gap
    } else {
        state.gap_count.saturating_sub(1)
    };
    let counting = other_demanded || state.maximum_count > 0;
    if state.interval == Interval::Running && counting {
        state.maximum_count = (state.maximum_count + 1).min(times.maximum_green);
    }
}

/// Part 4: the interval; tells whether a phase starts.
#[inline]
fn run_interval(site: &Site, waiting: Option<&Site>, state: &mut State, others: u8) -> bool {
    let times = site.phase(state.phase);
    match state.interval {
        Interval::StartRed if state.age >= site.start_red() => {
            start_phase(site, waiting, state);
            return true;
        }
        Interval::LateStart if state.age >= times.late_start => {
            enter_minimum_green(state, times.gap);
        }
        Interval::MinimumGreen if state.age >= times.minimum_green => {
            enter(state, Interval::Running);
            state.maximum_count = 0;
        }
        Interval::Running if green_ends(state, times.maximum_green, others) => {
            let skipped = site.early_cut_off(state.phase) == 0;
            let next = if skipped {
                Interval::Yellow
            } else {
                Interval::EarlyCutOff
            };
            enter(state, next);
            state.target = Some(site.first_after(state.phase, others));
        }
        Interval::EarlyCutOff if state.age >= site.early_cut_off(state.phase) => {
            enter(state, Interval::Yellow);
        }
        Interval::Yellow if state.age >= times.yellow => enter(state, Interval::AllRed),
        Interval::AllRed if state.age >= times.all_red && !any_in(state, Stage::ClearanceTwo) => {
            start_target(site, waiting, state);
            return true;
        }
        _ => state.age = older(state.age),
    }
    false
}

/// Whether running gives way to early cut-off or yellow.
#[inline]
fn green_ends(state: &State, maximum_green: u16, others: u8) -> bool {
    others != 0
        && counts_end(state, maximum_green)
        && !any_in(state, Stage::Walk)
        && !any_in(state, Stage::ClearanceOne)
}

/// Whether the counts let running end: the gap is over, or the maximum reached.
#[inline]
fn counts_end(state: &State, maximum_green: u16) -> bool {
    state.gap_count == 0 || state.maximum_count == maximum_green
}

#[inline]
fn any_in(state: &State, stage: Stage) -> bool {
    state
        .movements
        .iter()
        .any(|movement| movement.stage == stage)
}

/// Ends all-red: the target starts.
#[inline]
fn start_target(site: &Site, waiting: Option<&Site>, state: &mut State) {
    state.came_from = Some(state.phase);
    state.gap_count = 0;
    state.maximum_count = 0;
    if let Some(target) = state.target.take() {
        state.phase = target;
    }
    start_phase(site, waiting, state);
}

/// A phase starts with late start, or minimum green if it has none. Times that wait
/// rule from here on, and both counts begin at 0.
#[inline]
fn start_phase(site: &Site, waiting: Option<&Site>, state: &mut State) {
    if waiting.is_some() {
        state.gap_count = 0;
        state.maximum_count = 0;
    }
    let times = waiting.unwrap_or(site).phase(state.phase);
    if times.late_start == 0 {
        enter_minimum_green(state, times.gap);
    } else {
        enter(state, Interval::LateStart);
    }
}

#[inline]
fn enter_minimum_green(state: &mut State, gap: u16) {
    enter(state, Interval::MinimumGreen);
    state.locks &= !(1 << state.phase);
    state.gap_count = gap;
}

#[inline]
fn enter(state: &mut State, interval: Interval) {
    state.interval = interval;
    state.age = 1;
}

#[inline]
fn older(age: u16) -> u16 {
    (age + 1).min(MAX_AGE)
}

/// Part 5: demanded movements begin walk when their phase starts, and while it
/// runs with no other phase demanded.
#[inline]
fn begin_walks(site: &Site, state: &mut State, phase_starts: bool, other_demanded: bool) {
    let running_alone = state.interval == Interval::Running && !other_demanded;
    if state.demands == 0 || !(phase_starts || running_alone) {
        return;
    }
    let own = 1 << state.phase;
    for movement in set_bits(state.demands.into()) {
        let idle = state.movements[movement & 7].stage == Stage::Idle;
        if site.groups.movement_set[movement & 7] == own && (phase_starts || idle) {
            state.movements[movement & 7] = MovementState::begin(Stage::Walk);
            state.demands &= !(1 << movement);
        }
    }
}

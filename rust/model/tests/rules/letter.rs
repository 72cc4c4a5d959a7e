//! The paper once more, word by word and without any thought of speed, beside
//! the model.

use generate::{invalid_state, known_inputs, valid_state, Breakage, Plan, Rng, RoadPlan};
use model::packed;
use model::{
    fresh, step, valid, wait_bound, Interval, MovementState, Number, Site, Stage, State,
    TimedState, MAX_AGE, PLAIN_LEN, STATE_LEN,
};

const SEED: u64 = 5_493;

/// The paper on one plan.
struct Letter<'a> {
    plan: &'a Plan,
    /// Group and phase of every pedestrian movement.
    movements: Vec<(usize, usize)>,
}

impl<'a> Letter<'a> {
    fn new(plan: &'a Plan) -> Letter<'a> {
        let groups = plan.groups.iter().enumerate();
        let movements = groups
            .filter(|(_, group)| group[1] == 2)
            .map(|(index, group)| (index, group[0].trailing_zeros() as usize))
            .collect();
        Letter { plan, movements }
    }

    /// The early cut-off time of a phase, 0 without the section.
    fn early_cut_off(&self, phase: usize) -> u16 {
        match &self.plan.early_cut_offs {
            Some(times) => times[phase],
            None => 0,
        }
    }

    fn has_phase(&self, group: usize, phase: u8) -> bool {
        self.plan.groups[group][0] >> phase & 1 == 1
    }

    fn valid(&self, state: &State) -> bool {
        let phases = self.plan.phases.len() as u8;
        if state.phase >= phases {
            return false;
        }
        let times = self.plan.phases[usize::from(state.phase)];
        let clearing = state.interval == Interval::EarlyCutOff
            || state.interval == Interval::Yellow
            || state.interval == Interval::AllRed;
        if state.interval == Interval::EarlyCutOff && self.plan.early_cut_offs.is_none() {
            return false;
        }
        if let Some(target) = state.target {
            if target >= phases || target == state.phase {
                return false;
            }
        }
        if state.target.is_some() != clearing {
            return false;
        }
        if matches!(state.came_from, Some(phase) if phase >= phases) {
            return false;
        }
        if state.age < 1 || state.age > 2000 {
            return false;
        }
        if state.gap_count > times[3] || state.maximum_count > times[2] {
            return false;
        }
        if state.demanded != self.demanded(state) {
            return false;
        }
        for phase in 0..8 {
            if state.locks >> phase & 1 == 1 && phase >= phases {
                return false;
            }
        }
        for (index, movement) in state.movements.iter().enumerate() {
            let demanded = state.demands >> index & 1 == 1;
            let idle = movement.stage == Stage::Idle;
            if index >= self.movements.len() && (demanded || !idle) {
                return false;
            }
            if movement.age < 1 || movement.age > 2000 || (idle && movement.age != 1) {
                return false;
            }
            if idle {
                continue;
            }
            if self.movements[index].1 != usize::from(state.phase) {
                return false;
            }
            if clearing && movement.stage != Stage::ClearanceTwo {
                return false;
            }
            if state.interval == Interval::StartRed {
                return false;
            }
        }
        true
    }

    /// The first demanded phase after a phase, in the order of the phases.
    fn first_after(&self, phase: u8, demanded: [bool; 7]) -> u8 {
        let phases = self.plan.phases.len();
        let letters = (0..phases as u8).collect();
        let order = self.plan.order.as_ref().unwrap_or(&letters);
        let mut place = 0;
        while order[place] != phase {
            place += 1;
        }
        loop {
            place = (place + 1) % phases;
            if demanded[usize::from(order[place])] {
                return order[place];
            }
        }
    }

    /// The phases demanded by lock or movement.
    fn demanded(&self, state: &State) -> u8 {
        let mut demanded = 0;
        for phase in 0..8 {
            let by_movement =
                self.movements.iter().enumerate().any(|(index, movement)| {
                    movement.1 == phase && state.demands >> index & 1 == 1
                });
            if state.locks >> phase & 1 == 1 || by_movement {
                demanded |= 1 << phase;
            }
        }
        demanded
    }

    fn step(&self, before: &State, inputs: u64) -> State {
        let mut state = *before;

        // 1. Demands.
        let in_green = |phase: u8| {
            before.phase == phase
                && (before.interval == Interval::MinimumGreen
                    || before.interval == Interval::Running)
        };
        let mut demanded = [false; 7];
        for (index, &[phase, mode]) in self.plan.detectors.iter().enumerate() {
            if inputs >> index & 1 == 1 && !in_green(phase) {
                match mode {
                    2 | 6 => state.locks |= 1 << phase,
                    1 | 5 => demanded[usize::from(phase)] = true,
                    _ => {}
                }
            }
        }
        for index in 0..self.movements.len() {
            let pressed = inputs >> (48 + index) & 1 == 1;
            if pressed && before.movements[index].stage != Stage::Walk {
                state.demands |= 1 << index;
            }
        }
        for (phase, demanded) in demanded.iter_mut().enumerate() {
            *demanded |= state.locks >> phase & 1 == 1;
        }
        for (index, &(_, phase)) in self.movements.iter().enumerate() {
            demanded[phase] |= state.demands >> index & 1 == 1;
        }
        let running = usize::from(before.phase);
        let other_demanded = (0..7).any(|phase| phase != running && demanded[phase]);

        // 2. Movements: walk rests until running would give way.
        let maximum_green = self.plan.phases[running][2];
        let gives_way = before.interval == Interval::Running
            && other_demanded
            && (before.gap_count == 0 || before.maximum_count == maximum_green);
        for (index, times) in self.plan.movements.iter().enumerate() {
            let movement = &mut state.movements[index];
            let (setting, next) = match movement.stage {
                Stage::Idle => continue,
                Stage::Walk => (times[0], Stage::ClearanceOne),
                Stage::ClearanceOne => (times[1], Stage::ClearanceTwo),
                Stage::ClearanceTwo => (times[2], Stage::Idle),
            };
            let rests = movement.stage == Stage::Walk && !gives_way;
            if movement.age >= setting && !rests {
                movement.stage = next;
                movement.age = 1;
            } else if movement.age < MAX_AGE {
                movement.age += 1;
            }
        }

        // 3. Counts.
        let [late_start, minimum, maximum, gap, yellow, all_red] = self.plan.phases[running];
        if in_green(before.phase) {
            let extended = self
                .plan
                .detectors
                .iter()
                .enumerate()
                .any(|(index, detector)| {
                    inputs >> index & 1 == 1
                        && detector[0] == before.phase
                        && [4, 5, 6].contains(&detector[1])
                });
            if extended {
                state.gap_count = gap;
            } else if state.gap_count > 0 {
                state.gap_count -= 1;
            }
            let counting = other_demanded || state.maximum_count > 0;
            if before.interval == Interval::Running && counting && state.maximum_count < maximum {
                state.maximum_count += 1;
            }
        }

        // 4. Interval.
        let any_in = |stage| {
            state
                .movements
                .iter()
                .any(|movement| movement.stage == stage)
        };
        let in_walk_or_first = any_in(Stage::Walk) || any_in(Stage::ClearanceOne);
        let in_second = any_in(Stage::ClearanceTwo);
        let mut entered = None;
        let mut started = None;
        match before.interval {
            Interval::StartRed if before.age >= self.plan.start_red => {
                started = Some(before.phase);
            }
            Interval::LateStart if before.age >= late_start => {
                entered = Some(Interval::MinimumGreen);
            }
            Interval::MinimumGreen if before.age >= minimum => {
                entered = Some(Interval::Running);
            }
            Interval::Running => {
                let ends = state.gap_count == 0 || state.maximum_count == maximum;
                if other_demanded && !in_walk_or_first && ends {
                    entered = Some(if self.early_cut_off(running) > 0 {
                        Interval::EarlyCutOff
                    } else {
                        Interval::Yellow
                    });
                    state.target = Some(self.first_after(before.phase, demanded));
                }
            }
            Interval::EarlyCutOff if before.age >= self.early_cut_off(running) => {
                entered = Some(Interval::Yellow);
            }
            Interval::Yellow if before.age >= yellow => entered = Some(Interval::AllRed),
            Interval::AllRed if before.age >= all_red && !in_second => {
                state.came_from = Some(before.phase);
                state.gap_count = 0;
                state.maximum_count = 0;
                started = before.target;
                state.target = None;
            }
            _ => {}
        }
        if let Some(phase) = started {
            state.phase = phase;
            let late = self.plan.phases[usize::from(phase)][0] > 0;
            entered = Some(if late {
                Interval::LateStart
            } else {
                Interval::MinimumGreen
            });
        }
        match entered {
            Some(interval) => {
                state.interval = interval;
                state.age = 1;
            }
            None if state.age < MAX_AGE => state.age += 1,
            None => {}
        }
        if entered == Some(Interval::MinimumGreen) {
            state.locks &= !(1 << state.phase);
            state.gap_count = self.plan.phases[usize::from(state.phase)][3];
        }
        if entered == Some(Interval::Running) {
            state.maximum_count = 0;
        }

        // 5. Walks.
        for (index, &(_, phase)) in self.movements.iter().enumerate() {
            let own = phase == usize::from(state.phase);
            let wanted = state.demands >> index & 1 == 1;
            let idle = state.movements[index].stage == Stage::Idle;
            let alone = state.interval == Interval::Running && !other_demanded && idle;
            if own && wanted && (started.is_some() || alone) {
                state.movements[index] = MovementState::begin(Stage::Walk);
                state.demands &= !(1 << index);
            }
        }
        state.demanded = self.demanded(&state);
        state
    }

    fn colour(&self, state: &State, group: usize) -> u8 {
        const RED: u8 = 0;
        const YELLOW: u8 = 1;
        const GREEN: u8 = 2;
        const FLASHING_RED: u8 = 3;
        if let Some(index) = self
            .movements
            .iter()
            .position(|movement| movement.0 == group)
        {
            return match state.movements[index].stage {
                Stage::Walk => GREEN,
                Stage::ClearanceOne | Stage::ClearanceTwo => FLASHING_RED,
                Stage::Idle => RED,
            };
        }
        if !self.has_phase(group, state.phase) {
            return RED;
        }
        let stays = state
            .target
            .is_some_and(|target| self.has_phase(group, target));
        let came_green = state
            .came_from
            .is_some_and(|phase| self.has_phase(group, phase));
        let yellow_time = self.plan.phases[usize::from(state.phase)][4];
        let early_time = self.early_cut_off(usize::from(state.phase));
        let stops_early = self.plan.groups[group][1] == 3;
        match state.interval {
            Interval::StartRed => RED,
            Interval::LateStart if self.plan.groups[group][1] == 1 && !came_green => RED,
            Interval::LateStart | Interval::MinimumGreen | Interval::Running => GREEN,
            Interval::EarlyCutOff | Interval::Yellow | Interval::AllRed if stays => GREEN,
            Interval::EarlyCutOff if !stops_early => GREEN,
            Interval::EarlyCutOff if state.age <= yellow_time => YELLOW,
            Interval::EarlyCutOff => RED,
            Interval::Yellow if stops_early && early_time + state.age > yellow_time => RED,
            Interval::Yellow => YELLOW,
            Interval::AllRed => RED,
        }
    }

    fn wait_bound(&self) -> u32 {
        let mut bound = u32::from(self.plan.start_red);
        for (phase, times) in self.plan.phases.iter().enumerate() {
            let [late_start, minimum, maximum, _, yellow, all_red] = times.map(u32::from);
            let mut walk = 0;
            let mut clearance = 0;
            for (movement, times) in self.movements.iter().zip(&self.plan.movements) {
                if movement.1 == phase {
                    walk = walk.max(u32::from(times[0]) + u32::from(times[1]));
                    clearance = clearance.max(u32::from(times[2]));
                }
            }
            bound += late_start + minimum + maximum + 2 * (walk + yellow + all_red + clearance);
        }
        for &time in self.plan.early_cut_offs.iter().flatten() {
            bound += 2 * u32::from(time);
        }
        bound
    }

    /// One step of the model gives what the paper says.
    fn check(&self, personality: &[u8], before: &State, inputs: u64) -> State {
        let mut colours = vec![9; self.plan.groups.len()];
        let answer = step(personality, before, inputs, &mut colours);
        assert_eq!(answer.wait_bound, Ok(self.wait_bound()));
        let expected = self.step(before, inputs);
        assert_eq!(answer.state, expected, "from {before:?} with {inputs:#x}");
        for (group, &colour) in colours.iter().enumerate() {
            assert_eq!(
                colour,
                self.colour(&expected, group),
                "group {group}, {expected:?}"
            );
        }
        expected
    }
}

#[test]
fn steps_from_random_states() {
    let mut rng = Rng::new(SEED);
    for _ in 0..400 {
        let plan = Plan::random(&mut rng);
        let letter = Letter::new(&plan);
        let personality = plan.bytes();
        let site = Site::read(&personality).unwrap();
        for _ in 0..60 {
            let before = valid_state(&mut rng, &site);
            let inputs = known_inputs(&mut rng, &site);
            letter.check(&personality, &before, inputs);
        }
    }
}

#[test]
fn runs_from_the_fresh_state() {
    let mut rng = Rng::new(SEED);
    for _ in 0..60 {
        let plan = Plan::random(&mut rng);
        let letter = Letter::new(&plan);
        let personality = plan.bytes();
        let site = Site::read(&personality).unwrap();
        let mut state = fresh();
        let mut inputs = 0;
        for _ in 0..800 {
            if rng.percent(20) {
                inputs = known_inputs(&mut rng, &site);
            }
            state = letter.check(&personality, &state, inputs);
        }
    }
}

impl Letter<'_> {
    /// A road from the fresh state: the last state, and for each stream the
    /// vehicles queued and gone. Arrivals are not added up but worked out from the
    /// rate and the step, and the steps that count for a release are listed.
    fn road(&self, streams: &[u8], steps: u32) -> (State, Vec<[u64; 2]>) {
        let streams: Vec<&[u8]> = streams.chunks(4).collect();
        let rate = |stream: &[u8]| u64::from(stream[2]) + 256 * u64::from(stream[3]);
        let mut state = fresh();
        let mut gone = vec![0; streams.len()];
        // For each stream, the steps at green with a queue that still count.
        let mut counted: Vec<Vec<u32>> = vec![vec![]; streams.len()];
        let arrived = |stream: &[u8], step: u32| rate(stream) * u64::from(step) / 36_000;
        for step in 1..=steps {
            let mut inputs = 0;
            for (index, stream) in streams.iter().enumerate() {
                if arrived(stream, step) > gone[index] {
                    inputs |= 1 << stream[0];
                }
            }
            state = self.step(&state, inputs);
            for (index, stream) in streams.iter().enumerate() {
                let green = self.colour(&state, usize::from(stream[1])) == 2;
                let queue = arrived(stream, step) > gone[index];
                if green && queue {
                    counted[index].push(step);
                } else {
                    counted[index].clear();
                }
                if counted[index].len() == 20 {
                    assert_eq!(counted[index][0] + 19, step, "20 steps in a row");
                    counted[index].clear();
                    gone[index] += 1;
                }
            }
        }
        let queued = |index: usize| arrived(streams[index], steps) - gone[index];
        let results = (0..streams.len()).map(|index| [queued(index), gone[index]]);
        (state, results.collect())
    }
}

#[test]
fn roads() {
    let mut rng = Rng::new(SEED);
    for _ in 0..250 {
        let plan = Plan::random(&mut rng);
        let personality = plan.bytes();
        let site = Site::read(&personality).unwrap();
        let RoadPlan { streams, steps } = RoadPlan::random(&mut rng, &site);
        let steps = steps.min(30_000);
        let mut state = [0; STATE_LEN];
        let mut results = vec![0; streams.len()];
        let answer = packed::road(&personality, &streams, steps, &mut state, &mut results);
        assert_eq!(answer, 0);
        let (last, vehicles) = Letter::new(&plan).road(&streams, steps);
        let found: Vec<[u64; 2]> = results
            .chunks(4)
            .map(|four| [0, 2].map(|at| u64::from(four[at]) + 256 * u64::from(four[at + 1])))
            .collect();
        assert_eq!(found, vehicles, "{plan:?}, {streams:?}, {steps} steps");
        let last = TimedState::by_own_times(&site, last);
        assert_eq!(state, last.to_bytes());
    }
}

#[test]
fn valid_and_invalid_states() {
    let mut rng = Rng::new(SEED);
    for _ in 0..150 {
        let plan = Plan::random(&mut rng);
        let letter = Letter::new(&plan);
        let personality = plan.bytes();
        let site = Site::read(&personality).unwrap();
        for breakage in Breakage::ALL {
            let state = valid_state(&mut rng, &site);
            assert!(letter.valid(&state) && valid(&site, &state), "{state:?}");
            if let Some(state) = invalid_state(&mut rng, &site, breakage) {
                assert!(!letter.valid(&state) && !valid(&site, &state), "{state:?}");
            }
        }
        for _ in 0..100 {
            let mut bytes = valid_state(&mut rng, &site).to_bytes();
            bytes[rng.below(PLAIN_LEN)] = rng.byte() & rng.byte();
            if let Some(state) = State::from_bytes(&bytes) {
                assert_eq!(valid(&site, &state), letter.valid(&state), "{state:?}");
            }
        }
    }
}

#[test]
fn conflicts() {
    let mut rng = Rng::new(SEED);
    for _ in 0..4_000 {
        let mut plan = Plan::random(&mut rng);
        for _ in 0..rng.below(3) {
            let group = rng.below(plan.groups.len());
            let other = rng.below(plan.groups.len());
            plan.conflicts[group] ^= 1 << other;
            if rng.percent(60) {
                plan.conflicts[other] ^= 1 << group;
            }
        }
        assert_eq!(
            packed::read(&plan.bytes()),
            conflict_verdict(&plan),
            "{plan:?}"
        );
    }
}

/// What 9 and 10 say of a plan with nothing else wrong.
fn conflict_verdict(plan: &Plan) -> u64 {
    let groups = plan.groups.len();
    let has = |one: usize, other: usize| plan.conflicts[one] >> other & 1 == 1;
    let first = 4 + 4 + 4 + 12 * plan.phases.len() + 4 + 2 * groups + 4;
    let refused = |number: Number, group: usize| ((first + 4 * group) << 8) as u64 | number as u64;
    for one in 0..groups {
        let beyond = (groups..32).any(|other| has(one, other));
        let one_way = (0..groups).any(|other| has(one, other) && !has(other, one));
        if has(one, one) || beyond || one_way {
            return refused(Number::WrongConflict, one);
        }
    }
    for one in 0..groups {
        let shares = |other: usize| plan.groups[one][0] & plan.groups[other][0] != 0;
        if (0..groups).any(|other| has(one, other) && shares(other)) {
            return refused(Number::SharedPhase, one);
        }
    }
    0
}

#[test]
fn wait_bounds() {
    let mut rng = Rng::new(SEED);
    for _ in 0..1_000 {
        let plan = Plan::random(&mut rng);
        let bound = Letter::new(&plan).wait_bound();
        assert_eq!(wait_bound(&plan.bytes()), Ok(bound));
    }
}

#[test]
fn the_packed_step_is_the_step() {
    let mut rng = Rng::new(SEED);
    for _ in 0..300 {
        let personality = Plan::random(&mut rng).bytes();
        let site = Site::read(&personality).unwrap();
        for _ in 0..10 {
            let state = valid_state(&mut rng, &site);
            let inputs = generate::any_inputs(&mut rng, &site);
            let mut colours = [9; 20];
            let mut packed_colours = [9; 20];
            let mut bytes = TimedState::by_own_times(&site, state).to_bytes();
            let answer = step(&personality, &state, inputs, &mut colours);
            let packed = packed::step(&personality, &mut bytes, inputs, &mut packed_colours);
            let expected = match answer.wait_bound {
                Ok(bound) => u64::from(bound) << 8,
                Err(refusal) => u64::from(refusal.place) << 8 | refusal.number as u64,
            };
            assert_eq!(packed, expected);
            let after = TimedState::by_own_times(&site, answer.state);
            assert_eq!((bytes, packed_colours), (after.to_bytes(), colours));
        }
    }
}

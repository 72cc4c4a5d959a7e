//! New times while running: request twelve of document 02.

use crate::trace::{button, detector, once};
use generate::{
    broken_times, changed_beyond_times, known_inputs, refused_second, retimed, time_fields,
    valid_timed_state, Plan, Rng, TimesBreakage,
};
use model::packed::{self, number};
use model::{
    layout, read, retime, step, step_timed, times_alone_differ, valid, valid_timed, wait_bound,
    Interval, MovementState, Number, Refusal, Site, Stage, TimedState, Times, PLAIN_LEN, STATE_LEN,
    TIMES_LEN,
};

const SEED: u64 = 12;
const CANARY: u8 = 0xA5;

/// The junction of two phases with longer times.
fn longer() -> Plan {
    Plan {
        start_red: 20,
        phases: vec![[0, 40, 60, 10, 40, 20]; 2],
        ..Plan::junction()
    }
}

/// Two phases with a vehicle group and a movement each.
fn crossing() -> Plan {
    Plan {
        groups: vec![[1, 0], [2, 0], [1, 2], [2, 2]],
        conflicts: vec![10, 5, 10, 5],
        movements: vec![[10, 5, 7], [10, 5, 7]],
        ..Plan::junction()
    }
}

/// A run of calls on one plan, retimings among them.
struct Run {
    personality: Vec<u8>,
    colours: Vec<u8>,
    state: [u8; STATE_LEN],
    steps: u32,
    wait: u64,
}

impl Run {
    fn new(plan: &Plan) -> Run {
        let personality = plan.bytes();
        let mut state = [CANARY; STATE_LEN];
        assert_eq!(packed::fresh(&personality, &mut state), 0);
        Run {
            personality,
            colours: vec![CANARY; plan.groups.len()],
            state,
            steps: 0,
            wait: 0,
        }
    }

    fn timed(&self) -> TimedState {
        TimedState::from_bytes(&self.state).expect("a state")
    }

    /// One accepted step.
    fn step(&mut self, inputs: u64) {
        let answer = packed::step(
            &self.personality,
            &mut self.state,
            inputs,
            &mut self.colours,
        );
        assert_eq!(number(answer), 0);
        self.steps += 1;
        self.wait = packed::rest(answer);
    }

    /// Steps until this many are done.
    fn until(&mut self, last: u32, inputs: impl Fn(u32) -> u64) {
        while self.steps < last {
            self.step(inputs(self.steps + 1));
        }
    }

    /// An accepted retiming.
    fn retime(&mut self, plan: &Plan) {
        assert_eq!(
            packed::retime(&self.personality, &mut self.state, &plan.bytes()),
            0
        );
    }

    /// Phase, interval, group letters and wait.
    fn shown(&self) -> String {
        let state = self.timed().state;
        let phase = char::from(b'A' + state.phase);
        let interval = ['S', 'L', 'M', 'G', 'E', 'Y', 'R'][state.interval as usize];
        let letter = |&code: &u8| ['R', 'Y', 'G', 'F'][usize::from(code)];
        let groups: String = self.colours.iter().map(letter).collect();
        format!("{phase} {interval} {groups} {}", self.wait)
    }
}

/// Where what is shown, or the wait, changes. A retiming is done before its step.
fn changes(
    plan: &Plan,
    retimings: &[(u32, Plan)],
    steps: u32,
    inputs: impl Fn(u32) -> u64,
) -> Vec<String> {
    let mut run = Run::new(plan);
    let mut lines = Vec::new();
    let mut last = String::new();
    for step in 1..=steps {
        for (_, new) in retimings.iter().filter(|retiming| retiming.0 == step) {
            run.retime(new);
        }
        run.step(inputs(step));
        let shown = run.shown();
        if shown != last {
            lines.push(format!("{step} {shown}"));
            last = shown;
        }
    }
    lines
}

const AS_BEFORE: [&str; 5] = [
    "1 A S RR 270",
    "10 A M GR 270",
    "30 A G GR 270",
    "31 A Y YR 270",
    "61 A R RR 270",
];

#[test]
fn the_bounds_of_both() {
    assert_eq!(wait_bound(&Plan::junction().bytes()), Ok(270));
    assert_eq!(wait_bound(&longer().bytes()), Ok(460));
}

#[test]
fn retimed_in_minimum_green() {
    let lines = changes(
        &Plan::junction(),
        &[(20, longer())],
        400,
        once(12, detector(1)),
    );
    assert_eq!(lines[..5], AS_BEFORE);
    assert_eq!(lines[5..], ["71 B M RG 460", "111 B G RG 460"]);
}

#[test]
fn retimed_in_all_red() {
    let lines = changes(
        &Plan::junction(),
        &[(65, longer())],
        400,
        once(12, detector(1)),
    );
    assert_eq!(lines[..5], AS_BEFORE);
    assert_eq!(lines[5..], ["71 B M RG 460", "111 B G RG 460"]);
}

#[test]
fn retimed_in_the_last_step_before_the_start() {
    let calls = once(12, detector(1));
    let lines = changes(&Plan::junction(), &[(71, longer())], 400, &calls);
    assert_eq!(lines[5..], ["71 B M RG 460", "111 B G RG 460"]);
    // One step later it waits for a start that nobody demands.
    let lines = changes(&Plan::junction(), &[(72, longer())], 400, &calls);
    assert_eq!(lines[5..], ["71 B M RG 270", "91 B G RG 270"]);
}

#[test]
fn retimed_in_start_red() {
    let lines = changes(
        &Plan::junction(),
        &[(5, longer())],
        400,
        once(12, detector(1)),
    );
    assert_eq!(
        lines,
        [
            "1 A S RR 270",
            "10 A M GR 460",
            "50 A G GR 460",
            "51 A Y YR 460",
            "91 A R RR 460",
            "111 B M RG 460",
            "151 B G RG 460",
        ]
    );
}

#[test]
fn retimed_and_back_to_the_old_times() {
    let retimings = [(20, longer()), (40, Plan::junction())];
    let lines = changes(&Plan::junction(), &retimings, 400, once(12, detector(1)));
    assert_eq!(lines[..5], AS_BEFORE);
    assert_eq!(lines[5..], ["71 B M RG 270", "91 B G RG 270"]);
}

#[test]
fn the_new_times_rule_on() {
    let inputs = |step| once(12, detector(1))(step) | once(80, detector(0))(step);
    let lines = changes(&Plan::junction(), &[(20, longer())], 200, inputs);
    assert_eq!(lines[..5], AS_BEFORE);
    assert_eq!(
        lines[5..],
        [
            "71 B M RG 460",
            "111 B G RG 460",
            "112 B Y RY 460",
            "152 B R RR 460",
            "172 A M GR 460",
        ]
    );
}

#[test]
fn the_new_times_wait_and_then_rule_alone() {
    let mut run = Run::new(&Plan::junction());
    let own = run.timed().ruling;
    assert_eq!(run.timed().waiting, None);
    let new = times_of(&longer());
    run.until(19, once(12, detector(1)));
    run.retime(&longer());
    let waits = |run: &Run| (run.timed().ruling, run.timed().waiting);
    for step in 20..=70 {
        assert_eq!(waits(&run), (own, Some(new)), "before step {step}");
        run.step(0);
    }
    assert_eq!(waits(&run), (own, Some(new)));
    run.step(0);
    assert_eq!(waits(&run), (new, None));
}

fn times_of(plan: &Plan) -> Times {
    Times::of(&Site::read(&plan.bytes()).unwrap())
}

#[test]
fn equal_times_wait_and_take_over() {
    let mut run = Run::new(&Plan::junction());
    run.retime(&Plan::junction());
    let own = times_of(&Plan::junction());
    run.until(9, |_| 0);
    assert_eq!(run.timed().waiting, Some(own));
    run.until(10, |_| 0);
    assert_eq!((run.timed().ruling, run.timed().waiting), (own, None));
}

#[test]
fn back_to_the_first_personality_after_a_change() {
    let mut run = Run::new(&Plan::junction());
    run.retime(&longer());
    run.until(10, |_| 0);
    assert_eq!(run.timed().ruling, times_of(&longer()));
    // Every comparison is with the first personality's bytes.
    run.retime(&Plan::junction());
    assert_eq!(run.timed().waiting, Some(times_of(&Plan::junction())));
    let mut elsewhere = longer();
    elsewhere.detectors[0][1] = 2;
    let answer = packed::retime(&run.personality, &mut run.state, &elsewhere.bytes());
    assert_eq!(answer, 26);
}

/// The junction with a late start of B.
fn late(steps: u16) -> Plan {
    let mut plan = Plan::junction();
    plan.phases[1][0] = steps;
    plan
}

#[test]
fn a_late_start_that_comes_with_the_change_keeps_the_lock() {
    let mut run = Run::new(&late(0));
    run.until(60, once(12, detector(1)));
    run.retime(&late(20));
    run.until(71, |_| 0);
    assert_eq!(run.shown(), "B L RG 290");
    assert_eq!(run.timed().state.locks, 0b10);
    assert_eq!(run.timed().state.gap_count, 0);
    run.until(90, |_| 0);
    assert_eq!(run.shown(), "B L RG 290");
    run.until(91, |_| 0);
    assert_eq!(run.shown(), "B M RG 290");
    assert_eq!(run.timed().state.locks, 0);
    assert_eq!(run.timed().state.gap_count, 5);
}

#[test]
fn a_late_start_that_goes_with_the_change() {
    let mut run = Run::new(&late(20));
    run.until(60, once(12, detector(1)));
    run.retime(&late(0));
    run.until(71, |_| 0);
    assert_eq!(run.shown(), "B M RG 270");
    assert_eq!(run.timed().state.locks, 0);
}

#[test]
fn a_walk_begun_in_the_change_goes_by_the_new_times() {
    let mut new = crossing();
    new.movements = vec![[10, 5, 7], [30, 9, 11]];
    let mut run = Run::new(&crossing());
    run.until(12, once(12, button(1)));
    run.retime(&new);
    run.until(71, |_| 0);
    assert_eq!(
        run.timed().state.movements[1],
        MovementState::begin(Stage::Walk)
    );
    assert_eq!(run.timed().state.demands, 0);
    assert_eq!(run.timed().ruling, times_of(&new));
    // A is called, so that the walk ends at W: 30 steps from 71, then 9 and 11.
    let call = |step| once(72, detector(0))(step);
    let stage = |run: &Run| run.timed().state.movements[1].stage;
    run.until(100, call);
    assert_eq!(stage(&run), Stage::Walk);
    run.until(101, call);
    assert_eq!(stage(&run), Stage::ClearanceOne);
    run.until(110, call);
    assert_eq!(stage(&run), Stage::ClearanceTwo);
    run.until(121, call);
    assert_eq!(stage(&run), Stage::Idle);
}

#[test]
fn clearances_go_by_the_times_when_the_green_ended() {
    let mut new = crossing();
    new.movements = vec![[10, 50, 70], [10, 5, 7]];
    for phase in &mut new.phases {
        phase[4] = 90;
        phase[5] = 90;
    }
    let mut run = Run::new(&crossing());
    let calls = |step| once(2, button(0))(step) | once(12, detector(1))(step);
    run.until(11, calls);
    run.retime(&new);
    // Walk from 10, at least 10 steps and until running, which begins at 30.
    run.until(30, calls);
    assert_eq!(&run.shown()[..8], "A G GRGR");
    run.until(31, calls);
    assert_eq!(&run.shown()[..8], "A G GRFR");
    run.until(36, calls);
    assert_eq!(&run.shown()[..8], "A Y YRFR");
    run.until(43, calls);
    assert_eq!(&run.shown()[..8], "A Y YRRR");
    run.until(66, calls);
    assert_eq!(&run.shown()[..8], "A R RRRR");
    run.until(76, calls);
    assert_eq!(&run.shown()[..8], "B M RGRR");
}

#[test]
fn a_change_after_start_red_sets_both_counts_to_0() {
    let personality = late(0).bytes();
    let site = Site::read(&personality).unwrap();
    let mut timed = TimedState::fresh(&site);
    timed.state.phase = 1;
    timed.state.age = 10;
    (timed.state.gap_count, timed.state.maximum_count) = (4, 12);
    let counts = |timed: TimedState| {
        let answer = step_timed(&personality, &timed, 0, &mut [0; 2]);
        assert!(answer.wait_bound.is_ok());
        let state = answer.state.state;
        (state.interval, state.gap_count, state.maximum_count)
    };
    assert_eq!(counts(timed), (Interval::MinimumGreen, 5, 12));
    timed.waiting = Some(timed.ruling);
    assert_eq!(counts(timed), (Interval::MinimumGreen, 5, 0));
    timed.waiting = Some(times_of(&late(20)));
    assert_eq!(counts(timed), (Interval::LateStart, 0, 0));
    // Without a change a late start keeps both.
    timed.ruling = times_of(&late(20));
    timed.waiting = None;
    assert_eq!(counts(timed), (Interval::LateStart, 4, 12));
}

#[test]
fn start_red_ends_by_the_old_setting() {
    let mut new = Plan::junction();
    new.start_red = 150;
    let lines = changes(&Plan::junction(), &[(1, new.clone())], 20, |_| 0);
    assert_eq!(lines[1], "10 A M GR 410");
    let lines = changes(&new, &[(1, Plan::junction())], 200, |_| 0);
    assert_eq!(lines[1], "150 A M GR 270");
}

#[test]
fn a_run_without_a_retiming_is_the_plain_run() {
    let mut rng = Rng::new(SEED);
    for _ in 0..60 {
        let personality = Plan::random(&mut rng).bytes();
        let site = Site::read(&personality).unwrap();
        let mut timed = TimedState::fresh(&site);
        for _ in 0..200 {
            let inputs = known_inputs(&mut rng, &site);
            let (mut colours, mut plain_colours) = ([CANARY; 32], [CANARY; 32]);
            let plain = step(&personality, &timed.state, inputs, &mut plain_colours);
            let answer = step_timed(&personality, &timed, inputs, &mut colours);
            timed = answer.state;
            assert_eq!(answer.wait_bound, plain.wait_bound);
            assert_eq!(timed, TimedState::by_own_times(&site, plain.state));
            assert_eq!(colours, plain_colours);
        }
    }
}

#[test]
fn between_changes_a_run_is_that_of_the_ruling_personality() {
    let mut rng = Rng::new(SEED);
    for _ in 0..300 {
        let personality = Plan::random(&mut rng).bytes();
        let second = retimed(&mut rng, &personality);
        let site = Site::read(&second).unwrap();
        let first_site = Site::read(&personality).unwrap();
        let mut timed = valid_timed_state(&mut rng, &personality, &first_site);
        timed.state = generate::valid_state(&mut rng, &site);
        timed.ruling = Times::of(&site);
        timed.waiting = None;
        for _ in 0..20 {
            let inputs = known_inputs(&mut rng, &site);
            let (mut colours, mut plain_colours) = ([CANARY; 32], [CANARY; 32]);
            let plain = step(&second, &timed.state, inputs, &mut plain_colours);
            let answer = step_timed(&personality, &timed, inputs, &mut colours);
            timed = answer.state;
            assert_eq!(answer.wait_bound, plain.wait_bound);
            assert_eq!((timed.state, timed.waiting), (plain.state, None));
            assert_eq!(timed.ruling, Times::of(&site));
            assert_eq!(colours, plain_colours);
        }
    }
}

/// The personality with other times in place of its own.
fn with_times(personality: &[u8], times: &[u8]) -> Vec<u8> {
    let mut bytes = personality.to_vec();
    let site = Site::read(personality).unwrap();
    let fields: Vec<usize> = time_fields(personality)
        .iter()
        .map(|field| field.0)
        .collect();
    let held = |first: usize, count: usize| first..first + count;
    let order = held(0, 1)
        .chain(held(1, 6 * site.phase_count()))
        .chain(held(43, 3 * site.movement_count()))
        .chain(held(67, fields.len()));
    for (at, time) in fields.into_iter().zip(order) {
        bytes[at..at + 2].copy_from_slice(&times[2 * time..2 * time + 2]);
    }
    bytes
}

/// Whether a state is valid, word by word: its bytes are a state, each set of times
/// is one that the personality would be accepted with, it has nothing beyond the
/// site, and the plain state is valid at the site by the times that rule.
fn valid_by_the_letter(personality: &[u8], bytes: &[u8]) -> bool {
    let [ruling, waiting] = [layout::RULING, layout::WAITING].map(|at| &bytes[at..at + TIMES_LEN]);
    let accepted = |times: &[u8]| {
        let with = with_times(personality, times);
        match Site::read(&with) {
            Ok(site) => Times::of(&site).to_bytes() == times,
            Err(_) => false,
        }
    };
    let waits = match bytes[layout::FLAG] {
        0 => waiting.iter().all(|&byte| byte == 0),
        1 => accepted(waiting),
        _ => false,
    };
    let Some(state) = model::State::from_bytes(&bytes[..PLAIN_LEN]) else {
        return false;
    };
    let ruled = with_times(personality, ruling);
    waits && accepted(ruling) && Site::read(&ruled).is_ok_and(|site| valid(&site, &state))
}

#[test]
fn states_are_valid_by_the_letter() {
    let mut rng = Rng::new(SEED);
    // By edition and outcome.
    let mut found = [[0, 0]; 2];
    // States of edition two that would be valid in edition one.
    let mut raised = 0;
    for _ in 0..400 {
        let personality = Plan::random(&mut rng).bytes();
        let site = Site::read(&personality).unwrap();
        let mut as_one = personality.clone();
        as_one[2] = 1;
        let holds = |bytes: &[u8]| {
            TimedState::from_bytes(bytes).is_some_and(|timed| valid_timed(&site, &timed))
        };
        for _ in 0..20 {
            let good = valid_timed_state(&mut rng, &personality, &site);
            assert!(valid_timed(&site, &good), "{good:?}");
            assert_eq!(TimedState::from_bytes(&good.to_bytes()), Some(good));
            let good = good.to_bytes().to_vec();
            assert!(valid_by_the_letter(&personality, &good));
            let mut spoilt = good;
            for _ in 0..rng.range(1, 2) {
                let at = rng.range(PLAIN_LEN, STATE_LEN - 1);
                let edges = [0, 1, 9, 10, 14, 15, 29, 30, 100, 101, 200, 201, 255];
                spoilt[at] = rng.pick(&edges);
            }
            let expected = valid_by_the_letter(&personality, &spoilt);
            assert_eq!(holds(&spoilt), expected, "{spoilt:?}");
            found[site.edition() as usize][usize::from(expected)] += 1;
            raised += usize::from(!expected && valid_by_the_letter(&as_one, &spoilt));
        }
        for breakage in TimesBreakage::ALL {
            if let Some(bytes) = broken_times(&mut rng, &personality, &site, breakage) {
                assert!(!holds(&bytes), "{breakage:?}: {bytes:?}");
                assert!(!valid_by_the_letter(&personality, &bytes), "{breakage:?}");
            }
        }
    }
    let counts = found.as_flattened();
    assert!(counts.iter().all(|&count| count > 300), "{found:?}");
    assert!(raised > 10, "{raised}");
}

#[test]
fn bytes_of_a_state() {
    let mut timed = TimedState::fresh(&Site::read(&longer().bytes()).unwrap());
    let bytes = timed.to_bytes();
    assert_eq!((bytes.len(), STATE_LEN, TIMES_LEN), (336, 336, 148));
    assert_eq!((PLAIN_LEN, layout::FLAG, layout::WAITING), (39, 187, 188));
    assert_eq!(bytes[..PLAIN_LEN], model::fresh().to_bytes());
    assert_eq!(bytes[39..41], [20, 0]);
    let phase = [0, 0, 40, 0, 60, 0, 10, 0, 40, 0, 20, 0];
    assert_eq!(bytes[41..65], [phase, phase].concat());
    assert!(bytes[65..].iter().all(|&byte| byte == 0));
    let mut plan = Plan::largest();
    plan.movements[7] = [0x0181, 0x0102, 0x0103];
    plan.early_cut_offs.as_mut().unwrap()[6] = 199;
    timed.waiting = Some(times_of(&plan));
    let bytes = timed.to_bytes();
    assert_eq!(bytes[187], 1);
    assert_eq!(bytes[188..190], [60, 0]);
    assert_eq!(bytes[190 + 84 + 42..190 + 84 + 48], [0x81, 1, 2, 1, 3, 1]);
    assert_eq!(bytes[334..], [199, 0]);
    assert_eq!(TimedState::from_bytes(&bytes), Some(timed));
}

#[test]
fn flags() {
    let good = TimedState::fresh(&Site::read(&longer().bytes()).unwrap()).to_bytes();
    for flag in 1..=255 {
        let mut bytes = good;
        bytes[layout::FLAG] = flag;
        let is_state = TimedState::from_bytes(&bytes).is_some();
        assert_eq!(is_state, flag == 1, "flag {flag}");
        let answer = packed::step(&longer().bytes(), &mut bytes, 0, &mut [0; 2]);
        assert_eq!(answer, 13, "flag {flag}");
    }
    for at in layout::WAITING..STATE_LEN {
        let mut bytes = good;
        bytes[at] = 1;
        assert_eq!(TimedState::from_bytes(&bytes), None, "byte {at}");
    }
}

/// The answer of a retiming. A refused one changes nothing.
fn answer(personality: &[u8], state: &[u8], new_personality: &[u8]) -> u64 {
    let mut after = state.to_vec();
    let answer = packed::retime(personality, &mut after, new_personality);
    assert!(answer == 0 || after == state);
    answer
}

#[test]
fn first_personality_then_state_then_new_personality_then_26() {
    let good = Plan::junction().bytes();
    let mut bad = Plan::junction();
    bad.phases[1][4] = 29;
    let bad = bad.bytes();
    let mut other = Plan::junction();
    other.detectors[1][1] = 2;
    let other = other.bytes();
    let mut other_and_bad = bad.clone();
    other_and_bad[63] = 2;
    let state = TimedState::fresh(&Site::read(&good).unwrap()).to_bytes();
    let mut wrong_state = state;
    wrong_state[layout::AGE] = 0;
    assert_eq!(answer(&bad, &wrong_state, &bad), 32 << 8 | 5);
    assert_eq!(answer(&[], &[], &[]), 1);
    assert_eq!(answer(&good, &wrong_state, &bad), 13);
    assert_eq!(answer(&good, &state[1..], &bad), 13);
    assert_eq!(answer(&good, &state, &bad), 32 << 8 | 5);
    assert_eq!(answer(&good, &state, &other_and_bad), 32 << 8 | 5);
    assert_eq!(answer(&good, &state, &[]), 1);
    assert_eq!(answer(&good, &state, &good[..66]), 64 << 8 | 1);
    assert_eq!(answer(&good, &state, &other), 26);
    assert_eq!(answer(&good, &state, &good), 0);
    assert_eq!(answer(&good, &state, &longer().bytes()), 0);
}

#[test]
fn what_is_no_time_setting() {
    let first = Plan {
        early_cut_offs: Some(vec![20, 0]),
        order: Some(vec![0, 1]),
        ..crossing()
    };
    let personality = first.bytes();
    let state = TimedState::fresh(&Site::read(&personality).unwrap()).to_bytes();
    let number = |plan: &Plan| answer(&personality, &state, &plan.bytes());
    assert_eq!(number(&first), 0);
    let changed = |change: fn(&mut Plan)| {
        let mut plan = first.clone();
        change(&mut plan);
        number(&plan)
    };
    assert_eq!(changed(|plan| plan.start_red = 11), 0);
    for phase in 0..2 {
        for field in 0..6 {
            let mut plan = first.clone();
            plan.phases[phase][field] += 1;
            assert_eq!(number(&plan), 0, "phase {phase}, field {field}");
        }
        for field in 0..3 {
            let mut plan = first.clone();
            plan.movements[phase][field] += 1;
            assert_eq!(number(&plan), 0, "movement {phase}, field {field}");
        }
    }
    assert_eq!(changed(|plan| plan.early_cut_offs = Some(vec![0, 200])), 0);
    assert_eq!(changed(|plan| plan.early_cut_offs = None), 26);
    assert_eq!(changed(|plan| plan.order = None), 26);
    assert_eq!(changed(|plan| plan.order = Some(vec![1, 0])), 26);
    assert_eq!(changed(|plan| plan.detectors[0][1] = 5), 26);
    assert_eq!(changed(|plan| plan.detectors[0][0] = 1), 26);
    assert_eq!(changed(|plan| plan.detectors.push([0, 6])), 26);
    assert_eq!(changed(|plan| plan.groups[0][1] = 1), 26);
    // Refused by itself: two conflicting groups share a phase.
    assert_eq!(changed(|plan| plan.groups[2][0] = 2), 56 << 8 | 10);
    assert_eq!(changed(|plan| plan.conflicts = vec![0; 4]), 26);
    assert_eq!(number(&Plan::junction()), 26);
    assert_eq!(number(&Plan::largest()), 26);
}

#[test]
fn refused_seconds_and_seconds_that_differ() {
    let mut rng = Rng::new(SEED);
    for _ in 0..300 {
        let personality = Plan::random(&mut rng).bytes();
        let site = Site::read(&personality).unwrap();
        let timed = valid_timed_state(&mut rng, &personality, &site);
        let good = retimed(&mut rng, &personality);
        assert!(times_alone_differ(&personality, &good));
        let new_times = Times::of(&Site::read(&good).unwrap());
        let waits = TimedState {
            waiting: Some(new_times),
            ..timed
        };
        assert_eq!(retime(&personality, &timed, &good), Ok(waits));
        assert!(valid_timed(&site, &waits));
        let other = changed_beyond_times(&mut rng, &personality);
        assert!(!times_alone_differ(&personality, &other));
        let refusal = Refusal {
            number: Number::NotTimesAlone,
            place: 0,
        };
        assert_eq!(retime(&personality, &timed, &other), Err(refusal));
        let refused = refused_second(&mut rng, &personality);
        let refusal = read(&refused).unwrap_err();
        assert_eq!(retime(&personality, &timed, &refused), Err(refusal));
    }
}

#[test]
fn a_step_keeps_a_state_valid() {
    let mut rng = Rng::new(SEED);
    let mut changes = 0;
    for _ in 0..300 {
        let personality = Plan::random(&mut rng).bytes();
        let site = Site::read(&personality).unwrap();
        for _ in 0..20 {
            let timed = valid_timed_state(&mut rng, &personality, &site);
            let inputs = known_inputs(&mut rng, &site);
            let answer = step_timed(&personality, &timed, inputs, &mut [0; 32]);
            assert!(valid_timed(&site, &answer.state), "{timed:?}");
            changes += u32::from(timed.waiting.is_some() && answer.state.waiting.is_none());
        }
    }
    assert!(changes > 300, "{changes}");
}

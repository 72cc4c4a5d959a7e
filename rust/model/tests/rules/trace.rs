//! Runs written as text, one letter a group.

use generate::Plan;
use model::{fresh, step, Interval, State};

/// A run of full step calls on one plan.
pub struct Run {
    personality: Vec<u8>,
    colours: Vec<u8>,
    pub state: State,
    pub steps: u32,
}

impl Run {
    pub fn new(plan: &Plan) -> Run {
        Run {
            personality: plan.bytes(),
            colours: vec![0; plan.groups.len()],
            state: fresh(),
            steps: 0,
        }
    }

    /// One accepted step.
    pub fn step(&mut self, inputs: u64) {
        let answer = step(&self.personality, &self.state, inputs, &mut self.colours);
        answer.wait_bound.expect("an accepted step");
        self.state = answer.state;
        self.steps += 1;
    }

    /// Steps with the inputs of each step, until this many are done.
    pub fn until(&mut self, last: u32, inputs: impl Fn(u32) -> u64) {
        while self.steps < last {
            self.step(inputs(self.steps + 1));
        }
    }

    /// Phase, interval and group letters, as the trace program prints them.
    pub fn shown(&self) -> String {
        let phase = char::from(b'A' + self.state.phase);
        let interval = match self.state.interval {
            Interval::StartRed => 'S',
            Interval::LateStart => 'L',
            Interval::MinimumGreen => 'M',
            Interval::Running => 'G',
            Interval::EarlyCutOff => 'E',
            Interval::Yellow => 'Y',
            Interval::AllRed => 'R',
        };
        let letter = |&code: &u8| ['R', 'Y', 'G', 'F'][usize::from(code)];
        let groups: String = self.colours.iter().map(letter).collect();
        format!("{phase} {interval} {groups}")
    }
}

/// Where what is shown changes: the step, then the rest of its trace line.
pub fn changes(plan: &Plan, steps: u32, inputs: impl Fn(u32) -> u64) -> Vec<String> {
    let mut run = Run::new(plan);
    let mut lines = Vec::new();
    let mut last = String::new();
    for step in 1..=steps {
        run.step(inputs(step));
        let shown = run.shown();
        if shown != last {
            lines.push(format!("{step} {shown}"));
            last = shown;
        }
    }
    lines
}

/// Inputs with these bits in one step only.
pub fn once(step: u32, bits: u64) -> impl Fn(u32) -> u64 {
    move |now| if now == step { bits } else { 0 }
}

/// The input bit of a detector.
pub const fn detector(detector: u32) -> u64 {
    1 << detector
}

/// The input bit of a button.
pub const fn button(button: u32) -> u64 {
    1 << (model::FIRST_BUTTON + button)
}

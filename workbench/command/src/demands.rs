//! Demands from the states of a run: from the step that registers one to the step that
//! meets it.

use crate::frames::Frame;
use willowera::{stage, Fields};

/// Who waits.
#[derive(Clone, Copy, Debug, PartialEq, Eq)]
pub enum Who {
    /// A locked demand of a phase.
    Phase(usize),
    /// A button demand of a movement.
    Movement(usize),
}

/// A demand: the steps that register and meet it. One that waits at the end is not met.
#[derive(Clone, Copy, Debug, PartialEq, Eq)]
pub struct Demand {
    pub who: Who,
    pub from: u64,
    pub to: Option<u64>,
}

impl Demand {
    pub fn waited(&self) -> Option<u64> {
        self.to.map(|to| to - self.from)
    }
}

/// The demands that wait, by what the states say.
pub struct Waiting {
    phases: Vec<Option<u64>>,
    movements: Vec<Option<u64>>,
}

impl Waiting {
    pub fn new(phases: usize, movements: usize) -> Waiting {
        Waiting {
            phases: vec![None; phases],
            movements: vec![None; movements],
        }
    }

    /// Takes in the state after a step; the demands that it meets. A demand that is
    /// registered and met in the same step never shows in a state.
    pub fn step(&mut self, step: u64, state: &Fields) -> Vec<Demand> {
        let (locked, pressed) = (state.locked_demands(), state.button_demands());
        let stages = state.movements();
        let mut met = Vec::new();
        for (phase, since) in self.phases.iter_mut().enumerate() {
            met.extend(turn(
                since,
                locked >> phase & 1 != 0,
                step,
                Who::Phase(phase),
            ));
        }
        for (movement, since) in self.movements.iter_mut().enumerate() {
            let walk = stages[movement].stage == stage::WALK && stages[movement].age == 1;
            let waits = pressed >> movement & 1 != 0 && !walk;
            met.extend(turn(since, waits, step, Who::Movement(movement)));
        }
        met
    }

    /// The demands that still wait.
    pub fn rest(&self) -> Vec<Demand> {
        let demand = |who, since: &Option<u64>| {
            since.map(|from| Demand {
                who,
                from,
                to: None,
            })
        };
        let phases = self
            .phases
            .iter()
            .enumerate()
            .map(|(at, since)| demand(Who::Phase(at), since));
        let movements = self.movements.iter().enumerate();
        let movements = movements.map(|(at, since)| demand(Who::Movement(at), since));
        phases.chain(movements).flatten().collect()
    }
}

/// A demand begins to wait, or is met.
fn turn(since: &mut Option<u64>, waits: bool, step: u64, who: Who) -> Option<Demand> {
    match (*since, waits) {
        (None, true) => {
            *since = Some(step);
            None
        }
        (Some(from), false) => {
            *since = None;
            Some(Demand {
                who,
                from,
                to: Some(step),
            })
        }
        _ => None,
    }
}

/// All demands of a run.
pub fn demands(frames: &[Frame], phases: usize, movements: usize) -> Vec<Demand> {
    let mut waiting = Waiting::new(phases, movements);
    let mut all: Vec<Demand> = frames
        .iter()
        .flat_map(|frame| waiting.step(frame.step.into(), &frame.fields()))
        .collect();
    all.extend(waiting.rest());
    all
}

//! What a site shows, step by step, by the library's calls.

use site::Road;
use willowera::{packed, Controller, Fields, Refusal, LONGEST_LINE, STATE_LEN};

/// A step: its inputs, the state and the colours after it, and the panel's line.
pub struct Frame {
    /// From 1.
    pub step: u32,
    pub inputs: u64,
    pub state: [u8; STATE_LEN],
    pub colours: Vec<u8>,
    pub line: String,
}

/// The names of the intervals, by their codes.
pub const INTERVALS: [&str; 7] = [
    "start red",
    "late start",
    "minimum green",
    "running",
    "early cut-off",
    "yellow",
    "all-red",
];

/// The letters of the intervals in a trace, by their codes.
pub const INTERVAL_LETTERS: [char; 7] = ['S', 'L', 'M', 'G', 'E', 'Y', 'R'];

/// The letter of a colour.
pub fn colour_letter(colour: u8) -> char {
    ['R', 'Y', 'G', 'F', '-'][usize::from(colour.min(4))]
}

impl Frame {
    pub fn fields(&self) -> Fields<'_> {
        Fields::of(&self.state)
    }

    pub fn interval(&self) -> usize {
        usize::from(self.fields().interval()).min(INTERVALS.len() - 1)
    }

    pub fn letters(&self) -> impl Iterator<Item = char> + '_ {
        self.colours.iter().map(|colour| colour_letter(*colour))
    }
}

/// Makes a step and takes down what it shows.
fn step_of(
    controller: &mut Controller,
    groups: usize,
    step: u32,
    inputs: u64,
) -> Result<Frame, Refusal> {
    let mut colours = vec![0; groups];
    controller.step(inputs, &mut colours)?;
    let mut buffer = [0; LONGEST_LINE];
    let line = controller.why(inputs, &mut buffer)?;
    Ok(Frame {
        step,
        inputs,
        line: String::from_utf8_lossy(line).into_owned(),
        state: *controller.state(),
        colours,
    })
}

/// The steps of these inputs from the fresh state.
pub fn frames(personality: &[u8], inputs: &[u64]) -> Result<Vec<Frame>, Refusal> {
    let groups = willowera::groups(personality)? as usize;
    let mut controller = Controller::new(personality)?;
    let steps = inputs.iter().zip(1..);
    steps
        .map(|(inputs, step)| step_of(&mut controller, groups, step, *inputs))
        .collect()
}

/// The state of a road after so many steps, and for each stream the vehicles queued and
/// gone.
pub struct RoadAt {
    pub state: [u8; STATE_LEN],
    pub vehicles: Vec<(u16, u16)>,
}

/// The library's road after so many steps.
pub fn road_at(personality: &[u8], road: &Road, steps: u32) -> Result<RoadAt, Refusal> {
    let streams = road.bytes();
    let mut state = [0; STATE_LEN];
    let mut results = vec![0; streams.len()];
    let answer = packed::road(personality, &streams, steps, &mut state, &mut results);
    willowera::wait_bound_or_refusal(answer)?;
    let two = |bytes: &[u8]| u16::from_le_bytes([bytes[0], bytes[1]]);
    let vehicles = results
        .chunks(4)
        .map(|one| (two(one), two(&one[2..])))
        .collect();
    Ok(RoadAt { state, vehicles })
}

/// One step of a road: the library's road before and after it says which streams had a
/// queue, so which detectors were occupied. A step of the controller with these inputs
/// must lead to the state that the road gives.
pub fn road_frame(
    personality: &[u8],
    road: &Road,
    before: &RoadAt,
    after: &RoadAt,
    step: u32,
) -> Result<Frame, String> {
    let mut inputs = 0;
    for (stream, (old, new)) in road
        .streams
        .iter()
        .zip(before.vehicles.iter().zip(&after.vehicles))
    {
        let arrived = (new.0 + new.1) - (old.0 + old.1);
        if old.0 + arrived > 0 {
            inputs |= 1 << stream.detector;
        }
    }
    let told = |refusal: Refusal| refusal.to_string();
    let groups = willowera::groups(personality).map_err(told)? as usize;
    let mut controller = Controller::from_state(personality, &before.state).map_err(told)?;
    let frame = step_of(&mut controller, groups, step, inputs).map_err(told)?;
    if frame.state != after.state {
        return Err(format!(
            "step {step} of the road does not follow from its queues"
        ));
    }
    Ok(frame)
}

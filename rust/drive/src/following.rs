//! A run of steps with chosen inputs under a monitor.

use model::packed::{number, rest, Board};
use model::{Site, TimedState, STATE_LEN};
use monitor::{Breach, Monitor, Seen};

/// Steps a board from the fresh state under a monitor, and gives the monitor back. The inputs
/// of a step are chosen by its number, counted from 1, and by the state before it. The
/// personality must be one that is accepted.
pub fn follow(
    mut monitor: Monitor,
    board: &dyn Board,
    personality: &[u8],
    steps: u64,
    mut inputs: impl FnMut(u64, &TimedState) -> u64,
) -> Result<Monitor, Breach> {
    let site = Site::read(personality).expect("an accepted personality");
    let mut state = [0; STATE_LEN];
    let mut colours = vec![0; site.group_count()];
    let decode =
        |step: u64, state: &[u8]| TimedState::from_bytes(state).ok_or(Breach::NoState { step });
    let answer = board.fresh(personality, &mut state);
    if answer != 0 {
        return Err(Breach::WrongAnswer { step: 0, answer });
    }
    monitor.begins_with(&state)?;
    for step in 1..=steps {
        let before = state;
        let inputs = inputs(step, &decode(step, &before)?);
        let answer = board.step(personality, &mut state, inputs, &mut colours);
        if number(answer) != 0 {
            return Err(Breach::WrongAnswer { step, answer });
        }
        let seen = Seen {
            wait: rest(answer),
            inputs,
            before: &before,
            after: &state,
            colours: &colours,
        };
        monitor.accepted_step(&seen)?;
    }
    Ok(monitor)
}

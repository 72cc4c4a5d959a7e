//! The lists of calls of the Python controller, which `vectors/make_retimes.py`
//! writes, on a board: every call gets the state that the call before it left.

use crate::vectors::{
    run_each_list, same, take_array, take_behind_length, take_bytes, Lists, CANARY,
};
use model::packed::Board;

/// One call of a list.
enum Call<'a> {
    Fresh,
    Step { inputs: u64, colours_len: usize },
    Retime { new_personality: &'a [u8] },
}

/// What a call answers, the bytes of the state that it changes, each with its place,
/// and the colours that it writes.
struct Outcome<'a> {
    answer: u64,
    changed: &'a [[u8; 3]],
    colours: &'a [u8],
}

/// Runs every list on a board. Gives their number and that of the calls, or the
/// first call that differs.
pub fn run_lists(board: &dyn Board, file: &[u8]) -> Result<Lists, String> {
    run_each_list(file, |rest| run_list(board, rest))
}

/// Runs the next list; gives the number of its calls. An error names the call.
fn run_list(board: &dyn Board, file: &mut &[u8]) -> Result<usize, (usize, String)> {
    let cut = |call: usize| move || (call, "the file is cut short".to_string());
    let personality = take_behind_length(file).ok_or_else(cut(0))?;
    let mut state = take_behind_length(file).ok_or_else(cut(0))?.to_vec();
    let calls = usize::from(u16::from_le_bytes(take_array(file).ok_or_else(cut(0))?));
    for index in 0..calls {
        let call = take_call(file).ok_or_else(cut(index))?;
        let outcome = take_outcome(file, &call).ok_or_else(cut(index))?;
        call.run(board, personality, &mut state, &outcome)
            .map_err(|what| (index, what))?;
    }
    Ok(calls)
}

fn take_call<'a>(file: &mut &'a [u8]) -> Option<Call<'a>> {
    match take_array(file)? {
        [0] => Some(Call::Fresh),
        [1] => {
            let inputs = u64::from_le_bytes(take_array(file)?);
            let [colours_len] = take_array(file)?;
            Some(Call::Step {
                inputs,
                colours_len: colours_len.into(),
            })
        }
        [2] => {
            let new_personality = take_behind_length(file)?;
            Some(Call::Retime { new_personality })
        }
        _ => None,
    }
}

fn take_outcome<'a>(file: &mut &'a [u8], call: &Call) -> Option<Outcome<'a>> {
    let [number] = take_array(file)?;
    let rest = u32::from_le_bytes(take_array(file)?);
    let count = usize::from(u16::from_le_bytes(take_array(file)?));
    let (changed, _) = take_bytes(file, 3 * count)?.as_chunks();
    let colours = match call {
        Call::Step { .. } => {
            let [length] = take_array(file)?;
            take_bytes(file, length.into())?
        }
        _ => &[],
    };
    Some(Outcome {
        answer: u64::from(rest) << 8 | u64::from(number),
        changed,
        colours,
    })
}

impl Call<'_> {
    /// Makes the call and leaves its state in the buffer.
    fn run(
        &self,
        board: &dyn Board,
        personality: &[u8],
        state: &mut [u8],
        outcome: &Outcome,
    ) -> Result<(), String> {
        let mut expected = state.to_vec();
        for &[low, high, byte] in outcome.changed {
            let place = usize::from(u16::from_le_bytes([low, high]));
            *expected.get_mut(place).ok_or("a place past the state")? = byte;
        }
        let mut colours = Vec::new();
        let answer = match *self {
            Call::Fresh => board.fresh(personality, state),
            Call::Step {
                inputs,
                colours_len,
            } => {
                colours.resize(colours_len, CANARY);
                board.step(personality, state, inputs, &mut colours)
            }
            Call::Retime { new_personality } => board.retime(personality, state, new_personality),
        };
        if answer != outcome.answer {
            return Err(format!("expected {:#x}, found {answer:#x}", outcome.answer));
        }
        let mut shown = outcome.colours.to_vec();
        shown.resize(colours.len(), CANARY);
        same("the state", &expected, state)?;
        same("the colours", &shown, &colours)
    }
}

#[cfg(test)]
mod tests {
    use super::*;
    use generate::Plan;
    use model::packed::Model;
    use model::{Site, TimedState, STATE_LEN};

    /// Where the list has the buffer that is made fresh, and the length of the
    /// step's colour buffer: behind 20 bytes that the fresh state changes.
    const BEFORE: std::ops::Range<usize> = 72..72 + STATE_LEN;
    const COLOURS_LEN: usize = BEFORE.end + 2 + 6 + 2 + 3 * 20 + 9;

    /// The fresh state of the junction, a step, and a retiming with itself.
    fn list() -> Vec<u8> {
        let personality = Plan::junction().bytes();
        let site = Site::read(&personality).unwrap();
        let fresh = TimedState::fresh(&site).to_bytes();
        let mut file = vec![68, 0];
        file.extend(&personality);
        file.extend((STATE_LEN as u16).to_le_bytes());
        file.extend([0; STATE_LEN]);
        file.extend([3, 0]);
        file.extend([0, 0, 0, 0, 0, 0]);
        file.extend(changes(&[0; STATE_LEN], &fresh));
        // Age 2 after the step; the wait is 270.
        file.extend([1, 0, 0, 0, 0, 0, 0, 0, 0, 3]);
        file.extend([0, 14, 1, 0, 0, 1, 0, 2, 0, 2, 2, 0, 0]);
        file.extend([2, 68, 0]);
        file.extend(&personality);
        file.extend([0; 5]);
        let mut before = fresh;
        before[2] = 2;
        let mut after = TimedState::from_bytes(&before).unwrap();
        after.waiting = Some(after.ruling);
        file.extend(changes(&before, &after.to_bytes()));
        file
    }

    /// The bytes that differ, behind their number.
    fn changes(before: &[u8], after: &[u8]) -> Vec<u8> {
        let places: Vec<usize> = (0..after.len())
            .filter(|&at| before[at] != after[at])
            .collect();
        let mut bytes = (places.len() as u16).to_le_bytes().to_vec();
        for at in places {
            bytes.extend((at as u16).to_le_bytes());
            bytes.push(after[at]);
        }
        bytes
    }

    #[test]
    fn a_list_agrees() {
        let count = |lists, calls| Ok(Lists { lists, calls });
        assert_eq!(run_lists(&Model, &list()), count(1, 3));
        assert_eq!(run_lists(&Model, &list().repeat(2)), count(2, 6));
        assert!(run_lists(&Model, &[]).is_err());
        // A personality, a state, and no call on them.
        let mut none = list()[..BEFORE.end].to_vec();
        none.extend([0, 0]);
        assert!(run_lists(&Model, &none).is_err());
        none.extend(list());
        assert_eq!(run_lists(&Model, &none), count(2, 3));
    }

    #[test]
    fn wrong_lists_are_noticed() {
        let good = list();
        // What the buffer holds before it is made fresh matters only where that does
        // not change it.
        for at in (0..good.len()).filter(|at| !BEFORE.contains(at)) {
            let mut file = good.clone();
            file[at] ^= 1;
            // A colour buffer of 2 bytes is as good as one of 3.
            let agrees = run_lists(&Model, &file).is_ok();
            assert_eq!(agrees, at == COLOURS_LEN, "byte {at}");
        }
        for length in 1..good.len() {
            assert!(
                run_lists(&Model, &good[..length]).is_err(),
                "{length} bytes"
            );
        }
    }
}

//! The calls of the Python model that seal states and resume them, which
//! `vectors/make_seals.py` writes, on a board.

use crate::vectors::{
    run_each_list, same, same_answer, take_answer, take_array, take_behind_length, take_bytes,
    Lists, CANARY,
};
use model::packed::Board;

/// What the calls of a list have in common: a state and a record that others are told
/// by.
struct List<'a> {
    personality: &'a [u8],
    state: &'a [u8],
    sealed: &'a [u8],
}

/// One call of a list.
enum Call {
    Groups,
    Seal { state: Vec<u8>, room: usize },
    Resume { sealed: Vec<u8>, room: usize },
}

/// Runs every list on a board. Gives their number and that of the calls, or the first
/// call that differs.
pub fn run_seal_vectors(board: &dyn Board, file: &[u8]) -> Result<Lists, String> {
    run_each_list(file, |rest| run_list(board, rest))
}

/// Runs the next list; gives the number of its calls. An error names the call.
fn run_list(board: &dyn Board, file: &mut &[u8]) -> Result<usize, (usize, String)> {
    let cut = |call: usize| move || (call, "the file is cut short".to_string());
    let mut part = || take_behind_length(file).ok_or_else(cut(0));
    let list = List {
        personality: part()?,
        state: part()?,
        sealed: part()?,
    };
    let calls = u16::from_le_bytes(take_array(file).ok_or_else(cut(0))?).into();
    for index in 0..calls {
        let call = list.take_call(file).ok_or_else(cut(index))?;
        let answer = take_answer(file).ok_or_else(cut(index))?;
        let written = take_behind_length(file).ok_or_else(cut(index))?;
        let ran = call.run(board, list.personality, answer, written);
        ran.map_err(|what| (index, what))?;
    }
    Ok(calls)
}

impl List<'_> {
    fn take_call(&self, file: &mut &[u8]) -> Option<Call> {
        let what = take_array(file)?;
        let base = match what {
            [0] => return Some(Call::Groups),
            [1] => self.state,
            [2] => self.sealed,
            _ => return None,
        };
        let other = take_other(file, base)?;
        let room = u16::from_le_bytes(take_array(file)?).into();
        Some(match what {
            [1] => Call::Seal { state: other, room },
            _ => Call::Resume {
                sealed: other,
                room,
            },
        })
    }
}

/// Bytes that are told by others: these cut or filled with zeros to a length, but for
/// some bytes, each with its place.
fn take_other(file: &mut &[u8], base: &[u8]) -> Option<Vec<u8>> {
    let mut bytes = base.to_vec();
    bytes.resize(u16::from_le_bytes(take_array(file)?).into(), 0);
    let count = usize::from(u16::from_le_bytes(take_array(file)?));
    let (changed, _) = take_bytes(file, 3 * count)?.as_chunks();
    for &[low, high, byte] in changed {
        let place = usize::from(u16::from_le_bytes([low, high]));
        *bytes.get_mut(place)? = byte;
    }
    Some(bytes)
}

impl Call {
    /// Makes the call. A refused one writes nothing.
    fn run(
        &self,
        board: &dyn Board,
        personality: &[u8],
        expected: u64,
        written: &[u8],
    ) -> Result<(), String> {
        let room = match self {
            Call::Groups => 0,
            Call::Seal { room, .. } | Call::Resume { room, .. } => *room,
        };
        let mut buffer = vec![CANARY; room];
        let answer = match self {
            Call::Groups => board.groups(personality),
            Call::Seal { state, .. } => board.seal(personality, state, &mut buffer),
            Call::Resume { sealed, .. } => board.resume(personality, sealed, &mut buffer),
        };
        same_answer("the answer", expected, answer)?;
        let left = match written {
            [] => vec![CANARY; room],
            whole => whole.to_vec(),
        };
        same("the buffer", &left, &buffer)
    }
}

#[cfg(test)]
mod tests {
    use super::*;
    use generate::Plan;
    use model::packed::Model;
    use model::{sealed, Site, TimedState, SEALED_LEN};

    /// The junction of two phases: its groups; its fresh state sealed; the record
    /// resumed; cut by a byte; with another version; the record of an older state
    /// resumed; sealed into a buffer that is too long. Gives the places too at which
    /// another byte is as good: those of another length that is wrong, and that of
    /// another version.
    fn list() -> (Vec<u8>, Vec<usize>) {
        let personality = Plan::junction().bytes();
        let site = Site::read(&personality).unwrap();
        let mut timed = TimedState::fresh(&site);
        let state = timed.to_bytes();
        let record = model::seal(&personality, &timed).unwrap();
        let mut file = vec![68, 0];
        file.extend(&personality);
        file.extend([80, 1]);
        file.extend(state);
        file.extend([91, 1]);
        file.extend(record);
        file.extend([7, 0]);
        file.extend([0, 0, 2, 0, 0, 0, 0, 0]);
        file.extend([1, 80, 1, 0, 0, 91, 1, 0, 0, 0, 0, 0, 91, 1]);
        file.extend(record);
        file.extend([2, 91, 1, 0, 0, 80, 1, 0, 0, 0, 0, 0, 80, 1]);
        file.extend(state);
        let mut free = vec![file.len() + 1, file.len() + 2];
        file.extend([2, 90, 1, 0, 0, 80, 1, 28, 0, 0, 0, 0, 0, 0]);
        free.extend([1, 2, 7].map(|at| file.len() + at));
        file.extend([2, 91, 1, 1, 0, 0, 0, 5, 80, 1, 27, 0, 0, 0, 0, 0, 0]);
        timed.state.age = 2;
        let older = model::seal(&personality, &timed).unwrap();
        file.extend([2, 91, 1, 5, 0]);
        for at in [sealed::STATE + 2]
            .into_iter()
            .chain(sealed::CHECK..SEALED_LEN)
        {
            file.extend((at as u16).to_le_bytes());
            file.push(older[at]);
        }
        file.extend([80, 1, 0, 0, 0, 0, 0, 80, 1]);
        file.extend(timed.to_bytes());
        free.extend([5, 6].map(|at| file.len() + at));
        file.extend([1, 80, 1, 0, 0, 92, 1, 14, 0, 0, 0, 0, 0, 0]);
        (file, free)
    }

    #[test]
    fn a_worked_list_agrees() {
        let (list, _) = list();
        let count = |lists, calls| Ok(Lists { lists, calls });
        assert_eq!(run_seal_vectors(&Model, &list), count(1, 7));
        assert_eq!(run_seal_vectors(&Model, &list.repeat(2)), count(2, 14));
        assert!(run_seal_vectors(&Model, &[]).is_err());
    }

    #[test]
    fn wrong_lists_are_noticed() {
        let (good, free) = list();
        for length in 1..good.len() {
            let ran = run_seal_vectors(&Model, &good[..length]);
            assert!(ran.is_err(), "{length} bytes");
        }
        let agrees = |at: &usize| {
            let mut file = good.clone();
            file[*at] ^= 2;
            run_seal_vectors(&Model, &file).is_ok()
        };
        let agree: Vec<usize> = (0..good.len()).filter(agrees).collect();
        assert_eq!(agree, free);
    }
}

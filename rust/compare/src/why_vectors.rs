//! The calls of the Python model for the line that says why a phase holds, which
//! `vectors/make_why.py` writes, on a board.

use crate::vectors::{
    run_each_list, same, same_answer, take_answer, take_array, take_behind_length, take_bytes,
    Lists, CANARY,
};
use model::packed::Board;

/// How many lists were run, and how many times a line was asked for in them.
#[derive(Clone, Copy, Debug, Default, PartialEq, Eq)]
pub struct Asked {
    pub lists: usize,
    pub lines: usize,
}

/// What is handed to both calls besides the personality: the state is the one before,
/// but for some bytes, each with its place.
struct Question<'a> {
    changed: &'a [[u8; 3]],
    inputs: u64,
    room: usize,
}

/// What the call for the length answers, what the writing call answers, and the line
/// that it writes.
struct Told<'a> {
    length: u64,
    answer: u64,
    line: &'a [u8],
}

/// Runs every list on a board. Gives their number and that of the lines, or the first
/// that differs.
pub fn run_why_vectors(board: &dyn Board, file: &[u8]) -> Result<Asked, String> {
    let Lists { lists, calls } = run_each_list(file, |rest| run_list(board, rest))?;
    Ok(Asked {
        lists,
        lines: calls,
    })
}

/// Runs the next list; gives the number of its lines. An error names the line.
fn run_list(board: &dyn Board, file: &mut &[u8]) -> Result<usize, (usize, String)> {
    let cut = |line: usize| move || (line, "the file is cut short".to_string());
    let personality = take_behind_length(file).ok_or_else(cut(0))?;
    let mut state = take_behind_length(file).ok_or_else(cut(0))?.to_vec();
    let lines = usize::from(u16::from_le_bytes(take_array(file).ok_or_else(cut(0))?));
    for index in 0..lines {
        let question = take_question(file).ok_or_else(cut(index))?;
        let told = take_told(file).ok_or_else(cut(index))?;
        question
            .ask(board, personality, &mut state, &told)
            .map_err(|what| (index, what))?;
    }
    Ok(lines)
}

fn take_question<'a>(file: &mut &'a [u8]) -> Option<Question<'a>> {
    let count = usize::from(u16::from_le_bytes(take_array(file)?));
    Some(Question {
        changed: take_bytes(file, 3 * count)?.as_chunks().0,
        inputs: u64::from_le_bytes(take_array(file)?),
        room: u16::from_le_bytes(take_array(file)?).into(),
    })
}

fn take_told<'a>(file: &mut &'a [u8]) -> Option<Told<'a>> {
    let length = take_answer(file)?;
    let answer = take_answer(file)?;
    let [written] = take_array(file)?;
    Some(Told {
        length,
        answer,
        line: take_bytes(file, written.into())?,
    })
}

impl Question<'_> {
    /// Makes both calls and leaves the state for the next ones.
    fn ask(
        &self,
        board: &dyn Board,
        personality: &[u8],
        state: &mut [u8],
        told: &Told,
    ) -> Result<(), String> {
        for &[low, high, byte] in self.changed {
            let place = usize::from(u16::from_le_bytes([low, high]));
            *state.get_mut(place).ok_or("a place past the state")? = byte;
        }
        let length = board.why_length(personality, state, self.inputs);
        same_answer("the length", told.length, length)?;
        let mut line = vec![CANARY; self.room];
        let answer = board.why(personality, state, self.inputs, &mut line);
        same_answer("the answer", told.answer, answer)?;
        // Bytes behind the line stay, and all of them if the call is refused.
        let mut expected = told.line.to_vec();
        expected.resize(self.room, CANARY);
        same("the line", &expected, &line)
    }
}

#[cfg(test)]
mod tests {
    use super::*;
    use generate::Plan;
    use model::packed::Model;
    use model::{fresh, layout, Interval, Site, State, TimedState};
    use std::ops::Range;

    const LINE: &[u8] = b"A holds, no other demand, gap 5, max 9";
    /// Where the list has what is told of the first line, the room of the second line
    /// and what is told of it.
    const FIRST: Range<usize> = 422..433;
    const ROOM: usize = FIRST.end + 16;
    const SECOND: Range<usize> = ROOM + 2..ROOM + 2 + 11 + LINE.len();

    /// The junction of two phases in minimum green, in running, in running with a
    /// buffer that is too short, and with a bit that has no detector.
    fn list() -> Vec<u8> {
        let personality = Plan::junction().bytes();
        let state = State {
            interval: Interval::MinimumGreen,
            gap_count: 5,
            maximum_count: 20,
            ..fresh()
        };
        let timed = TimedState::by_own_times(&Site::read(&personality).unwrap(), state);
        let mut file = vec![68, 0];
        file.extend(&personality);
        file.extend([80, 1]);
        file.extend(timed.to_bytes());
        file.extend([4, 0]);
        file.extend([0, 0, 0, 0, 0, 0, 0, 0, 0, 0, 0, 0]);
        file.extend([0; 11]);
        // Into running, with the steps left from 10 to 9.
        let [interval, maximum] = [layout::INTERVAL as u8, layout::MAXIMUM_COUNT as u8];
        file.extend([2, 0, interval, 0, 3, maximum, 0, 21]);
        file.extend([1, 0, 0, 0, 0, 0, 0, 0, 40, 0]);
        let answer = [0, 38, 0, 0, 0];
        file.extend([answer, answer].concat());
        file.push(38);
        file.extend(LINE);
        file.extend([0, 0, 2, 0, 0, 0, 0, 0, 0, 0, 37, 0]);
        file.extend([0, 38, 0, 0, 0, 14, 0, 0, 0, 0, 0]);
        file.extend([0, 0, 4, 0, 0, 0, 0, 0, 0, 0, 37, 0]);
        file.extend([15, 0, 0, 0, 0, 15, 0, 0, 0, 0, 0]);
        file
    }

    #[test]
    fn a_worked_list_agrees() {
        let count = |lists, lines| Ok(Asked { lists, lines });
        assert_eq!(run_why_vectors(&Model, &list()), count(1, 4));
        assert_eq!(run_why_vectors(&Model, &list().repeat(2)), count(2, 8));
        assert!(run_why_vectors(&Model, &[]).is_err());
    }

    #[test]
    fn wrong_lists_are_noticed() {
        let good = list();
        for length in 1..good.len() {
            let agrees = run_why_vectors(&Model, &good[..length]);
            assert!(agrees.is_err(), "{length} bytes");
        }
        for at in FIRST.chain(SECOND) {
            let mut file = good.clone();
            file[at] ^= 1;
            assert!(run_why_vectors(&Model, &file).is_err(), "byte {at}");
        }
        // A longer buffer is as good, one that is too short is not.
        for (room, agrees) in [(37, false), (38, true), (39, true), (200, true)] {
            let mut file = good.clone();
            assert_eq!(file[ROOM], 40);
            file[ROOM] = room;
            assert_eq!(run_why_vectors(&Model, &file).is_ok(), agrees, "{room}");
        }
    }
}

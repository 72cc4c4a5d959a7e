//! The vectors of the Python road, which `vectors/make_roads.py` writes, on a
//! board.

use crate::vectors::{run_each, same, take_array, take_behind_length, take_bytes, CANARY};
use model::packed::Board;
use model::STATE_LEN;

/// One vector: what is handed to a road, and what it answers and writes.
struct Vector<'a> {
    personality: &'a [u8],
    streams: &'a [u8],
    steps: u32,
    state_len: usize,
    results_len: usize,
    answer: u64,
    /// The last state and the results; both empty if the road is refused.
    state: &'a [u8],
    results: &'a [u8],
}

/// Runs every vector on a board. Gives their number, or the first that differs.
pub fn run_road_vectors(board: &dyn Board, file: &[u8]) -> Result<usize, String> {
    let ran = run_each(file, take, |vector| vector.run(board).map(|()| 1))?;
    Ok(ran.lists)
}

fn take<'a>(file: &mut &'a [u8]) -> Option<Vector<'a>> {
    let personality = take_behind_length(file)?;
    let streams = take_behind_length(file)?;
    let steps = u32::from_le_bytes(take_array(file)?);
    let state_len = usize::from(u16::from_le_bytes(take_array(file)?));
    let results_len = usize::from(u16::from_le_bytes(take_array(file)?));
    let [number] = take_array(file)?;
    let place = u32::from_le_bytes(take_array(file)?);
    let (state, results) = match number {
        0 => (
            take_bytes(file, STATE_LEN)?,
            take_bytes(file, streams.len())?,
        ),
        _ => (&[][..], &[][..]),
    };
    Some(Vector {
        personality,
        streams,
        steps,
        state_len,
        results_len,
        answer: u64::from(place) << 8 | u64::from(number),
        state,
        results,
    })
}

impl Vector<'_> {
    fn run(&self, board: &dyn Board) -> Result<(), String> {
        let mut state = vec![CANARY; self.state_len];
        let mut results = vec![CANARY; self.results_len];
        let answer = board.road(
            self.personality,
            self.streams,
            self.steps,
            &mut state,
            &mut results,
        );
        if answer != self.answer {
            return Err(format!("expected {:#x}, found {answer:#x}", self.answer));
        }
        same("the state", &written(self.state, self.state_len), &state)?;
        same(
            "the results",
            &written(self.results, self.results_len),
            &results,
        )
    }
}

/// A buffer after these bytes are written to its beginning.
fn written(bytes: &[u8], length: usize) -> Vec<u8> {
    let mut buffer = bytes.to_vec();
    buffer.resize(length, CANARY);
    buffer
}

#[cfg(test)]
mod tests {
    use super::*;
    use generate::Plan;
    use model::packed::Model;

    /// 200 steps of the junction, both streams full, with these results.
    fn worked(queued: u8, gone: u8) -> Vec<u8> {
        let personality = Plan::junction().bytes();
        let streams = [0, 0, 8, 7, 1, 1, 8, 7];
        let mut state = [0; STATE_LEN];
        Model.road(&personality, &streams, 200, &mut state, &mut [0; 8]);
        let mut file = vec![68, 0];
        file.extend(personality);
        file.extend([8, 0]);
        file.extend(streams);
        file.extend([200, 0, 0, 0]);
        file.extend((STATE_LEN as u16).to_le_bytes());
        file.extend([9, 0]);
        file.extend([0; 5]);
        file.extend(state);
        file.extend([queued, 0, gone, 0, 8, 0, 2, 0]);
        file
    }

    #[test]
    fn a_worked_case_agrees() {
        assert_eq!(run_road_vectors(&Model, &worked(8, 2)), Ok(1));
        assert_eq!(run_road_vectors(&Model, &worked(8, 2).repeat(3)), Ok(3));
        assert!(run_road_vectors(&Model, &[]).is_err());
    }

    #[test]
    fn wrong_vectors_are_noticed() {
        assert!(run_road_vectors(&Model, &worked(9, 2)).is_err());
        assert!(run_road_vectors(&Model, &worked(8, 1)).is_err());
        let mut file = worked(8, 2);
        file.pop();
        assert!(run_road_vectors(&Model, &file).is_err());
        let mut file = worked(8, 2);
        // The number.
        file[2 + 68 + 2 + 8 + 8] = 22;
        assert!(run_road_vectors(&Model, &file).is_err());
    }
}

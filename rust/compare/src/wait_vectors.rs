//! The waits of the Python model, which `vectors/make_waits.py` writes, on a board. Each
//! personality is asked for its waits in buffers of every length.

use crate::vectors::{run_each, same, same_answer, take_answer, take_behind_length, CANARY};
use model::packed::Board;
use model::MOST_WAIT_BYTES;

/// One vector: a personality, what it answers and writes if the buffer is long enough.
struct Vector<'a> {
    personality: &'a [u8],
    answer: u64,
    /// None if the personality is refused.
    waits: &'a [u8],
}

/// What a buffer that is too short is refused with.
const SHORT: u64 = 14;

/// Runs every vector on a board. Gives their number, or the first that differs.
pub fn run_wait_vectors(board: &dyn Board, file: &[u8]) -> Result<usize, String> {
    let ran = run_each(file, take, |vector| vector.run(board).map(|()| 1))?;
    Ok(ran.lists)
}

fn take<'a>(file: &mut &'a [u8]) -> Option<Vector<'a>> {
    Some(Vector {
        personality: take_behind_length(file)?,
        answer: take_answer(file)?,
        waits: take_behind_length(file)?,
    })
}

impl Vector<'_> {
    fn run(&self, board: &dyn Board) -> Result<(), String> {
        (0..=MOST_WAIT_BYTES + 2).try_for_each(|length| {
            self.run_in(board, length)
                .map_err(|what| format!("{what}, in {length} bytes"))
        })
    }

    fn run_in(&self, board: &dyn Board, length: usize) -> Result<(), String> {
        let mut waits = vec![CANARY; length];
        let answer = board.waits(self.personality, &mut waits);
        // Bytes behind the waits stay, and all of them if the call is refused.
        let mut expected = vec![CANARY; length];
        match expected.get_mut(..self.waits.len()) {
            Some(written) => {
                same_answer("the answer", self.answer, answer)?;
                written.copy_from_slice(self.waits);
            }
            None => same_answer("the answer", SHORT, answer)?,
        }
        same("the waits", &expected, &waits)
    }
}

#[cfg(test)]
mod tests {
    use super::*;
    use generate::Plan;
    use model::packed::Model;

    /// The junction of two phases, and a personality without bytes.
    fn file() -> Vec<u8> {
        let mut file = vec![68, 0];
        file.extend(Plan::junction().bytes());
        file.extend([0, 4, 0, 0, 0]);
        file.extend([4, 0, 130, 0, 130, 0]);
        file.extend([0, 0, 1, 0, 0, 0, 0, 0, 0]);
        file
    }

    #[test]
    fn worked_waits_agree() {
        assert_eq!(run_wait_vectors(&Model, &file()), Ok(2));
        assert!(run_wait_vectors(&Model, &[]).is_err());
    }

    #[test]
    fn wrong_files_are_noticed() {
        let good = file();
        // Where the first vector ends, the rest of the file has none or a whole one.
        for length in (1..good.len()).filter(|&length| length != 81) {
            assert!(
                run_wait_vectors(&Model, &good[..length]).is_err(),
                "{length}"
            );
        }
        for at in (70..75).chain(77..good.len() - 2) {
            let mut file = good.clone();
            file[at] ^= 1;
            assert!(run_wait_vectors(&Model, &file).is_err(), "byte {at}");
        }
    }
}

//! The vectors of the Python cabinet, which `vectors/make_cabinets.py` writes, on
//! a board.

use crate::vectors::{run_each, same, take_array, take_behind_length, take_bytes, Lists};
use generate::CabinetCall;
use model::packed::Board;
use model::{RecordBytes, RECORD_LEN};

/// One vector: a row and outputs, and the calls made on them.
struct Vector<'a> {
    row: &'a [RecordBytes],
    outputs: &'a [u8],
    calls: Vec<Made<'a>>,
}

/// A call, and what is expected of it.
struct Made<'a> {
    call: CabinetCall,
    answer: u64,
    /// The row and the outputs after an accepted call.
    after: Option<(&'a [RecordBytes], &'a [u8])>,
}

/// Runs every vector on a board. Gives their number and that of their calls, or the first that
/// differs.
pub fn run_cabinet_vectors(board: &dyn Board, file: &[u8]) -> Result<Lists, String> {
    run_each(file, take, |vector| vector.run(board))
}

fn take<'a>(file: &mut &'a [u8]) -> Option<Vector<'a>> {
    let records = u16::from_le_bytes(take_array(file)?);
    let row = take_row(file, records.into())?;
    let outputs = take_behind_length(file)?;
    let count = u16::from_le_bytes(take_array(file)?);
    let calls = (0..count).map(|_| take_made(file, row.len(), outputs.len()));
    Some(Vector {
        calls: calls.collect::<Option<_>>()?,
        row,
        outputs,
    })
}

/// The bytes of so many records.
fn take_row<'a>(file: &mut &'a [u8], records: usize) -> Option<&'a [RecordBytes]> {
    take_bytes(file, RECORD_LEN * records).map(|bytes| bytes.as_chunks().0)
}

fn take_made<'a>(file: &mut &'a [u8], records: usize, outputs_len: usize) -> Option<Made<'a>> {
    let [kind] = take_array(file)?;
    let record = take_size(file)?;
    let call = match kind {
        0 => CabinetCall::Place {
            record,
            first: take_size(file)?,
            personality: take_behind_length(file)?.to_vec(),
        },
        1 => CabinetCall::Step {
            record,
            inputs: u64::from_le_bytes(take_array(file)?),
        },
        2 => CabinetCall::TakeOut { record },
        3 => CabinetCall::Retime {
            record,
            new_personality: take_behind_length(file)?.to_vec(),
        },
        _ => return None,
    };
    let [number] = take_array(file)?;
    let rest = u32::from_le_bytes(take_array(file)?);
    let after = match number {
        0 => Some((take_row(file, records)?, take_bytes(file, outputs_len)?)),
        _ => None,
    };
    Some(Made {
        call,
        answer: u64::from(rest) << 8 | u64::from(number),
        after,
    })
}

/// A number of eight bytes.
fn take_size(file: &mut &[u8]) -> Option<usize> {
    usize::try_from(u64::from_le_bytes(take_array(file)?)).ok()
}

impl Vector<'_> {
    /// Makes the calls, and gives their number.
    fn run(&self, board: &dyn Board) -> Result<usize, String> {
        let (mut row, mut outputs) = (self.row, self.outputs);
        for (index, made) in self.calls.iter().enumerate() {
            let mut found_row = row.to_vec();
            let mut found_outputs = outputs.to_vec();
            let personality = made.call.personality();
            let answer = made
                .call
                .make(board, &mut found_row, personality, &mut found_outputs);
            if answer != made.answer {
                let expected = made.answer;
                return Err(format!(
                    "call {index}, expected {expected:#x}, found {answer:#x}"
                ));
            }
            // A refusal leaves both as they were.
            (row, outputs) = made.after.unwrap_or((row, outputs));
            let (expected, found) = (row.as_flattened(), found_row.as_flattened());
            same(&format!("call {index}, the row"), expected, found)?;
            same(
                &format!("call {index}, the outputs"),
                outputs,
                &found_outputs,
            )?;
        }
        Ok(self.calls.len())
    }
}

#[cfg(test)]
mod tests {
    use super::*;
    use generate::Plan;
    use model::packed::Model;
    use model::{Site, TimedState, ROW_LEN};

    /// The junction is placed in record 1 at output 3, retimed with itself, and taken out
    /// again. A step is then refused with 24. In turn what is handed in, and what is
    /// expected of it.
    fn pieces() -> [Vec<u8>; 8] {
        let personality = Plan::junction().bytes();
        let (before, place) = ([0; ROW_LEN], [0, 1, 0, 0, 0, 0, 0, 0, 0]);
        let (mut row, mut outputs) = (before, [9; 33]);
        let start = [&[4, 0][..], &before, &[33, 0], &outputs, &[4, 0]].concat();
        let first = [3, 0, 0, 0, 0, 0, 0, 0, 68, 0];
        let placing = [&start[..], &place, &first, &personality].concat();
        let record = &mut row[RECORD_LEN..2 * RECORD_LEN];
        record[..4].copy_from_slice(&[1, 3, 68, 0]);
        record[4..72].copy_from_slice(&personality);
        let mut state = TimedState::fresh(&Site::read(&personality).unwrap());
        record[481..].copy_from_slice(&state.to_bytes());
        outputs[3..5].fill(0);
        let placed = [&[0; 5][..], &row, &outputs].concat();
        let retiming = [&[3, 1, 0, 0, 0, 0, 0, 0, 0, 68, 0][..], &personality].concat();
        state.waiting = Some(state.ruling);
        row[RECORD_LEN + 481..2 * RECORD_LEN].copy_from_slice(&state.to_bytes());
        let retimed = [&[0; 5][..], &row, &outputs].concat();
        let taking_out = vec![2, 1, 0, 0, 0, 0, 0, 0, 0];
        outputs[3..5].fill(4);
        let taken_out = [&[0; 5][..], &before, &outputs].concat();
        let step = [&[1, 1, 0, 0, 0, 0, 0, 0, 0][..], &[0; 8]].concat();
        let refused = vec![24, 0, 0, 0, 0];
        [
            placing, placed, retiming, retimed, taking_out, taken_out, step, refused,
        ]
    }

    #[test]
    fn a_worked_case_agrees() {
        let worked = pieces().concat();
        let count = |lists, calls| Ok(Lists { lists, calls });
        assert_eq!(run_cabinet_vectors(&Model, &worked), count(1, 4));
        assert_eq!(run_cabinet_vectors(&Model, &worked.repeat(3)), count(3, 12));
    }

    #[test]
    fn no_call_is_an_error() {
        assert!(run_cabinet_vectors(&Model, &[]).is_err());
        // A row, its outputs, and no call on them.
        let row = [&[4, 0][..], &[0; ROW_LEN], &[33, 0], &[9; 33], &[0, 0]].concat();
        assert!(run_cabinet_vectors(&Model, &row).is_err());
        let both = [row, pieces().concat()].concat();
        assert!(run_cabinet_vectors(&Model, &both).is_ok());
    }

    #[test]
    fn wrong_vectors_are_noticed() {
        let whole = pieces().concat();
        for size in 1..whole.len() {
            assert!(
                run_cabinet_vectors(&Model, &whole[..size]).is_err(),
                "{size}"
            );
        }
        for (index, piece) in pieces().iter().enumerate().skip(1).step_by(2) {
            for at in 0..piece.len() {
                let mut changed = pieces();
                changed[index][at] ^= 1;
                let agrees = run_cabinet_vectors(&Model, &changed.concat());
                assert!(agrees.is_err(), "{index}, {at}");
            }
        }
    }
}

//! The cabinet program over the model: reads calls on a cabinet from standard
//! input, up to its end, and prints a line for each. The records are free at
//! first, and the 32 outputs red.
//!
//! A call is a kind byte and a record, and for kind 0, placing, a first output
//! and a personality behind its two-byte length; for kind 1, a step, eight bytes
//! of inputs; for kind 2, taking out, nothing more.

use std::io::{self, BufWriter, Read, Write};

use model::{place, step_held, take_out, Record, Refusal, OUTPUTS, RECORDS};

/// The number of a call cut short, or of another kind.
const CUT: &str = "refused 16 0";

enum Call<'a> {
    Place { first: u8, personality: &'a [u8] },
    Step { inputs: u64 },
    TakeOut,
}

/// Takes the next call and its record, or none if it is cut or of another kind.
fn next_call<'a>(input: &mut &'a [u8]) -> Option<(u8, Call<'a>)> {
    let [kind, record] = take(input)?;
    let call = match kind {
        0 => {
            let [first, low, high] = take(input)?;
            let length = u16::from_le_bytes([low, high]);
            let (personality, rest) = input.split_at_checked(length.into())?;
            *input = rest;
            Call::Place { first, personality }
        }
        1 => Call::Step {
            inputs: u64::from_le_bytes(take(input)?),
        },
        2 => Call::TakeOut,
        _ => return None,
    };
    Some((record, call))
}

fn take<const LENGTH: usize>(input: &mut &[u8]) -> Option<[u8; LENGTH]> {
    let (bytes, rest) = input.split_first_chunk()?;
    *input = rest;
    Some(*bytes)
}

/// What is said of a call: its outcome, or its refusal.
fn said(outcome: Result<String, Refusal>) -> String {
    outcome.unwrap_or_else(|refusal| format!("refused {} {}", refusal.number as u8, refusal.place))
}

fn letters(outputs: &[u8]) -> String {
    let letter = |&code: &u8| ['R', 'Y', 'G', 'F', 'D'][usize::from(code)];
    outputs.iter().map(letter).collect()
}

/// The lines of the calls, up to the first that is cut.
fn lines(mut input: &[u8]) -> Vec<String> {
    let mut records = [Record::FREE; RECORDS];
    let mut outputs = [0; OUTPUTS];
    let mut lines = Vec::new();
    while !input.is_empty() {
        let Some((record, call)) = next_call(&mut input) else {
            lines.push(CUT.to_string());
            break;
        };
        let (word, outcome) = answer(&mut records, record, call, &mut outputs);
        lines.push(format!("{word} {record} {outcome} {}", letters(&outputs)));
    }
    lines
}

/// Makes a call; gives its word and what is said of it.
fn answer(
    records: &mut [Record],
    record: u8,
    call: Call,
    outputs: &mut [u8],
) -> (&'static str, String) {
    let record = usize::from(record);
    let done = |()| "done".to_string();
    match call {
        Call::Place { first, personality } => {
            let placed = place(records, record, personality, first.into(), outputs);
            ("place", said(placed.map(done)))
        }
        Call::Step { inputs } => {
            let stepped = step_held(records, record, inputs, outputs);
            ("step", said(stepped.map(|wait| format!("wait {wait}"))))
        }
        Call::TakeOut => {
            let taken = take_out(records, record, outputs);
            ("take", said(taken.map(done)))
        }
    }
}

fn main() -> io::Result<()> {
    let mut input = Vec::new();
    io::stdin().read_to_end(&mut input)?;
    let mut out = BufWriter::new(io::stdout());
    for line in lines(&input) {
        writeln!(out, "{line}")?;
    }
    out.flush()
}

#[cfg(test)]
mod tests {
    use super::*;

    /// The junction of two phases of document 01.
    const JUNCTION: [u8; 68] = [
        4, 0, 1, 0, 2, 2, 10, 0, //
        24, 0, 2, 0, 0, 0, 20, 0, 30, 0, 5, 0, 30, 0, 10, 0, //
        0, 0, 20, 0, 30, 0, 5, 0, 30, 0, 10, 0, //
        4, 0, 3, 0, 1, 0, 2, 0, //
        8, 0, 4, 0, 2, 0, 0, 0, 1, 0, 0, 0, //
        4, 0, 5, 0, 0, 6, 1, 6, //
        0, 0, 6, 0,
    ];

    fn place(record: u8, first: u8) -> Vec<u8> {
        [&[0, record, first, 68, 0][..], &JUNCTION].concat()
    }

    fn step(record: u8, inputs: u8) -> Vec<u8> {
        vec![1, record, inputs, 0, 0, 0, 0, 0, 0, 0]
    }

    fn take_out(record: u8) -> Vec<u8> {
        vec![2, record]
    }

    /// The worked list of calls, with what is said of each.
    fn worked() -> [(Vec<u8>, &'static str); 10] {
        [
            (place(0, 0), "place 0 done"),
            (place(1, 1), "place 1 refused 25 0"),
            (place(1, 2), "place 1 done"),
            (step(1, 0), "step 1 wait 270"),
            (step(0, 4), "step 0 refused 15 0"),
            (take_out(2), "take 2 refused 24 0"),
            (take_out(0), "take 0 done"),
            (place(3, 30), "place 3 done"),
            (place(2, 31), "place 2 refused 25 0"),
            (step(4, 0), "step 4 refused 24 0"),
        ]
    }

    #[test]
    fn the_worked_list() {
        let input: Vec<u8> = worked().into_iter().flat_map(|(call, _)| call).collect();
        let found = lines(&input);
        for (index, (_, said)) in worked().iter().enumerate() {
            let dark = if index < 6 { 0 } else { 2 };
            let outputs = "D".repeat(dark) + &"R".repeat(32 - dark);
            assert_eq!(found[index], format!("{said} {outputs}"));
        }
        assert_eq!(found.len(), 10);
    }

    #[test]
    fn a_green_shows_at_its_outputs() {
        let mut input = place(2, 7);
        (0..10).for_each(|_| input.extend(step(2, 0)));
        let last = "step 2 wait 270 RRRRRRRGRRRRRRRRRRRRRRRRRRRRRRRR";
        assert_eq!(lines(&input).last().unwrap(), last);
    }

    #[test]
    fn every_cut_of_a_call() {
        for (call, _) in worked() {
            for size in 1..call.len() {
                assert_eq!(lines(&call[..size]), [CUT]);
                let behind = [&take_out(3)[..], &call[..size]].concat();
                assert_eq!(lines(&behind)[1..], [CUT]);
            }
        }
        assert!(lines(&[]).is_empty());
    }

    #[test]
    fn another_kind_ends_the_list() {
        for kind in 3..=255 {
            let input = [&[kind, 0][..], &place(0, 0)].concat();
            assert_eq!(lines(&input), [CUT]);
        }
    }

    #[test]
    fn a_refused_personality_has_a_place() {
        let mut input = place(0, 0);
        input[5 + 20] = 29;
        input.extend([0, 9, 255, 0, 0]);
        let outputs = "R".repeat(32);
        let refused = [
            format!("place 0 refused 5 20 {outputs}"),
            format!("place 9 refused 1 0 {outputs}"),
        ];
        assert_eq!(lines(&input), refused);
    }
}

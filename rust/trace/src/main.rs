//! Document 01's trace program over the model: reads its input from standard
//! input and prints the trace. The traces of the example sites come from here,
//! so that the proved program is held to an independent one.

use std::io::{self, BufWriter, Read, Write};

use model::{fresh, read, step, Interval, Refusal, State, MAX_GROUPS};

/// An hour of steps.
const MOST_STEPS: usize = 36_000;

/// The number of a length, personality or step record cut short.
const CUT: &str = "refused 16 0";

fn refused(refusal: Refusal) -> String {
    format!("refused {} {}", refusal.number as u8, refusal.place)
}

fn letter(interval: Interval) -> char {
    match interval {
        Interval::StartRed => 'S',
        Interval::LateStart => 'L',
        Interval::MinimumGreen => 'M',
        Interval::Running => 'G',
        Interval::EarlyCutOff => 'E',
        Interval::Yellow => 'Y',
        Interval::AllRed => 'R',
    }
}

fn line(step: usize, state: &State, colours: &[u8]) -> String {
    let phase = (b'A' + state.phase) as char;
    let groups: String = colours
        .iter()
        .map(|&code| ['R', 'Y', 'G', 'F'][code as usize])
        .collect();
    format!("{step} {phase} {} {groups}", letter(state.interval))
}

/// The lines of the steps after the header.
fn steps(personality: &[u8], records: &[u8]) -> Vec<String> {
    let mut lines = Vec::new();
    let mut state = fresh();
    for (i, record) in records.chunks(8).take(MOST_STEPS).enumerate() {
        let Ok(bytes) = record.try_into() else {
            lines.push(CUT.to_string());
            break;
        };
        let mut colours = [0; MAX_GROUPS];
        let answer = step(personality, &state, u64::from_le_bytes(bytes), &mut colours);
        if let Err(refusal) = answer.wait_bound {
            lines.push(refused(refusal));
            break;
        }
        state = answer.state;
        lines.push(line(i + 1, &state, &colours[..personality[5] as usize]));
    }
    lines
}

fn trace(input: &[u8]) -> Vec<String> {
    let Some((head, rest)) = input.split_at_checked(2) else {
        return vec![CUT.to_string()];
    };
    let length = u16::from_le_bytes([head[0], head[1]]) as usize;
    let Some((personality, records)) = rest.split_at_checked(length) else {
        return vec![CUT.to_string()];
    };
    if let Err(refusal) = read(personality) {
        return vec![refused(refusal)];
    }
    let mut lines = vec!["step phase interval groups".to_string()];
    lines.extend(steps(personality, records));
    lines
}

fn main() -> io::Result<()> {
    let mut input = Vec::new();
    io::stdin().read_to_end(&mut input)?;
    let mut out = BufWriter::new(io::stdout());
    for line in trace(&input) {
        writeln!(out, "{line}")?;
    }
    out.flush()
}

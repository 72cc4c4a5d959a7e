//! Inputs as the text of an input script and as the input of the trace program.

use model::FIRST_BUTTON;
use std::fmt::Write;

/// The text of an input script: a line for each input and each time that it lasts.
pub fn text(about: &[String], inputs: &[u64]) -> String {
    let mut text: String = about.iter().map(|line| format!("# {line}\n")).collect();
    writeln!(text, "steps {}", inputs.len()).unwrap();
    for bit in 0..64 {
        let mut from = None;
        for step in 1..=inputs.len() + 1 {
            let set = inputs.get(step - 1).is_some_and(|one| one >> bit & 1 != 0);
            match (from, set) {
                (None, true) => from = Some(step),
                (Some(first), false) => {
                    writeln!(text, "{} {}", steps(first, step - 1), name(bit)).unwrap();
                    from = None;
                }
                _ => {}
            }
        }
    }
    text
}

fn steps(first: usize, last: usize) -> String {
    if first == last {
        first.to_string()
    } else {
        format!("{first}..{last}")
    }
}

fn name(bit: u32) -> String {
    match bit.checked_sub(FIRST_BUTTON) {
        Some(button) => format!("button {button}"),
        None => format!("detector {bit}"),
    }
}

/// The input of the trace program: the length of the personality in two bytes, the
/// personality, and eight bytes for each step.
pub fn bytes(personality: &[u8], inputs: &[u64]) -> Vec<u8> {
    let mut bytes = (personality.len() as u16).to_le_bytes().to_vec();
    bytes.extend(personality);
    bytes.extend(inputs.iter().flat_map(|one| one.to_le_bytes()));
    bytes
}

#[cfg(test)]
mod tests {
    use super::*;

    #[test]
    fn a_script() {
        let inputs = [1, 1, 0, 1 | 1 << 49, 1 << 49];
        let expected = "# one\nsteps 5\n1..2 detector 0\n4 detector 0\n4..5 button 1\n";
        assert_eq!(text(&["one".to_string()], &inputs), expected);
        assert_eq!(text(&[], &[]), "steps 0\n");
    }

    #[test]
    fn an_input_of_the_trace_program() {
        let expected = [2, 0, 7, 9, 3, 1, 0, 0, 0, 0, 0, 0];
        assert_eq!(bytes(&[7, 9], &[0x103]), expected);
    }
}

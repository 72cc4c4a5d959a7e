//! Input scripts: what is occupied or pressed in which steps.

use crate::row::{digits, Row};
use crate::site::{Site, FIRST_BUTTON};
use crate::words::{lines_of, Line, Mistake};

/// The steps of an hour: the longest script, as in the trace program.
const MOST_STEPS: u64 = 36_000;

/// The input bits of each step.
#[derive(Clone, Debug, Default, PartialEq, Eq)]
pub struct Script {
    pub inputs: Vec<u64>,
}

/// Reads `inputs.txt`: first `steps` and their number, then rows such as
/// `40..45 button 0`.
pub fn read_inputs(text: &str, site: &Site) -> Result<Script, Vec<Mistake>> {
    let mut mistakes = Vec::new();
    let (lines, last) = lines_of(text, &mut mistakes);
    let steps = match lines.first() {
        Some(line) => first_row(line),
        None => {
            let span = crate::Span {
                line: last,
                column: 1,
                length: 1,
            };
            Err(Mistake::new(span, "no rows", "`steps` and their number"))
        }
    };
    let steps = steps.unwrap_or_else(|mistake| {
        mistakes.push(mistake);
        MOST_STEPS
    });
    let mut inputs = vec![0; steps as usize];
    for line in lines.iter().skip(1) {
        if let Err(mistake) = input_row(line, site, &mut inputs) {
            mistakes.push(mistake);
        }
    }
    if mistakes.is_empty() {
        Ok(Script { inputs })
    } else {
        Err(mistakes)
    }
}

fn first_row(line: &Line) -> Result<u64, Mistake> {
    let mut row = Row::new(line);
    row.one_of(&["steps"])?;
    let (steps, span) = row.steps("the number of steps")?;
    if steps > MOST_STEPS {
        let found = format!("{steps} steps");
        return Err(Mistake::new(span, found, format!("at most {MOST_STEPS}")));
    }
    row.ends()?;
    Ok(steps)
}

/// Sets the bit of a row in its steps.
fn input_row(line: &Line, site: &Site, inputs: &mut [u64]) -> Result<(), Mistake> {
    let mut row = Row::new(line);
    let (first, last) = steps(&mut row, inputs.len())?;
    let every = if row.take("every") {
        let (every, span) = row.whole("a number of steps", MOST_STEPS)?;
        if every == 0 {
            return Err(Mistake::new(span, "0", "at least 1 step"));
        }
        every as usize
    } else {
        1
    };
    let bit = input_bit(&mut row, site)?;
    row.ends()?;
    for step in (first..=last).step_by(every) {
        inputs[step - 1] |= 1 << bit;
    }
    Ok(())
}

/// `always`, `12` or `40..45`; steps count from 1.
fn steps(row: &mut Row, most: usize) -> Result<(usize, usize), Mistake> {
    let expected = format!("`always`, or steps from 1 to {most} such as 12 or 40..45");
    let word = row.word(&expected)?;
    if word.is("always") {
        return Ok((1, most));
    }
    let (first, last) = word
        .text
        .split_once("..")
        .unwrap_or((&word.text, &word.text));
    match (digits(first), digits(last)) {
        (Some(first), Some(last)) if 1 <= first && first <= last && last <= most as u64 => {
            Ok((first as usize, last as usize))
        }
        _ => Err(word.mistake(expected)),
    }
}

/// `detector 3`, `button 0`, or `button P1` by the name of its group.
fn input_bit(row: &mut Row, site: &Site) -> Result<usize, Mistake> {
    let button = row.one_of(&["detector", "button"])? == 1;
    let (first, count) = if button {
        (FIRST_BUTTON, site.movements.len())
    } else {
        (0, site.detectors.len())
    };
    let what = if button { "button" } else { "detector" };
    let expected = format!("a {what} of the site: it has {count}, counted from 0");
    let word = row.word(&expected)?;
    let named = |name: &str| {
        let is = |movement: &crate::Movement| site.groups[movement.group].name == name;
        site.movements.iter().position(is).filter(|_| button)
    };
    let number = digits(&word.text).map(|number| number as usize);
    let number = number
        .or_else(|| named(&word.text))
        .filter(|number| *number < count);
    Ok(first + number.ok_or_else(|| word.mistake(expected))?)
}

//! The heading `site`.

use super::{Head, Reader};
use crate::row::{listed, Row};
use crate::site::Side;
use crate::words::{Line, Mistake, Word};
use crate::Time;

const SIDES: [&str; 2] = ["left", "right"];
const ROWS: [&str; 5] = ["start red", "wait bound", "edition", "traffic", "name"];

impl Reader {
    pub(super) fn head(&mut self, lines: &[Line]) -> Head {
        let mut head = Head {
            name: None,
            side: Side::Left,
            edition: 1,
            start_red: Time::default(),
            stated_bound: None,
        };
        let mut seen: Vec<usize> = Vec::new();
        for line in lines {
            match head_row(&mut head, line) {
                Ok(row) if seen.contains(&row) => {
                    let found = format!("a second `{}`", ROWS[row]);
                    let mistake = Mistake::new(line.span(), found, "each row once");
                    self.mistakes.push(mistake);
                }
                Ok(row) => seen.push(row),
                Err((row, mistake)) => {
                    self.mistakes.push(mistake);
                    seen.extend(row);
                }
            }
        }
        if let (Some(heading), false) = (self.heading("site"), seen.contains(&0)) {
            let found = "no start red";
            let mistake = Mistake::new(heading, found, "a row `start red` and a time");
            self.mistakes.push(mistake);
        }
        head
    }
}

/// Reads one row; its place in `ROWS`, also if only the rest of it is wrong.
fn head_row(head: &mut Head, line: &Line) -> Result<usize, (Option<usize>, Mistake)> {
    let mut row = Row::new(line);
    let at = row_name(&mut row).map_err(|mistake| (None, mistake))?;
    let read = match at {
        0 => row.time("start red").map(|time| head.start_red = time),
        1 => row
            .steps("wait bound")
            .map(|bound| head.stated_bound = Some(bound)),
        2 => edition(&mut row).map(|edition| head.edition = edition),
        3 => row.one_of(&SIDES).map(|side| {
            head.side = if side == 0 { Side::Left } else { Side::Right };
        }),
        _ => name(&mut row).map(|name| head.name = Some(name.text.clone())),
    };
    let whole = read.and_then(|()| row.ends());
    whole.map(|()| at).map_err(|mistake| (Some(at), mistake))
}

/// The words before the value of a row.
fn row_name(row: &mut Row) -> Result<usize, Mistake> {
    let expected = listed(&ROWS);
    let first = row.word(&expected)?;
    for (at, name) in ROWS.iter().enumerate() {
        let (one, two) = name.split_once(' ').unwrap_or((name, ""));
        if first.is(one) && (two.is_empty() || row.take(two)) {
            return Ok(at);
        }
    }
    Err(first.mistake(expected))
}

fn edition(row: &mut Row) -> Result<u8, Mistake> {
    Ok(1 + row.one_of(&["1", "2"])? as u8)
}

fn name<'a>(row: &mut Row<'a>) -> Result<&'a Word, Mistake> {
    let word = row.word("a name in quotation marks")?;
    if word.quoted {
        Ok(word)
    } else {
        Err(word.mistake("a name in quotation marks"))
    }
}

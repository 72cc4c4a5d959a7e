//! What only the workbench reads: places, approaches and streams.

use super::{group_named, Reader};
use crate::row::{digits, listed, Row};
use crate::site::{Approach, Group, Place, Road, Stream, ARROWS};
use crate::words::{Line, Mistake, Word};

/// The compass points, clockwise from north: approaches that need not be listed.
const COMPASS: [&str; 8] = [
    "north",
    "north-east",
    "east",
    "south-east",
    "south",
    "south-west",
    "west",
    "north-west",
];

const PLACE_WORDS: [&str; 6] = ["approach", "lane", "lanes", "arrow", "metres", "length"];
const APPROACH_WORDS: [&str; 4] = ["speed", "grade", "bearing", "lanes"];

impl Reader {
    /// The rest of a row: a name in quotation marks and words of places, in any order.
    /// Without a name the comment of the row is the name.
    pub(super) fn place(
        &mut self,
        row: &mut Row,
        line: &Line,
        approaches: &mut Vec<Approach>,
    ) -> Result<Place, Mistake> {
        let mut place = Place::default();
        while let Some(word) = row.next() {
            if word.quoted {
                place.name = Some(word.text.clone());
                continue;
            }
            match word.text.as_str() {
                "approach" => place.approach = Some(approach_named(row, approaches)?),
                "lane" | "lanes" => place.lanes = Some(lanes(row)?),
                "arrow" => place.arrows = arrows(row)?,
                "metres" => place.metres = Some(row.decimal("the metres before the stop line")?),
                "length" => place.length = Some(row.decimal("the length in metres")?),
                _ => {
                    let words = listed(&PLACE_WORDS);
                    let expected =
                        format!("{words}, a name in quotation marks, or the end of the line");
                    return Err(word.mistake(expected));
                }
            }
        }
        if place.name.is_none() {
            place.name = line.comment.clone();
        }
        Ok(place)
    }

    pub(super) fn approaches(&mut self, lines: &[Line]) -> Vec<Approach> {
        let mut approaches: Vec<Approach> = Vec::new();
        for line in lines {
            let mut approach = approach(&line.words[0]);
            let mut row = Row::new(line);
            let read = approach_row(&mut row, &mut approach);
            self.keep(read, ());
            if approaches.iter().any(|other| other.name == approach.name) {
                let mistake = line.words[0].mistake("a name that no other approach has");
                self.mistakes.push(mistake);
            }
            approaches.push(approach);
        }
        approaches
    }
}

/// An approach of which only the name is known.
fn approach(word: &Word) -> Approach {
    let point = COMPASS.iter().position(|point| word.is(point));
    Approach {
        name: word.text.clone(),
        speed: None,
        grade: 0,
        bearing: point.map(|point| 45 * point as u32),
        lanes: None,
        span: word.span,
    }
}

fn approach_row(row: &mut Row, approach: &mut Approach) -> Result<(), Mistake> {
    row.word("the name of an approach")?;
    while row.peek().is_some() {
        match row.one_of(&APPROACH_WORDS)? {
            0 => approach.speed = Some(row.whole("the speed in km/h", 999)?.0 as u32),
            1 => approach.grade = row.signed("the grade in percent")?,
            2 => approach.bearing = Some(row.whole("the bearing in degrees", 359)?.0 as u32),
            _ => approach.lanes = Some(row.whole("the number of lanes", 9)?.0 as u8),
        }
    }
    Ok(())
}

/// An approach of the list, or a compass point, which joins the list.
fn approach_named(row: &mut Row, approaches: &mut Vec<Approach>) -> Result<usize, Mistake> {
    let word = row.word("the name of an approach")?;
    if let Some(at) = approaches.iter().position(|one| one.name == word.text) {
        return Ok(at);
    }
    if !COMPASS.contains(&word.text.as_str()) {
        return Err(word.mistake("a compass point, or a name below `approaches`"));
    }
    approaches.push(approach(word));
    Ok(approaches.len() - 1)
}

/// `2`, or `1..3`.
fn lanes(row: &mut Row) -> Result<(u8, u8), Mistake> {
    let expected = "a lane from 1 at the kerb, such as 2, or several, such as 1..3";
    let word = row.word(expected)?;
    let (first, last) = word
        .text
        .split_once("..")
        .unwrap_or((&word.text, &word.text));
    match (digits(first), digits(last)) {
        (Some(first), Some(last)) if 1 <= first && first <= last && last <= 9 => {
            Ok((first as u8, last as u8))
        }
        _ => Err(word.mistake(expected)),
    }
}

/// `left`, or several such as `left,straight`.
fn arrows(row: &mut Row) -> Result<Vec<usize>, Mistake> {
    let expected = format!("{}, or several with commas between", listed(&ARROWS));
    let word = row.word(&expected)?;
    let one = |arrow: &str| ARROWS.iter().position(|known| *known == arrow);
    let arrows: Option<Vec<usize>> = word.text.split(',').map(one).collect();
    arrows.ok_or_else(|| word.mistake(expected))
}

/// The rows of a road: `steps` and their number, and streams.
pub fn road(lines: &[Line], groups: &[Group], mistakes: &mut Vec<Mistake>) -> Road {
    let mut road = Road::default();
    for line in lines {
        let mut row = Row::new(line);
        let read = if row.take("steps") {
            let steps = row.steps("the number of steps").and_then(|(steps, span)| {
                let found = format!("{steps} steps");
                u32::try_from(steps).map_err(|_| Mistake::new(span, found, "fewer steps"))
            });
            steps.map(|steps| road.steps = Some(steps))
        } else {
            stream(&mut row, line, groups).map(|stream| road.streams.push(stream))
        };
        if let Err(mistake) = read.and_then(|()| row.ends()) {
            mistakes.push(mistake);
        }
    }
    road
}

/// `detector 4 group V3 rate 400`.
fn stream(row: &mut Row, line: &Line, groups: &[Group]) -> Result<Stream, Mistake> {
    let word = row.word("`detector` or `steps`")?;
    if !word.is("detector") {
        return Err(word.mistake("`detector` or `steps`"));
    }
    let (detector, _) = row.whole("a detector", 255)?;
    row.one_of(&["group"])?;
    let name = row.word("the name of a group")?;
    let group =
        group_named(groups, &name.text).ok_or_else(|| name.mistake("the name of a group"))?;
    row.one_of(&["rate"])?;
    let (rate, _) = row.whole("the vehicles per hour", 65_535)?;
    Ok(Stream {
        detector: detector as u8,
        group: group.min(255) as u8,
        rate: rate as u16,
        span: line.span(),
    })
}

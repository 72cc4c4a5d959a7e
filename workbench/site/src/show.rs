//! The bytes of a personality as a text. Bytes have no names: groups are V1, V2 .. and
//! P1, P2 .. in their order.

use crate::site::{letter, letters, CALLS, EXTENDS, MARKS, PEDESTRIAN};
use std::fmt::Write;

/// Bytes that no text has: the place of the first one, and why.
#[derive(Clone, Debug, PartialEq, Eq)]
pub struct NotShown {
    pub place: usize,
    pub why: String,
}

impl std::fmt::Display for NotShown {
    fn fmt(&self, f: &mut std::fmt::Formatter<'_>) -> std::fmt::Result {
        write!(f, "byte {}: {}", self.place, self.why)
    }
}

/// A text that is read and built to the same bytes. Also of bytes that the library
/// refuses, if they are whole sections whose values have words.
pub fn show(bytes: &[u8]) -> Result<String, NotShown> {
    let mut sections = Sections { bytes, at: 0 };
    let mut shower = Shower {
        text: String::new(),
        phases: 0,
        names: Vec::new(),
    };
    let (kind, head) = sections.next(&[1, 8])?;
    shower.head(kind, &head)?;
    let (_, phases) = sections.next(&[2])?;
    shower.phases(&phases)?;
    let (_, groups) = sections.next(&[3])?;
    shower.groups(&groups)?;
    let (_, conflicts) = sections.next(&[4])?;
    shower.conflicts(&conflicts)?;
    let (_, detectors) = sections.next(&[5])?;
    shower.detectors(&detectors)?;
    let (_, movements) = sections.next(&[6])?;
    shower.movements(&movements)?;
    if sections.next_is(7) {
        let (_, early) = sections.next(&[7])?;
        shower.early(&early)?;
    }
    if sections.next_is(9) {
        let (_, order) = sections.next(&[9])?;
        shower.order(&order)?;
    }
    match sections.at {
        at if at == bytes.len() => Ok(shower.text),
        at => Err(not_shown(at, "bytes follow the last section")),
    }
}

fn not_shown(place: usize, why: impl Into<String>) -> NotShown {
    NotShown {
        place,
        why: why.into(),
    }
}

/// The sections that are not read yet.
struct Sections<'a> {
    bytes: &'a [u8],
    at: usize,
}

/// The body of a section, and the place of its first byte.
struct Body<'a> {
    bytes: &'a [u8],
    at: usize,
}

impl<'a> Sections<'a> {
    fn next_is(&self, kind: u8) -> bool {
        self.bytes.get(self.at + 2..self.at + 4) == Some(&[kind, 0])
    }

    fn next(&mut self, kinds: &[u8]) -> Result<(u8, Body<'a>), NotShown> {
        let found = kinds.iter().copied().find(|kind| self.next_is(*kind));
        let kind = found.ok_or_else(|| not_shown(self.at, "another section is expected here"))?;
        let length = two(&self.bytes[self.at..]);
        let body = self.bytes.get(self.at + 4..self.at + 4 + length);
        let bytes = body.ok_or_else(|| not_shown(self.at, "the section ends before its end"))?;
        let at = self.at + 4;
        self.at += 4 + length;
        Ok((kind, Body { bytes, at }))
    }
}

impl<'a> Body<'a> {
    /// The records of a size, each with its place. The section has so many.
    fn records(&self, size: usize, count: usize) -> Result<Vec<(usize, &'a [u8])>, NotShown> {
        if self.bytes.len() != size * count {
            return Err(not_shown(self.at - 4, "the length does not fit the counts"));
        }
        let places = (0..count).map(|record| self.at + record * size);
        Ok(places.zip(self.bytes.chunks(size)).collect())
    }
}

fn two(bytes: &[u8]) -> usize {
    usize::from(bytes[0]) | usize::from(bytes[1]) << 8
}

/// The numbers of two bytes of a record, each behind a space.
fn times(record: &[u8]) -> String {
    let times = record.chunks(2).map(|time| format!(" {:>4}", two(time)));
    times.collect()
}

struct Shower {
    text: String,
    phases: usize,
    /// The names of the groups.
    names: Vec<String>,
}

impl Shower {
    fn line(&mut self, line: impl AsRef<str>) {
        // Writing to a string does not fail.
        let _ = writeln!(self.text, "{}", line.as_ref().trim_end());
    }

    fn head(&mut self, kind: u8, body: &Body) -> Result<(), NotShown> {
        let records = body.records(4, 1)?;
        let head = records[0].1;
        self.phases = usize::from(head[0]);
        self.names = vec![String::new(); usize::from(head[1])];
        self.line("# Every time is in steps of 0.1 s.");
        self.line("");
        self.line("site");
        if kind == 8 {
            self.line("edition      2");
        }
        self.line(format!("start red {:>4}", two(&head[2..])));
        Ok(())
    }

    fn phases(&mut self, body: &Body) -> Result<(), NotShown> {
        self.line("\nphases\n#    L    M    X    G    Y    R");
        for (phase, (at, record)) in body.records(12, self.phases)?.into_iter().enumerate() {
            let letter = lettered(phase, at)?;
            self.line(format!("{letter}{}", times(record)));
        }
        Ok(())
    }

    fn groups(&mut self, body: &Body) -> Result<(), NotShown> {
        self.line("\ngroups\n# name  phases   mark");
        let mut counts = [0; 2];
        for (group, (at, record)) in body.records(2, self.names.len())?.into_iter().enumerate() {
            let mark = MARKS.get(usize::from(record[1]));
            let mark = mark.ok_or_else(|| not_shown(at + 1, "no word for this mark"))?;
            let walks = record[1] == PEDESTRIAN;
            let count = &mut counts[usize::from(walks)];
            *count += 1;
            self.names[group] = format!("{}{count}", if walks { 'P' } else { 'V' });
            let row = format!("{:<8}{:<9}{mark}", self.names[group], letters(record[0]));
            self.line(row);
        }
        Ok(())
    }

    fn conflicts(&mut self, body: &Body) -> Result<(), NotShown> {
        self.line("\nconflicts");
        for (group, (at, record)) in body.records(4, self.names.len())?.into_iter().enumerate() {
            let bits = two(record) | two(&record[2..]) << 16;
            let mut row = format!("{:<4}", format!("{}:", self.names[group]));
            for other in (0..32).filter(|other| bits >> other & 1 != 0) {
                let name = self.names.get(other);
                let name = name.ok_or_else(|| not_shown(at, "a conflict with no group"))?;
                row.push(' ');
                row.push_str(name);
            }
            self.line(row);
        }
        Ok(())
    }

    fn detectors(&mut self, body: &Body) -> Result<(), NotShown> {
        self.line("\ndetectors\n# no. phase  mode");
        let count = body.bytes.len() / 2;
        for (detector, (at, record)) in body.records(2, count)?.into_iter().enumerate() {
            let letter = lettered(usize::from(record[0]), at)?;
            let call = CALLS.get(usize::from(record[1] & !EXTENDS));
            let call = call.ok_or_else(|| not_shown(at + 1, "no word for this mode"))?;
            let extends = if record[1] & EXTENDS != 0 {
                " extending"
            } else {
                ""
            };
            self.line(format!("{detector:<6}{letter:<7}{call}{extends}"));
        }
        Ok(())
    }

    fn movements(&mut self, body: &Body) -> Result<(), NotShown> {
        let walking = self.names.iter().filter(|name| name.starts_with('P'));
        let walking: Vec<String> = walking.cloned().collect();
        self.line("\npedestrians");
        if !walking.is_empty() {
            self.line("# name  W   C1   C2");
        }
        for (name, (_, record)) in walking.iter().zip(body.records(6, walking.len())?) {
            self.line(format!("{name:<4}{}", times(record)));
        }
        Ok(())
    }

    fn early(&mut self, body: &Body) -> Result<(), NotShown> {
        self.line("\nearly-cut-off");
        for (phase, (at, record)) in body.records(2, self.phases)?.into_iter().enumerate() {
            let letter = lettered(phase, at)?;
            self.line(format!("{letter}{}", times(record)));
        }
        Ok(())
    }

    fn order(&mut self, body: &Body) -> Result<(), NotShown> {
        let mut row = Vec::new();
        for (at, record) in body.records(1, body.bytes.len())? {
            row.push(lettered(usize::from(record[0]), at)?.to_string());
        }
        self.line("\norder");
        self.line(row.join(" "));
        Ok(())
    }
}

/// The letter of a phase; the alphabet has 26.
fn lettered(phase: usize, place: usize) -> Result<char, NotShown> {
    if phase < 26 {
        Ok(letter(phase))
    } else {
        Err(not_shown(place, format!("no letter for phase {phase}")))
    }
}

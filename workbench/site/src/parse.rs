//! A text to a site. Every mistake of the text is collected; a row with a mistake still
//! counts, so that it causes no mistakes in other rows.

mod conflicts;
mod extras;
mod head;
mod rows;

use crate::site::{Group, Road, Side, Site, HEADINGS, NEEDED};
use crate::words::{lines_of, Line, Mistake, Span};
use crate::Time;

/// The site of a text, or all its mistakes in the order of the text.
pub fn read(text: &str) -> Result<Site, Vec<Mistake>> {
    let mut reader = Reader::new(text);
    let site = reader.site();
    let mut mistakes = reader.mistakes;
    if mistakes.is_empty() {
        return Ok(site);
    }
    mistakes.sort_by_key(|mistake| (mistake.span.line, mistake.span.column));
    Err(mistakes)
}

/// A road text: steps and streams of a site.
pub fn read_road(text: &str, site: &Site) -> Result<Road, Vec<Mistake>> {
    let mut mistakes = Vec::new();
    let (lines, _) = lines_of(text, &mut mistakes);
    let road = extras::road(&lines, &site.groups, &mut mistakes);
    if mistakes.is_empty() {
        Ok(road)
    } else {
        Err(mistakes)
    }
}

/// The lines of each heading, and the mistakes so far.
struct Reader {
    sections: Vec<Vec<Line>>,
    headings: [Option<Span>; 10],
    mistakes: Vec<Mistake>,
    /// A row of a group has a mistake, so that its mark is not known.
    groups_unsure: bool,
}

impl Reader {
    fn new(text: &str) -> Reader {
        let mut reader = Reader {
            sections: vec![Vec::new(); HEADINGS.len()],
            headings: [None; 10],
            mistakes: Vec::new(),
            groups_unsure: false,
        };
        let (lines, last) = lines_of(text, &mut reader.mistakes);
        reader.sort(lines);
        reader.all_needed(last);
        reader
    }

    /// Puts each line below its heading. The headings come in their order, each once.
    fn sort(&mut self, lines: Vec<Line>) {
        let mut current: Option<usize> = None;
        let mut last: Option<usize> = None;
        for line in lines {
            let first = &line.words[0];
            let heading = HEADINGS.iter().position(|heading| first.is(heading));
            match (heading.filter(|_| line.words.len() == 1), current) {
                (Some(heading), _) => {
                    if last >= Some(heading) {
                        let order = HEADINGS.join(", ");
                        let expected = format!("the headings in the order {order}, each once");
                        self.mistakes.push(first.mistake(expected));
                    }
                    self.headings[heading] = Some(first.span);
                    last = last.max(Some(heading));
                    current = Some(heading);
                }
                (None, Some(current)) => self.sections[current].push(line),
                (None, None) => {
                    let expected = "the heading `site` before the first row";
                    self.mistakes.push(first.mistake(expected));
                }
            }
        }
    }

    fn all_needed(&mut self, last: usize) {
        for (at, heading) in HEADINGS.iter().enumerate().take(NEEDED) {
            if self.headings[at].is_none() {
                let later = self.headings[at..].iter().flatten().next();
                let end = Span {
                    line: last,
                    column: 1,
                    length: 1,
                };
                let span = later.copied().unwrap_or(end);
                let found = if later.is_some() {
                    "a later heading"
                } else {
                    "the end of the text"
                };
                self.mistakes.push(Mistake::new(
                    span,
                    found,
                    format!("the heading `{heading}`"),
                ));
            }
        }
    }

    /// The lines of a heading.
    fn lines(&mut self, heading: &str) -> Vec<Line> {
        let at = HEADINGS.iter().position(|one| *one == heading);
        at.map_or(Vec::new(), |at| std::mem::take(&mut self.sections[at]))
    }

    /// The place of a heading.
    fn heading(&self, heading: &str) -> Option<Span> {
        let at = HEADINGS.iter().position(|one| *one == heading);
        at.and_then(|at| self.headings[at])
    }

    /// What is read, or a value in its place and the mistake in the list.
    fn keep<T>(&mut self, read: Result<T, Mistake>, otherwise: T) -> T {
        read.unwrap_or_else(|mistake| {
            self.mistakes.push(mistake);
            otherwise
        })
    }

    fn site(&mut self) -> Site {
        let lines = self.lines("site");
        let head = self.head(&lines);
        let lines = self.lines("approaches");
        let mut approaches = self.approaches(&lines);
        let lines = self.lines("phases");
        let phases = self.phases(&lines);
        let lines = self.lines("groups");
        let mut groups = self.groups(&lines, &mut approaches);
        let lines = self.lines("conflicts");
        self.conflicts(&lines, &mut groups);
        let lines = self.lines("detectors");
        let detectors = self.detectors(&lines, &mut approaches);
        let lines = self.lines("pedestrians");
        let movements = self.movements(&lines, &groups, &mut approaches);
        let lines = self.lines("early-cut-off");
        let early = self.early(&lines, phases.len());
        let lines = self.lines("order");
        let order = self.order(&lines);
        let lines = self.lines("streams");
        let road = extras::road(&lines, &groups, &mut self.mistakes);
        Site {
            name: head.name,
            side: head.side,
            edition: head.edition,
            start_red: head.start_red,
            stated_bound: head.stated_bound,
            phases,
            groups,
            detectors,
            movements,
            early,
            order,
            approaches,
            road,
            headings: self.headings,
        }
    }
}

/// What the heading `site` has.
struct Head {
    name: Option<String>,
    side: Side,
    edition: u8,
    start_red: Time,
    stated_bound: Option<(u64, Span)>,
}

/// The group of a name.
fn group_named(groups: &[Group], name: &str) -> Option<usize> {
    groups.iter().position(|group| group.name == name)
}

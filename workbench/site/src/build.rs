//! A site to the bytes of a personality (docs/RULES.md, R2), each with its place in the
//! text.

use crate::row::Time;
use crate::site::Site;
use crate::words::Span;

/// The bytes of a personality, and for each of them the place that made it. The head of
/// a section is made by its heading.
#[derive(Clone, Debug, Default, PartialEq, Eq)]
pub struct Built {
    pub bytes: Vec<u8>,
    pub spans: Vec<Span>,
}

impl Built {
    fn put(&mut self, bytes: &[u8], span: Span) {
        self.bytes.extend_from_slice(bytes);
        self.spans.resize(self.bytes.len(), span);
    }

    fn time(&mut self, time: Time) {
        self.put(&time.steps.to_le_bytes(), time.span);
    }

    fn section(&mut self, kind: u16, heading: Span, body: Built) {
        self.put(&(body.bytes.len() as u16).to_le_bytes(), heading);
        self.put(&kind.to_le_bytes(), heading);
        self.bytes.extend(body.bytes);
        self.spans.extend(body.spans);
    }

    /// The place that made a byte; that of the last byte if there is no such byte.
    pub fn span(&self, place: usize) -> Span {
        let span = self.spans.get(place).or_else(|| self.spans.last());
        span.copied().unwrap_or_default()
    }
}

/// The kind of the site section, by edition.
fn site_kind(edition: u8) -> u16 {
    if edition == 2 {
        8
    } else {
        1
    }
}

/// A body that something writes.
fn body(write: impl FnOnce(&mut Built)) -> Built {
    let mut built = Built::default();
    write(&mut built);
    built
}

impl Site {
    /// The bytes of the personality.
    pub fn build(&self) -> Built {
        let mut built = Built::default();
        let mut section = |kind, name, body| built.section(kind, self.heading(name), body);
        section(site_kind(self.edition), "site", self.head_body());
        let phases = |body: &mut Built| {
            let times = self.phases.iter().flat_map(|phase| phase.times);
            times.for_each(|time| body.time(time));
        };
        section(2, "phases", body(phases));
        section(3, "groups", self.groups_body());
        section(4, "conflicts", self.conflicts_body());
        section(5, "detectors", self.detectors_body());
        let movements = |body: &mut Built| {
            let times = self.movements.iter().flat_map(|movement| movement.times);
            times.for_each(|time| body.time(time));
        };
        section(6, "pedestrians", body(movements));
        if let Some(early) = &self.early {
            let times = |body: &mut Built| early.iter().for_each(|time| body.time(*time));
            section(7, "early-cut-off", body(times));
        }
        if let Some(order) = &self.order {
            let phases = |body: &mut Built| {
                order
                    .iter()
                    .for_each(|(phase, span)| body.put(&[*phase], *span))
            };
            section(9, "order", body(phases));
        }
        built
    }

    fn head_body(&self) -> Built {
        body(|body| {
            body.put(&[self.phases.len() as u8], self.heading("phases"));
            body.put(&[self.groups.len() as u8], self.heading("groups"));
            body.time(self.start_red);
        })
    }

    fn groups_body(&self) -> Built {
        body(|body| {
            for group in &self.groups {
                body.put(&[group.phases], group.phases_span);
                body.put(&[group.mark], group.mark_span);
            }
        })
    }

    fn conflicts_body(&self) -> Built {
        body(|body| {
            for group in &self.groups {
                let bits = group.conflicts.iter();
                let row = bits.fold(0_u32, |row, (other, _)| row | 1 << other);
                body.put(&row.to_le_bytes(), group.row);
            }
        })
    }

    fn detectors_body(&self) -> Built {
        body(|body| {
            for detector in &self.detectors {
                body.put(&[detector.phase], detector.phase_span);
                body.put(&[detector.mode], detector.mode_span);
            }
        })
    }
}

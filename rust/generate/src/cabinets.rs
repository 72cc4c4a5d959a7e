//! Random cabinets: rows of records of any content, and calls on them.

use crate::damage::{scrambled, twice_damaged};
use crate::inputs::{any_inputs, known_inputs};
use crate::plan::Plan;
use crate::retimes::any_second;
use crate::rng::Rng;
use crate::states::{broken_state_bytes, Breakage};
use crate::timed::{broken_times, invalid_timed_state, valid_timed_state, TimesBreakage};
use model::packed::Board;
use model::{
    parts_in, Number, Record, RecordBytes, Site, TimedState, OUTPUTS, RECORDS, ROOM, STATE_LEN,
};

/// A call on a cabinet.
#[derive(Clone, Debug, PartialEq, Eq)]
pub enum CabinetCall {
    Place {
        record: usize,
        personality: Vec<u8>,
        first: usize,
    },
    Step {
        record: usize,
        inputs: u64,
    },
    TakeOut {
        record: usize,
    },
    /// A retiming of the site of a record: the call of a site alone, on the
    /// personality and the state where they lie in the row.
    Retime {
        record: usize,
        new_personality: Vec<u8>,
    },
}

/// The ways in which a record can be other than a placing and steps leave it.
#[derive(Clone, Copy, Debug, PartialEq, Eq)]
pub enum Twist {
    /// Free, with everything else still there.
    Freed,
    /// Held by a number other than 1.
    HeldByAny,
    /// A personality that is refused.
    Refused,
    /// A length above the room.
    LengthAbove,
    /// A length that cuts the personality or has bytes behind it.
    LengthBeside,
    /// Bytes behind the personality in the room.
    BytesBehind,
    /// A first output from which some are past the last.
    PastTheLast,
    /// Any first output.
    FirstAnywhere,
    /// A state that is not valid.
    InvalidState,
    /// A state whose times do not fit the site.
    InvalidTimes,
    /// Bytes that are no state.
    NoState,
    /// Any bytes at all.
    Noise,
}

impl Twist {
    pub const ALL: [Twist; 12] = [
        Twist::Freed,
        Twist::HeldByAny,
        Twist::Refused,
        Twist::LengthAbove,
        Twist::LengthBeside,
        Twist::BytesBehind,
        Twist::PastTheLast,
        Twist::FirstAnywhere,
        Twist::InvalidState,
        Twist::InvalidTimes,
        Twist::NoState,
        Twist::Noise,
    ];
}

/// The site that a record holds; none if it is free or its personality would be
/// refused.
fn site_of(record: &Record) -> Option<Site<'_>> {
    let site = Site::read(record.personality()).ok();
    site.filter(|_| !record.is_free())
}

/// A personality whose site leaves room for others, or not.
fn any_site(rng: &mut Rng) -> Vec<u8> {
    let most = rng.pick(&[1, 3, 8, 8, 8, 16, 32]);
    Plan::small(rng, most).bytes()
}

/// A record that holds a site in a valid state, with all its outputs.
pub fn held_record(rng: &mut Rng) -> Record {
    let personality = any_site(rng);
    let site = Site::read(&personality).expect("an accepted plan");
    let free = OUTPUTS - site.group_count();
    let anywhere = rng.range(0, free);
    let mut record = Record {
        held: 1,
        first: rng.pick(&[0, free, anywhere, anywhere]) as u8,
        state: valid_timed_state(rng, &personality, &site).to_bytes(),
        ..Record::FREE
    };
    hold(&mut record, &personality);
    record
}

/// Puts a personality into a record, as much of it as has room.
fn hold(record: &mut Record, personality: &[u8]) {
    let length = personality.len().min(ROOM);
    record.length = length as u16;
    record.room = [0; ROOM];
    record.room[..length].copy_from_slice(&personality[..length]);
}

/// Twists a record. None, and nothing is changed, if it has nothing to twist so.
pub fn twist(rng: &mut Rng, record: &mut Record, twist: Twist) -> Option<()> {
    match twist {
        Twist::Freed => record.held = 0,
        Twist::HeldByAny => {
            let any = rng.range(2, 255) as u8;
            record.held = rng.pick(&[2, 128, 255, any]);
        }
        Twist::Refused => {
            let refused = if rng.percent(70) {
                twice_damaged(rng)
            } else {
                scrambled(rng)
            };
            hold(record, &refused);
        }
        Twist::LengthAbove => {
            if rng.percent(50) {
                let personality = Plan::largest().bytes();
                let site = Site::read(&personality).expect("an accepted plan");
                hold(record, &personality);
                record.first = rng.pick(&[0, 0, 1]);
                record.state = TimedState::fresh(&site).to_bytes();
            }
            let far = rng.range(ROOM + 1, usize::from(u16::MAX)) as u16;
            let wrapped = record.length.saturating_add(1 << 9);
            record.length = rng.pick(&[ROOM as u16 + 1, wrapped, u16::MAX, far]);
        }
        Twist::LengthBeside => {
            let below = rng.below(usize::from(record.length) + 1) as u16;
            let length = record.length;
            record.length =
                rng.pick(&[0, below, length.saturating_sub(1), length.saturating_add(1)]);
        }
        Twist::BytesBehind => {
            let behind = &mut record.room[usize::from(record.length).min(ROOM)..];
            behind.copy_from_slice(&rng.bytes(behind.len()));
        }
        Twist::PastTheLast => {
            let groups = site_of(record)?.group_count();
            let first = OUTPUTS + 1 - rng.range(1, groups);
            let any = rng.range(first, 255);
            record.first = rng.pick(&[OUTPUTS + 1 - groups, first, any, 255]) as u8;
        }
        Twist::FirstAnywhere => record.first = rng.byte(),
        Twist::InvalidState => {
            let site = site_of(record)?;
            let breakage = rng.pick(&Breakage::ALL);
            let invalid = invalid_timed_state(rng, record.personality(), &site, breakage)?;
            record.state = invalid.to_bytes();
        }
        Twist::InvalidTimes => {
            let site = site_of(record)?;
            let breakage = rng.pick(&TimesBreakage::ALL);
            let broken = broken_times(rng, record.personality(), &site, breakage)?;
            record.state.copy_from_slice(&broken);
        }
        Twist::NoState => {
            let broken = match site_of(record) {
                Some(site) if rng.percent(70) => broken_state_bytes(rng, &site),
                _ => rng.bytes(STATE_LEN),
            };
            record.state.copy_from_slice(&broken);
        }
        Twist::Noise => {
            record.held = rng.byte();
            record.first = rng.byte();
            record.length = rng.draw() as u16;
            record.room.copy_from_slice(&rng.bytes(ROOM));
            record.state.copy_from_slice(&rng.bytes(STATE_LEN));
        }
    }
    Some(())
}

/// A row of any content: free records, sites as placed and stepped, which may
/// share outputs, and records twisted in some ways.
pub fn any_records(rng: &mut Rng) -> [Record; RECORDS] {
    std::array::from_fn(|_| {
        if rng.percent(20) {
            return Record::FREE;
        }
        let mut record = held_record(rng);
        for _ in 0..rng.pick(&[0, 0, 1, 1, 2]) {
            let chosen = rng.pick(&Twist::ALL);
            // A record that has nothing to twist so stays as it is.
            let _ = twist(rng, &mut record, chosen);
        }
        record
    })
}

impl CabinetCall {
    pub fn record(&self) -> usize {
        match *self {
            CabinetCall::Place { record, .. }
            | CabinetCall::Step { record, .. }
            | CabinetCall::TakeOut { record }
            | CabinetCall::Retime { record, .. } => record,
        }
    }

    /// The personality of a placing, the new one of a retiming; other calls have
    /// none.
    pub fn personality(&self) -> &[u8] {
        match self {
            CabinetCall::Place { personality, .. } => personality,
            CabinetCall::Retime {
                new_personality, ..
            } => new_personality,
            _ => &[],
        }
    }

    /// Makes the call on a board. The personality is that of the call, where it
    /// lies in memory. A retiming of a record that the row does not have is no call;
    /// 24 stands for it.
    pub fn make(
        &self,
        board: &dyn Board,
        row: &mut [RecordBytes],
        personality: &[u8],
        outputs: &mut [u8],
    ) -> u64 {
        match *self {
            CabinetCall::Place { record, first, .. } => {
                board.cabinet_place(row, record, personality, first, outputs)
            }
            CabinetCall::Step { record, inputs } => {
                board.cabinet_step(row, record, inputs, outputs)
            }
            CabinetCall::TakeOut { record } => board.cabinet_take_out(row, record, outputs),
            CabinetCall::Retime { record, .. } => match parts_in(row, record) {
                Some((own, state)) => board.retime(own, state, personality),
                None => Number::WrongRecord as u64,
            },
        }
    }

    /// A call that most often finds what it is about in the row, a retiming among
    /// others.
    pub fn random(rng: &mut Rng, records: &[Record; RECORDS]) -> CabinetCall {
        match rng.percent(15) {
            true => CabinetCall::random_retiming(rng, records),
            false => CabinetCall::random_of_cabinet(rng, records),
        }
    }

    /// The same without retimings.
    pub fn random_of_cabinet(rng: &mut Rng, records: &[Record; RECORDS]) -> CabinetCall {
        match rng.below(20) {
            0..=4 => CabinetCall::random_place(rng, records),
            5..=17 => {
                let record = random_record(rng, records, |record| !record.is_free());
                let inputs = match records.get(record).and_then(site_of) {
                    Some(site) if rng.percent(80) => known_inputs(rng, &site),
                    Some(site) => any_inputs(rng, &site),
                    None => rng.draw() & rng.draw(),
                };
                CabinetCall::Step { record, inputs }
            }
            _ => CabinetCall::TakeOut {
                record: random_record(rng, records, |record| !record.is_free()),
            },
        }
    }

    /// A retiming of a record, most often of one that holds a site. Some are refused.
    fn random_retiming(rng: &mut Rng, records: &[Record; RECORDS]) -> CabinetCall {
        let record = random_record(rng, records, |record| site_of(record).is_some());
        // A record that the cabinet lacks has nothing to retime.
        let record = record.min(RECORDS - 1);
        let own = match site_of(&records[record]) {
            Some(_) => records[record].personality().to_vec(),
            None => any_site(rng),
        };
        CabinetCall::Retime {
            record,
            new_personality: any_second(rng, &own),
        }
    }

    /// A placing, some of a refused personality.
    fn random_place(rng: &mut Rng, records: &[Record]) -> CabinetCall {
        let personality = match rng.below(20) {
            0 => twice_damaged(rng),
            1 => scrambled(rng),
            2 => Plan::largest().bytes(),
            _ => any_site(rng),
        };
        let groups = Site::read(&personality).map_or(2, |site| site.group_count());
        CabinetCall::Place {
            record: random_record(rng, records, Record::is_free),
            first: random_first(rng, records, groups),
            personality,
        }
    }
}

/// A record: often one that fits, else any, or one that the cabinet lacks.
fn random_record(rng: &mut Rng, records: &[Record], fits: impl Fn(&Record) -> bool) -> usize {
    let fitting: Vec<usize> = (0..records.len())
        .filter(|&record| fits(&records[record]))
        .collect();
    if rng.percent(85) && !fitting.is_empty() {
        return rng.pick(&fitting);
    }
    match rng.below(8) {
        0 => RECORDS,
        1 => rng.pick(&[5, 255, 256, 1 << 32, usize::MAX]),
        _ => rng.below(RECORDS),
    }
}

/// A first output for so many groups: among those that nobody takes, beside or
/// among those of another, at the last one that fits, or past it.
fn random_first(rng: &mut Rng, records: &[Record], groups: usize) -> usize {
    let ranges: Vec<_> = records.iter().filter_map(Record::taken).collect();
    let free = |first: &usize| {
        let end = first + groups;
        let shares = |range: &std::ops::Range<usize>| range.start < end && *first < range.end;
        end <= OUTPUTS && !ranges.iter().any(shares)
    };
    let free: Vec<usize> = (0..OUTPUTS).filter(free).collect();
    if rng.percent(60) && !free.is_empty() {
        return rng.pick(&free);
    }
    let last = OUTPUTS - groups;
    let any = rng.below(OUTPUTS);
    let far = rng.pick(&[OUTPUTS, 255, 256, 1 << 32, usize::MAX, usize::MAX - 1]);
    let wrapped = groups.wrapping_neg();
    let beside = match ranges.is_empty() {
        true => last,
        false => {
            let range = &ranges[rng.below(ranges.len())];
            let before = range.start.saturating_sub(groups);
            rng.pick(&[before, before + 1, range.end - 1, range.end])
        }
    };
    rng.pick(&[
        any,
        any,
        last,
        last + 1,
        beside,
        beside,
        beside,
        far,
        wrapped,
    ])
}

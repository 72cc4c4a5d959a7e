//! Reading a personality: every check, in the order of the paper.

use crate::bits::{set_bits, transpose, transpose8};
use crate::limits::{Edition, Limits, Setting};
use crate::refusal::{Number, Refusal, Verdict};
use crate::site::{Groups, Mark, Records, Site};
use crate::{MAX_DETECTORS, MAX_GROUPS, MAX_MOVEMENTS};

const HEAD: usize = 4;

/// Accepts or refuses a personality.
pub fn read(personality: &[u8]) -> Verdict {
    Site::read(personality).map(|_| ())
}

impl<'a> Site<'a> {
    /// The site of a personality, or why it is refused.
    #[inline]
    pub fn read(personality: &'a [u8]) -> Result<Site<'a>, Refusal> {
        let mut sections = Sections {
            bytes: personality,
            at: 0,
        };
        let edition = sections.edition();
        let site = sections.take(edition.site_kind(), |length| length == 4)?;
        let (phase_count, group_count, start_red) = read_counts(&site, edition)?;

        let phases = sections.take(2, |length| length == 12 * phase_count)?;
        check_times(&phases, &PHASE_LIMITS[edition as usize])?;

        let group_section = sections.take(3, |length| length == 2 * group_count)?;
        let groups = read_groups(&group_section, phase_count)?;

        let conflicts = sections.take(4, |length| length == 4 * group_count)?;
        check_conflicts(&conflicts, group_section.records(), &groups)?;

        let detectors =
            sections.take(5, |length| length % 2 == 0 && length <= 2 * MAX_DETECTORS)?;
        check_detectors(&detectors, phase_count)?;

        let movements = sections.take(6, |length| length == 6 * groups.movement_count)?;
        check_times(&movements, &MOVEMENT_LIMITS[edition as usize])?;

        let early_cut_offs = sections.take_optional(7, |length| length == 2 * phase_count)?;
        if let Some(section) = &early_cut_offs {
            check_times(section, &EARLY_LIMITS[edition as usize])?;
        }

        let order = sections.take_optional(9, |length| length == phase_count)?;
        if let Some(section) = &order {
            check_order(section)?;
        }

        if !every_phase_called(&detectors, &groups, phase_count) {
            return Err(Refusal::at(Number::UncalledPhase, detectors.head));
        }
        if early_cut_offs.is_none() && groups.early != 0 {
            let first = groups.early.trailing_zeros() as usize;
            return Err(group_section.refuse(Number::EarlyWithoutTimes, 2 * first));
        }
        if sections.at < personality.len() {
            return Err(Refusal::at(Number::LeftOver, sections.at));
        }
        let records = Records {
            edition,
            start_red,
            phases: phases.records(),
            groups: group_section.records(),
            conflicts: conflicts.records(),
            detectors: detectors.records(),
            movements: movements.records(),
            early_cut_offs: early_cut_offs.map(|section| section.records()),
            order: order.map(|section| section.body),
        };
        Ok(Site { records, groups })
    }
}

/// The sections of a personality, taken one after the other.
struct Sections<'a> {
    bytes: &'a [u8],
    /// The head of the next section.
    at: usize,
}

impl<'a> Sections<'a> {
    /// Takes the next section, which must be of this kind and of a length that
    /// fits.
    #[inline]
    fn take(
        &mut self,
        kind: u16,
        fits: impl FnOnce(usize) -> bool,
    ) -> Result<Section<'a>, Refusal> {
        let head = self.at;
        let refuse = |number| Err(Refusal::at(number, head));
        let Some((&[length_low, length_high, kind_low, kind_high], rest)) =
            self.bytes[head..].split_first_chunk::<HEAD>()
        else {
            return refuse(Number::CutShort);
        };
        if u16::from_le_bytes([kind_low, kind_high]) != kind {
            return refuse(Number::UnexpectedKind);
        }
        let length = usize::from(u16::from_le_bytes([length_low, length_high]));
        if !fits(length) {
            return refuse(Number::WrongLength);
        }
        let Some(body) = rest.get(..length) else {
            return refuse(Number::CutShort);
        };
        self.at = head + HEAD + length;
        Ok(Section { head, body })
    }

    /// The edition that the first section names. A kind of neither edition is
    /// refused where the section is taken.
    #[inline]
    fn edition(&self) -> Edition {
        if self.begins(Edition::Two.site_kind()) {
            Edition::Two
        } else {
            Edition::One
        }
    }

    /// Whether what is left begins with a whole head of a kind.
    #[inline]
    fn begins(&self, kind: u16) -> bool {
        match self.bytes[self.at..].first_chunk::<HEAD>() {
            Some(&[_, _, low, high]) => u16::from_le_bytes([low, high]) == kind,
            None => false,
        }
    }

    /// Takes the next section where what is left begins with a whole head of
    /// this kind.
    #[inline]
    fn take_optional(
        &mut self,
        kind: u16,
        fits: impl FnOnce(usize) -> bool,
    ) -> Result<Option<Section<'a>>, Refusal> {
        if self.begins(kind) {
            self.take(kind, fits).map(Some)
        } else {
            Ok(None)
        }
    }
}

/// A section: the place of its head, and its body.
struct Section<'a> {
    head: usize,
    body: &'a [u8],
}

impl<'a> Section<'a> {
    /// The body as records of one width.
    #[inline]
    fn records<const WIDTH: usize>(&self) -> &'a [[u8; WIDTH]] {
        self.body.as_chunks().0
    }

    /// A refusal at a byte of the body.
    fn refuse(&self, number: Number, byte: usize) -> Refusal {
        Refusal::at(number, self.head + HEAD + byte)
    }
}

/// The phase count, the group count and start red.
#[inline]
fn read_counts(site: &Section, edition: Edition) -> Result<(usize, usize, u16), Refusal> {
    let &[phase_count, group_count, red_low, red_high] = &site.records::<4>()[0];
    if !(2..=7).contains(&phase_count) {
        return Err(site.refuse(Number::WrongCount, 0));
    }
    if !(1..=32).contains(&group_count) {
        return Err(site.refuse(Number::WrongCount, 1));
    }
    let start_red = u16::from_le_bytes([red_low, red_high]);
    if !Setting::StartRed.limits(edition).hold(start_red) {
        return Err(site.refuse(Number::WrongTime, 2));
    }
    Ok((
        usize::from(phase_count),
        usize::from(group_count),
        start_red,
    ))
}

/// The limits of the fields of a record, by edition.
const PHASE_LIMITS: [[Limits; 6]; 2] = by_edition(Setting::OF_PHASE);
const MOVEMENT_LIMITS: [[Limits; 3]; 2] = by_edition(Setting::OF_MOVEMENT);
const EARLY_LIMITS: [[Limits; 1]; 2] = by_edition([Setting::EarlyCutOff]);

const fn by_edition<const FIELDS: usize>(settings: [Setting; FIELDS]) -> [[Limits; FIELDS]; 2] {
    [
        limits_of(settings, Edition::One),
        limits_of(settings, Edition::Two),
    ]
}

const fn limits_of<const FIELDS: usize>(
    settings: [Setting; FIELDS],
    edition: Edition,
) -> [Limits; FIELDS] {
    let mut limits = [Limits { low: 0, high: 0 }; FIELDS];
    let mut field = 0;
    while field < FIELDS {
        limits[field] = settings[field].limits(edition);
        field += 1;
    }
    limits
}

/// Checks the times of a section whose records are nothing but times.
#[inline]
fn check_times<const FIELDS: usize>(
    section: &Section,
    limits: &[Limits; FIELDS],
) -> Result<(), Refusal> {
    let times: &[[u8; 2]] = section.records();
    let (records, _) = times.as_chunks::<FIELDS>();
    for (index, record) in records.iter().enumerate() {
        for field in 0..FIELDS {
            if !limits[field].hold(u16::from_le_bytes(record[field])) {
                return Err(section.refuse(Number::WrongTime, 2 * (FIELDS * index + field)));
            }
        }
    }
    Ok(())
}

/// Checks that an order, one byte a phase, has each phase once.
#[inline]
fn check_order(section: &Section) -> Result<(), Refusal> {
    let phases = 0..section.body.len();
    let mut each_once = phases.map(|phase| section.body.contains(&(phase as u8)));
    if each_once.all(|found| found) {
        Ok(())
    } else {
        Err(Refusal::at(Number::WrongOrder, section.head))
    }
}

/// Checks the group records and gathers what they say.
#[inline]
fn read_groups(section: &Section, phase_count: usize) -> Result<Groups, Refusal> {
    const LATE_START: u8 = Mark::LateStart as u8;
    const PEDESTRIAN: u8 = Mark::Pedestrian as u8;
    const EARLY: u8 = Mark::EarlyCutOff as u8;

    let mut groups = Groups::default();
    let mut sets = [0_u8; MAX_GROUPS];
    let mut served = 0;
    let records: &[[u8; 2]] = section.records();
    for (index, (&[set, mark], slot)) in records.iter().zip(&mut sets).enumerate() {
        if set >> phase_count != 0 || mark > EARLY || (mark == PEDESTRIAN && !set.is_power_of_two())
        {
            return Err(section.refuse(Number::WrongGroup, 2 * index));
        }
        if mark == PEDESTRIAN {
            if groups.movement_count == MAX_MOVEMENTS {
                return Err(section.refuse(Number::NinthPedestrian, 2 * index));
            }
            groups.movement_set[groups.movement_count] = set;
            groups.movement_count += 1;
            groups.pedestrian |= 1 << index;
        }
        groups.late |= u32::from(mark == LATE_START) << index;
        groups.early |= u32::from(mark == EARLY) << index;
        served |= set;
        *slot = set;
    }
    if served != !(u8::MAX << phase_count) {
        return Err(Refusal::at(Number::UnservedPhase, section.head));
    }
    let (eights, _) = sets.as_chunks::<8>();
    groups.of_phase = groups_of_phases(&eights[..records.len().div_ceil(8)]);
    Ok(groups)
}

/// The groups of every phase, from the phase sets of the groups, eight by eight.
#[inline]
fn groups_of_phases(sets: &[[u8; 8]]) -> [u32; 8] {
    let mut of_phase = [0; 8];
    for (eight, &rows) in sets.iter().enumerate() {
        let by_phase = transpose8(u64::from_le_bytes(rows)).to_le_bytes();
        for (groups, byte) in of_phase.iter_mut().zip(by_phase) {
            *groups |= u32::from(byte) << (8 * eight);
        }
    }
    of_phase
}

/// Checks that the conflicts are two-way and between groups of the site, then
/// that no two conflicting groups share a phase.
#[inline]
fn check_conflicts(section: &Section, sets: &[[u8; 2]], groups: &Groups) -> Result<(), Refusal> {
    match sets.len() {
        0..=8 => check_two_way::<8>(section)?,
        9..=16 => check_two_way::<16>(section)?,
        _ => check_two_way::<32>(section)?,
    }
    for (group, (&row, &[set, _])) in section.records().iter().zip(sets).enumerate() {
        let row = u32::from_le_bytes(row);
        let shares = |phase: usize| row & groups.of_phase[phase & 7] != 0;
        if set_bits(set.into()).any(shares) {
            return Err(section.refuse(Number::SharedPhase, 4 * group));
        }
    }
    Ok(())
}

/// Checks that no group conflicts with itself, with one the site lacks, or one
/// way only. The site has at most `SIZE` groups.
#[inline]
fn check_two_way<const SIZE: usize>(section: &Section) -> Result<(), Refusal> {
    let records: &[[u8; 4]] = section.records();
    let mut rows = [0; SIZE];
    for (row, &record) in rows.iter_mut().zip(records) {
        *row = u32::from_le_bytes(record);
    }
    let columns = transpose(&rows);
    let beyond = !(u32::MAX >> (MAX_GROUPS - records.len()));
    for (group, (row, column)) in rows.iter().zip(columns).take(records.len()).enumerate() {
        let forbidden = beyond | 1 << group | !column;
        if row & forbidden != 0 {
            return Err(section.refuse(Number::WrongConflict, 4 * group));
        }
    }
    Ok(())
}

/// Checks the detector records: all together first, since few are ever wrong.
#[inline]
fn check_detectors(section: &Section, phase_count: usize) -> Result<(), Refusal> {
    let phase_count = phase_count as u8;
    let wrong = |&[phase, mode]: &[u8; 2]| (phase >= phase_count) | (mode > 6) | (mode & 3 == 3);
    let records = section.records();
    if !records
        .iter()
        .fold(false, |any, record| any | wrong(record))
    {
        return Ok(());
    }
    match records.iter().position(wrong) {
        Some(detector) => Err(section.refuse(Number::WrongDetector, 2 * detector)),
        None => Ok(()),
    }
}

/// Whether every phase has a calling detector or a pedestrian group.
#[inline]
fn every_phase_called(section: &Section, groups: &Groups, phase_count: usize) -> bool {
    let by_movements = groups
        .movement_set
        .iter()
        .fold(0, |called, set| called | set);
    let called = section
        .records()
        .iter()
        .fold(by_movements, |called, record| {
            let &[phase, mode] = record;
            let calls = mode & 3 != 0;
            called | u8::from(calls) << (phase & 7)
        });
    called == !(u8::MAX << phase_count)
}

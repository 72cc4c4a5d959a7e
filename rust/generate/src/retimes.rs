//! Second personalities for a site that runs: with other times, with more changed
//! than times, and refused ones.

use crate::damage::{damaged, other_than, wrong_time, AIMED};
use crate::plan::{random_time, Pace, Plan};
use crate::rng::Rng;
use model::{read, Edition, Setting, Site};

/// A late start that takes the place of none.
const LATE_START: u16 = 20;

/// A second personality of any kind, most often one with other times alone.
pub fn any_second(rng: &mut Rng, personality: &[u8]) -> Vec<u8> {
    match rng.below(8) {
        0 => changed_beyond_times(rng, personality),
        1 => refused_second(rng, personality),
        _ => retimed(rng, personality),
    }
}

/// A personality that differs from an accepted one in times alone: all of them
/// drawn anew, a few, the late starts, or none.
pub fn retimed(rng: &mut Rng, personality: &[u8]) -> Vec<u8> {
    let mut bytes = personality.to_vec();
    let fields = time_fields(personality);
    let edition = edition_of(personality);
    let pace = rng.pick(&[Pace::Short, Pace::Short, Pace::Edges, Pace::Anywhere]);
    match rng.below(10) {
        0 => {}
        1..=3 => {
            for _ in 0..rng.range(1, 3) {
                let (at, setting) = rng.pick(&fields);
                put(&mut bytes, at, random_time(rng, setting, edition, pace));
            }
        }
        4..=5 => turn_late_starts(&mut bytes, &fields),
        _ => {
            for &(at, setting) in &fields {
                put(&mut bytes, at, random_time(rng, setting, edition, pace));
            }
            if rng.percent(50) {
                clear_late_starts(rng, &mut bytes, &fields);
            }
        }
    }
    bytes
}

/// An accepted personality that differs from an accepted one in more than times,
/// most often in one byte.
pub fn changed_beyond_times(rng: &mut Rng, personality: &[u8]) -> Vec<u8> {
    let first = if rng.percent(50) {
        retimed(rng, personality)
    } else {
        personality.to_vec()
    };
    loop {
        let bytes = match rng.below(8) {
            0 => Plan::random(rng).bytes(),
            1 => one_section_other(rng, &first),
            2 => one_detector_other(rng, &first),
            3 => one_pair_other(rng, &first),
            4 => edition_and_times_other(&first),
            _ => one_byte_other(rng, &first),
        };
        if differs_beyond_times(&bytes, &first) && read(&bytes).is_ok() {
            return bytes;
        }
    }
}

/// A refused personality: the accepted one with a time outside its limits, of the
/// other edition, with one byte changed, cut, or a damaged one of another site.
pub fn refused_second(rng: &mut Rng, personality: &[u8]) -> Vec<u8> {
    let edition = edition_of(personality);
    loop {
        let mut bytes = retimed(rng, personality);
        match rng.below(6) {
            0 => {
                let aim = rng.pick(&AIMED);
                return damaged(rng, aim);
            }
            1 => bytes.truncate(rng.below(bytes.len())),
            2 => bytes.push(rng.byte()),
            3 => {
                let (at, setting) = rng.pick(&time_fields(personality));
                put(&mut bytes, at, wrong_time(rng, setting, edition));
            }
            4 => bytes = edition_other(&bytes),
            _ => {
                let at = rng.below(bytes.len());
                bytes[at] = rng.byte();
            }
        }
        if read(&bytes).is_err() {
            return bytes;
        }
    }
}

/// The places of the times in an accepted personality, each with its setting.
pub fn time_fields(personality: &[u8]) -> Vec<(usize, Setting)> {
    let mut fields = Vec::new();
    for (head, length) in sections(personality) {
        let body = head + 4;
        let settings: &[Setting] = match personality[head + 2] {
            // The site section of either edition has its time behind the counts.
            1 | 8 => {
                fields.push((body + 2, Setting::StartRed));
                continue;
            }
            2 => &Setting::OF_PHASE,
            6 => &Setting::OF_MOVEMENT,
            7 => &[Setting::EarlyCutOff],
            _ => continue,
        };
        let places = (body..body + length).step_by(2);
        fields.extend(places.zip(settings.iter().copied().cycle()));
    }
    fields
}

/// The heads of the sections of an accepted personality, with the lengths of their
/// bodies.
fn sections(personality: &[u8]) -> Vec<(usize, usize)> {
    let mut sections = Vec::new();
    let mut at = 0;
    while at < personality.len() {
        let length = usize::from(u16::from_le_bytes([personality[at], personality[at + 1]]));
        sections.push((at, length));
        at += 4 + length;
    }
    sections
}

/// The edition of an accepted personality.
fn edition_of(personality: &[u8]) -> Edition {
    let site = Site::read(personality).expect("an accepted personality");
    site.edition()
}

/// Every late start of no time becomes one, and every other none.
fn turn_late_starts(bytes: &mut [u8], fields: &[(usize, Setting)]) {
    for &(at, _) in late_starts(fields) {
        let turned = if bytes[at..at + 2] == [0, 0] {
            LATE_START
        } else {
            0
        };
        put(bytes, at, turned);
    }
}

/// Some late starts become 0.
fn clear_late_starts(rng: &mut Rng, bytes: &mut [u8], fields: &[(usize, Setting)]) {
    for &(at, _) in late_starts(fields) {
        if rng.percent(50) {
            put(bytes, at, 0);
        }
    }
}

fn late_starts(fields: &[(usize, Setting)]) -> impl Iterator<Item = &(usize, Setting)> {
    let late = |field: &&(usize, Setting)| field.1 == Setting::LateStart;
    fields.iter().filter(late)
}

/// One byte that is no time changed; the result may be refused.
fn one_byte_other(rng: &mut Rng, first: &[u8]) -> Vec<u8> {
    let mut bytes = first.to_vec();
    let times: Vec<usize> = time_fields(first).iter().map(|&(at, _)| at).collect();
    let others: Vec<usize> = (0..first.len())
        .filter(|&at| !times.iter().any(|&time| time == at || time + 1 == at))
        .collect();
    let at = rng.pick(&others);
    let old = bytes[at];
    let turned = old ^ 1 << rng.below(8);
    bytes[at] = rng.pick(&[old ^ 1, old ^ 2, old ^ 4, old.wrapping_add(1), turned]);
    bytes
}

/// The other edition with the same times, which may be too short for it.
fn edition_other(first: &[u8]) -> Vec<u8> {
    let mut bytes = first.to_vec();
    put(&mut bytes, 2, other_than(edition_of(first)).site_kind());
    bytes
}

/// The other edition, with no time below its limits.
fn edition_and_times_other(first: &[u8]) -> Vec<u8> {
    let mut bytes = edition_other(first);
    let edition = other_than(edition_of(first));
    for (at, setting) in time_fields(first) {
        let time = u16::from_le_bytes([first[at], first[at + 1]]);
        put(&mut bytes, at, time.max(setting.limits(edition).low));
    }
    bytes
}

/// An optional section left out, or one added; the result may be refused.
fn one_section_other(rng: &mut Rng, first: &[u8]) -> Vec<u8> {
    let mut bytes = first.to_vec();
    let phases = first[4];
    let heads = sections(first);
    let optional = &heads[6..];
    if optional.is_empty() || rng.percent(30) {
        if rng.percent(50) {
            bytes.extend([phases, 0, 9, 0]);
            bytes.extend(0..phases);
        } else {
            bytes.extend([2 * phases, 0, 7, 0]);
            bytes.resize(bytes.len() + 2 * usize::from(phases), 0);
        }
    } else {
        let (head, length) = rng.pick(optional);
        bytes.drain(head..head + 4 + length);
    }
    bytes
}

/// Two phases of the order exchanged, or a conflict taken out both ways; the result
/// may be the same.
fn one_pair_other(rng: &mut Rng, first: &[u8]) -> Vec<u8> {
    let mut bytes = first.to_vec();
    let heads = sections(first);
    let order = heads.iter().find(|section| first[section.0 + 2] == 9);
    match order {
        Some(&(head, length)) if rng.percent(50) => {
            let body = head + 4;
            bytes.swap(body + rng.below(length), body + rng.below(length));
        }
        _ => {
            let (head, length) = heads[3];
            let (one, other) = (rng.below(length / 4), rng.below(length / 4));
            for (group, bit) in [(one, other), (other, one)] {
                bytes[head + 4 + 4 * group + bit / 8] &= !(1 << (bit % 8));
            }
        }
    }
    bytes
}

/// A detector more, or one fewer; the result may be refused.
fn one_detector_other(rng: &mut Rng, first: &[u8]) -> Vec<u8> {
    let mut bytes = first.to_vec();
    let (head, length) = sections(first)[4];
    let end = head + 4 + length;
    if rng.percent(50) {
        bytes.splice(end..end, [rng.below(first[4].into()) as u8, 6]);
        put(&mut bytes, head, length as u16 + 2);
    } else if length > 0 {
        bytes.drain(end - 2..end);
        put(&mut bytes, head, length as u16 - 2);
    }
    bytes
}

/// Whether bytes differ in their length or in a byte that is no time.
fn differs_beyond_times(bytes: &[u8], first: &[u8]) -> bool {
    if bytes.len() != first.len() {
        return true;
    }
    let mut alike = bytes.to_vec();
    for (at, _) in time_fields(first) {
        alike[at..at + 2].copy_from_slice(&first[at..at + 2]);
    }
    alike != first
}

fn put(bytes: &mut [u8], at: usize, time: u16) {
    bytes[at..at + 2].copy_from_slice(&time.to_le_bytes());
}

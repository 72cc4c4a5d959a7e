//! Personalities that are refused: each refusal aimed at, in every way its
//! number names, and damage without an aim.

use crate::plan::Plan;
use crate::rng::Rng;
use model::{Edition, Mark, Setting, MAX_GROUPS, MAX_MOVEMENTS};

/// The refusals that a personality can be aimed at.
pub const AIMED: [u8; 15] = [1, 2, 3, 4, 5, 6, 7, 8, 9, 10, 11, 12, 17, 18, 21];

/// Those that a plan can hold, so that the bytes can be damaged besides.
const PLANNED: [u8; 10] = [5, 6, 7, 8, 9, 10, 11, 17, 18, 21];

const PEDESTRIAN: u8 = Mark::Pedestrian as u8;
const EARLY_CUT_OFF: u8 = Mark::EarlyCutOff as u8;

/// Sections that every personality has.
const NEEDED: usize = 6;

/// A personality that is refused with this number, one of [`AIMED`].
pub fn damaged(rng: &mut Rng, number: u8) -> Vec<u8> {
    loop {
        let plan = Plan::random(rng);
        if let Some(bytes) = damage(rng, plan, number) {
            return bytes;
        }
    }
}

/// A personality damaged in two ways, refused for whichever is checked first.
pub fn twice_damaged(rng: &mut Rng) -> Vec<u8> {
    loop {
        let mut plan = Plan::random(rng);
        let one = rng.pick(&PLANNED);
        let other = rng.pick(&AIMED);
        if damage_plan(rng, &mut plan, one).is_some() {
            if let Some(bytes) = damage(rng, plan, other) {
                return bytes;
            }
        }
    }
}

/// A personality damaged without an aim; a few are still accepted.
pub fn scrambled(rng: &mut Rng) -> Vec<u8> {
    if rng.percent(5) {
        let length = rng.below(500);
        return rng.bytes(length);
    }
    let mut bytes = Plan::random(rng).bytes();
    for _ in 0..rng.range(1, 3) {
        scramble(rng, &mut bytes);
    }
    bytes
}

/// A personality whose site section names the other edition than the one that its
/// times were chosen for. If that is edition two, some times may be too short.
pub fn other_edition(rng: &mut Rng) -> Vec<u8> {
    let mut plan = Plan::random(rng);
    plan.edition = other_than(plan.edition);
    plan.bytes()
}

pub(crate) fn other_than(edition: Edition) -> Edition {
    match edition {
        Edition::One => Edition::Two,
        Edition::Two => Edition::One,
    }
}

/// Damages a plan or its bytes; none where the plan has nothing to damage so.
fn damage(rng: &mut Rng, mut plan: Plan, number: u8) -> Option<Vec<u8>> {
    if PLANNED.contains(&number) {
        damage_plan(rng, &mut plan, number)?;
    }
    let mut bytes = plan.bytes();
    match number {
        1 => cut(rng, &mut bytes)?,
        2 => change_kind(rng, &mut bytes),
        3 => change_length(rng, &mut bytes),
        4 => change_count(rng, &mut bytes),
        12 => leave_over(rng, &plan, &mut bytes),
        17 | 21 if rng.percent(50) => leave_over(rng, &plan, &mut bytes),
        _ => {}
    }
    Some(bytes)
}

fn damage_plan(rng: &mut Rng, plan: &mut Plan, number: u8) -> Option<()> {
    match number {
        5 => change_time(rng, plan),
        6 => change_group(rng, plan),
        7 => add_ninth_pedestrian(rng, plan)?,
        8 => leave_phase_unserved(rng, plan),
        9 => change_conflict(rng, plan)?,
        10 => share_phase(rng, plan)?,
        11 => change_detector(rng, plan)?,
        17 => leave_out_times(rng, plan)?,
        18 => change_order(rng, plan)?,
        21 => silence_phase(rng, plan)?,
        _ => return None,
    }
    Some(())
}

/// The heads of the sections, as far as they go.
fn heads(bytes: &[u8]) -> Vec<usize> {
    let mut heads = Vec::new();
    let mut at = 0;
    while let Some(&[low, high, _, _]) = bytes.get(at..).and_then(<[u8]>::first_chunk) {
        heads.push(at);
        at += 4 + usize::from(u16::from_le_bytes([low, high]));
    }
    heads
}

/// The head of one section of a whole personality.
fn random_head(rng: &mut Rng, bytes: &[u8]) -> usize {
    rng.pick(&heads(bytes))
}

fn put(bytes: &mut [u8], at: usize, number: u16) {
    bytes[at..at + 2].copy_from_slice(&number.to_le_bytes());
}

/// Cuts anywhere, often at a section's head or just after it. A cut at the head
/// of a section that need not be there leaves nothing cut short.
fn cut(rng: &mut Rng, bytes: &mut Vec<u8>) -> Option<()> {
    let length = match rng.below(3) {
        0 => rng.below(bytes.len()),
        1 => random_head(rng, bytes),
        _ => random_head(rng, bytes) + rng.below(5),
    };
    let at_head = |head: &usize| (*head..head + 4).contains(&length);
    if length >= bytes.len() || heads(bytes)[NEEDED..].iter().any(at_head) {
        return None;
    }
    bytes.truncate(length);
    Some(())
}

/// Takes every call away from a phase without a pedestrian group: its detectors
/// only extend, do nothing, or go to another phase.
fn silence_phase(rng: &mut Rng, plan: &mut Plan) -> Option<()> {
    let phases = plan.phases.len();
    let phase = rng.below(phases) as u8;
    let other = ((usize::from(phase) + rng.range(1, phases - 1)) % phases) as u8;
    let walks = |group: &[u8; 2]| group[1] == PEDESTRIAN && group[0] == 1 << phase;
    if plan.groups.iter().any(walks) {
        return None;
    }
    for detector in &mut plan.detectors {
        if detector[0] == phase {
            let mode = detector[1];
            *detector = rng.pick(&[[phase, 0], [phase, 4], [phase, mode & 4], [other, mode]]);
        }
    }
    Some(())
}

/// Takes the early cut-off times away from groups that stop early.
fn leave_out_times(rng: &mut Rng, plan: &mut Plan) -> Option<()> {
    plan.early_cut_offs = None;
    if plan.early_groups().next().is_none() {
        let group = rng.below(plan.groups.len());
        if plan.groups[group][1] == PEDESTRIAN {
            return None;
        }
        plan.groups[group][1] = EARLY_CUT_OFF;
    }
    Some(())
}

/// An order in which a phase is there twice, or one that the site lacks.
fn change_order(rng: &mut Rng, plan: &mut Plan) -> Option<()> {
    let order = plan.order.as_mut()?;
    let phases = order.len();
    let place = rng.below(phases);
    let twice = order[(place + rng.range(1, phases - 1)) % phases];
    order[place] = rng.pick(&[twice, twice, phases as u8, 7, 8, 255]);
    Some(())
}

/// Bytes after the last section: anything, a head cut short, a section of a kind
/// that is not expected there, the last section once more.
fn leave_over(rng: &mut Rng, plan: &Plan, bytes: &mut Vec<u8>) {
    let length = 2 * plan.phases.len() as u16;
    let [low, high] = length.to_le_bytes();
    let head = [low, high, rng.pick(&[7, 9]), 0];
    let ordered = plan.order.is_some();
    let last = if ordered { rng.pick(&[7, 9]) } else { 8 };
    let kinds = [0, 1, 6, 8, last, 0x0107, 0x0700, 0x0109];
    let count = rng.range(1, 8);
    match rng.below(4) {
        0 => bytes.extend(rng.bytes(count)),
        1 => bytes.extend(&head[..rng.range(1, 3)]),
        2 => {
            let section = bytes.len();
            bytes.extend(head);
            put(bytes, section + 2, rng.pick(&kinds));
            bytes.resize(bytes.len() + rng.below(20), 0);
        }
        _ => {
            let last = heads(bytes)[heads(bytes).len() - 1];
            let again = bytes[last..].to_vec();
            bytes.extend(again);
        }
    }
}

/// A kind that is not expected there. In first place, which is chosen more often,
/// that is neither edition's.
fn change_kind(rng: &mut Rng, bytes: &mut [u8]) {
    let section = rng.pick(&[0, 0, 0, 1, 2, 3, 4, 5]);
    let expected = match section {
        0 => Edition::ALL.map(Edition::site_kind),
        _ => [section as u16 + 1; 2],
    };
    let right = rng.pick(&expected);
    let random = rng.draw() as u16;
    let near = rng.range(0, 9) as u16;
    let kind = rng.pick(&[near, near, random, right + 256, right.swap_bytes()]);
    // Beside each expected kind are kinds that are not.
    let kind = if expected.contains(&kind) {
        kind + 1
    } else {
        kind
    };
    put(bytes, heads(bytes)[section] + 2, kind);
}

/// A length that the counts do not allow; for kind 5 one that is odd or above 96.
fn change_length(rng: &mut Rng, bytes: &mut [u8]) {
    let heads = heads(bytes);
    let section = rng.below(heads.len());
    let head = heads[section];
    let right = u16::from_le_bytes([bytes[head], bytes[head + 1]]);
    let odd = 2 * rng.below(50) as u16 + 1;
    let wrong = [
        right ^ 1,
        right + 97,
        right | 0x8000,
        u16::MAX,
        odd,
        right ^ 256,
    ];
    let wrong = if section == 4 && rng.percent(30) {
        98
    } else {
        rng.pick(&wrong)
    };
    put(bytes, head, if wrong == right { right + 1 } else { wrong });
}

fn change_count(rng: &mut Rng, bytes: &mut [u8]) {
    if rng.percent(50) {
        bytes[4] = rng.pick(&[0, 1, 8, 9, 16, 255]);
    } else {
        bytes[5] = rng.pick(&[0, 33, 34, 64, 255]);
    }
}

/// A time just outside its limits, or far outside. If the other edition allows
/// less, half of those below are within its limits.
pub(crate) fn wrong_time(rng: &mut Rng, setting: Setting, edition: Edition) -> u16 {
    let limits = setting.limits(edition);
    let above = [limits.high + 1, limits.high | 0x8000, u16::MAX];
    if limits.low == 0 || rng.percent(50) {
        return rng.pick(&above);
    }
    let lowest = Edition::ALL.map(|edition| setting.limits(edition).low);
    let lowest = lowest[0].min(lowest[1]);
    let between = rng.time(lowest.min(limits.low - 1), limits.low - 1);
    rng.pick(&[0, lowest - 1, limits.low - 1, between])
}

fn change_time(rng: &mut Rng, plan: &mut Plan) {
    let edition = plan.edition;
    let phase_fields = 6 * plan.phases.len();
    let movement_fields = 3 * plan.movements.len();
    if let Some(times) = plan.early_cut_offs.as_mut().filter(|_| rng.percent(20)) {
        let phase = rng.below(times.len());
        times[phase] = wrong_time(rng, Setting::EarlyCutOff, edition);
        return;
    }
    let mut field = rng.below(1 + phase_fields + movement_fields);
    if field == 0 {
        plan.start_red = wrong_time(rng, Setting::StartRed, edition);
        return;
    }
    field -= 1;
    if field < phase_fields {
        let setting = Setting::OF_PHASE[field % 6];
        plan.phases[field / 6][field % 6] = wrong_time(rng, setting, edition);
        return;
    }
    field -= phase_fields;
    let setting = Setting::OF_MOVEMENT[field % 3];
    plan.movements[field / 3][field % 3] = wrong_time(rng, setting, edition);
}

/// A phase the site lacks, an unknown mark, or a pedestrian group without
/// exactly one phase.
fn change_group(rng: &mut Rng, plan: &mut Plan) {
    let phases = plan.phases.len();
    let group = rng.below(plan.groups.len());
    let two_phases = 0b11 << rng.below(phases - 1);
    plan.groups[group] = match rng.below(4) {
        0 => [
            plan.groups[group][0] | 1 << rng.range(phases, 7),
            plan.groups[group][1],
        ],
        1 => [plan.groups[group][0], rng.pick(&[4, 5, 131, 255])],
        2 => [0, PEDESTRIAN],
        _ => [two_phases, PEDESTRIAN],
    };
}

fn add_ninth_pedestrian(rng: &mut Rng, plan: &mut Plan) -> Option<()> {
    if plan.groups.len() <= MAX_MOVEMENTS {
        return None;
    }
    let mut order: Vec<usize> = (0..plan.groups.len()).collect();
    rng.shuffle(&mut order);
    let count = rng.range(MAX_MOVEMENTS + 1, plan.groups.len());
    for &group in &order[..count] {
        if plan.groups[group][1] != PEDESTRIAN {
            plan.groups[group] = [1 << rng.below(plan.phases.len()), PEDESTRIAN];
        }
    }
    Some(())
}

fn leave_phase_unserved(rng: &mut Rng, plan: &mut Plan) {
    let phases = plan.phases.len();
    let left = rng.below(phases);
    let other = (left + rng.range(1, phases - 1)) % phases;
    for group in &mut plan.groups {
        if group[0] == 1 << left && group[1] == PEDESTRIAN {
            group[0] = 1 << other;
        }
        group[0] &= !(1 << left);
    }
}

/// A conflict with itself, with a group the site lacks, or one way only.
fn change_conflict(rng: &mut Rng, plan: &mut Plan) -> Option<()> {
    let groups = plan.groups.len();
    let group = rng.below(groups);
    let other = rng.below(groups);
    match rng.below(3) {
        0 => plan.conflicts[group] |= 1 << group,
        1 if groups < MAX_GROUPS => plan.conflicts[group] |= 1 << rng.range(groups, 31),
        2 if other != group => plan.conflicts[group] ^= 1 << other,
        _ => return None,
    }
    Some(())
}

/// Two conflicting groups with a phase in common.
fn share_phase(rng: &mut Rng, plan: &mut Plan) -> Option<()> {
    let groups = plan.groups.len();
    let one = rng.below(groups);
    let other = rng.below(groups);
    let shared = plan.groups[one][0] & plan.groups[other][0];
    if one == other || (shared == 0 && plan.groups[one][1] == PEDESTRIAN) {
        return None;
    }
    if shared == 0 {
        plan.groups[one][0] |= plan.groups[other][0];
    }
    plan.conflicts[one] |= 1 << other;
    plan.conflicts[other] |= 1 << one;
    (plan.groups[one][0] & plan.groups[other][0] != 0).then_some(())
}

fn change_detector(rng: &mut Rng, plan: &mut Plan) -> Option<()> {
    let phases = plan.phases.len() as u8;
    if plan.detectors.is_empty() {
        return None;
    }
    let detector = rng.below(plan.detectors.len());
    if rng.percent(50) {
        plan.detectors[detector][0] = rng.pick(&[phases, phases + 1, 8, 255]);
    } else {
        plan.detectors[detector][1] = rng.pick(&[3, 7, 8, 10, 128, 255]);
    }
    Some(())
}

/// One change without an aim.
fn scramble(rng: &mut Rng, bytes: &mut Vec<u8>) {
    if bytes.is_empty() {
        return;
    }
    let at = rng.below(bytes.len());
    match rng.below(8) {
        0 => bytes[at] ^= 1 << rng.below(8),
        1 => bytes[at] = rng.byte(),
        2 => bytes[at] = bytes[at].wrapping_add(rng.pick(&[1, 255])),
        3 => bytes.insert(at, rng.byte()),
        4 => {
            bytes.remove(at);
        }
        5 => {
            let end = rng.range(at, bytes.len());
            let piece = bytes[at..end].to_vec();
            bytes.splice(at..at, piece);
        }
        6 => {
            let end = rng.range(at, bytes.len());
            bytes.drain(at..end);
        }
        _ => {
            let end = rng.range(at, bytes.len());
            bytes[at..end].reverse();
        }
    }
}

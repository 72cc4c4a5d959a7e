//! A plain calculation of the waits agrees with the model's. Those that are wrong in one
//! small thing are noticed, in answers and in bytes.

#[macro_use]
mod faults;

use compare::Kind;
use faults::{assert_agrees, assert_noticed, cases_of};
use model::packed::Model;
use model::{Movement, Site};
use variant::{AsBoard, Variant};

faults! {
    // What comes first.
    FirstWithoutStartRed
    FirstWithoutSecondClearance
    FirstWithoutEarlyCutOff
    FirstOfEveryPhase
    FirstWithoutTheOwnClearance
    FirstByLetters
    // The turn of a phase.
    TurnWithoutLateStart
    TurnWithoutMinimum
    TurnWithoutMaximum
    TurnWithoutEarlyCutOff
    TurnWithTheGap
    TurnWithoutWalks
    TurnWithoutTheStepOfAWalk
    SecondClearanceBesideLeaving
    SecondClearanceForgotten
    ClearanceOneForgotten
    OneTurnTooMany
    // The wait of a movement.
    OwnWalkCounted
    OtherWalkForgotten
    OtherWalkFromTheStart
    OwnClearanceForgotten
    OwnClearanceOneAlone
    OwnTurnForgotten
    OwnWithLateStart
    FirstBesideOwn
    FirstForgotten
    // The wait of a phase.
    LateStartOfTheDemandedForgotten
    // The bytes and the answer.
    OneStepTooFew
    OneStepTooMany
    HighestByteFirst
    MovementsFirst
    OrderOfTheRing
    PhasesAlone
    CountForBytes
    BytesBehindCleared
    ShortByOneTaken
    LongerRefused
    BufferBeforePersonality
    ShortBufferWrites
    BufferPlaceGiven
}

struct Plain(Fault);

/// The settings of a phase as they are counted here.
struct Phase {
    late_start: u64,
    green: u64,
    closing: u64,
    gap: u64,
    movements: Vec<usize>,
}

impl Plain {
    fn has(&self, fault: Fault) -> bool {
        self.0 == fault
    }

    /// The value, unless the calculation has a fault that forgets it.
    fn unless(&self, fault: Fault, value: u64) -> u64 {
        if self.has(fault) {
            0
        } else {
            value
        }
    }

    fn phase(&self, site: &Site, phase: usize) -> Phase {
        let times = site.phase(phase as u8);
        let minimum = self.unless(Fault::TurnWithoutMinimum, times.minimum_green.into());
        let maximum = self.unless(Fault::TurnWithoutMaximum, times.maximum_green.into());
        let late_start = u64::from(times.late_start);
        let early = u64::from(site.early_cut_off(phase as u8));
        let early = self.unless(Fault::TurnWithoutEarlyCutOff, early);
        let movements = 0..site.movement_count();
        let of_phase = |k: &usize| usize::from(site.movement(*k).phase) == phase;
        Phase {
            late_start,
            green: self.unless(Fault::TurnWithoutLateStart, late_start) + minimum + maximum,
            closing: early + u64::from(times.yellow) + u64::from(times.all_red),
            gap: times.gap.into(),
            movements: movements.filter(of_phase).collect(),
        }
    }

    /// The end of a walk that began at a step, with all that follows it in its phase.
    fn walked(&self, phase: &Phase, times: Movement, free: u64, began: u64) -> u64 {
        let step = u64::from(!self.has(Fault::TurnWithoutTheStepOfAWalk));
        let end = (began + u64::from(times.walk)).max(free + step);
        let one = self.unless(Fault::ClearanceOneForgotten, times.clearance_one.into());
        let two = self.unless(Fault::SecondClearanceForgotten, times.clearance_two.into());
        let clears = match self.0 {
            Fault::SecondClearanceBesideLeaving => phase.closing + two,
            _ => phase.closing.max(two),
        };
        end + one + clears
    }

    fn ending(&self, site: &Site, phase: &Phase, but: Option<usize>, free: u64, began: u64) -> u64 {
        let forgotten = match but {
            Some(_) => self.has(Fault::OtherWalkForgotten),
            None => self.has(Fault::TurnWithoutWalks),
        };
        let but = but.filter(|_| !self.has(Fault::OwnWalkCounted));
        let others = phase.movements.iter().filter(|&&k| Some(k) != but);
        let walks = others.map(|&k| self.walked(phase, site.movement(k), free, began));
        let longest = walks.max().filter(|_| !forgotten);
        longest.unwrap_or(0).max(free + phase.closing)
    }

    fn turn(&self, site: &Site, phase: usize) -> u64 {
        let phase = self.phase(site, phase);
        let gap = match self.0 {
            Fault::TurnWithTheGap => phase.gap,
            _ => 0,
        };
        self.ending(site, &phase, None, phase.green, 0) + gap
    }

    fn first(&self, site: &Site, phase: usize) -> u64 {
        let count = site.phase_count();
        let others = ((1_u8 << count) - 1) & !(1 << phase);
        let after = match self.0 {
            Fault::FirstByLetters => (phase + 1) % count,
            _ => usize::from(site.first_after(phase as u8, others)),
        };
        let mut longest = self.unless(Fault::FirstWithoutStartRed, site.start_red().into());
        for other in 0..count {
            let left_out = other == after && !self.has(Fault::FirstOfEveryPhase)
                || other == phase && self.has(Fault::FirstWithoutTheOwnClearance);
            if left_out {
                continue;
            }
            let times = self.phase(site, other);
            let early = match self.0 {
                Fault::FirstWithoutEarlyCutOff => site.early_cut_off(other as u8),
                _ => 0,
            };
            longest = longest.max(times.closing - u64::from(early));
            for movement in times.movements {
                let two = site.movement(movement).clearance_two.into();
                longest = longest.max(self.unless(Fault::FirstWithoutSecondClearance, two));
            }
        }
        longest
    }

    fn rest(&self, site: &Site, phase: usize) -> u64 {
        let all = self.has(Fault::OneTurnTooMany);
        let others = (0..site.phase_count()).filter(|&other| all || other != phase);
        others.map(|other| self.turn(site, other)).sum()
    }

    fn lock_wait(&self, site: &Site, phase: usize) -> u64 {
        let late_start = self.phase(site, phase).late_start;
        self.unless(Fault::LateStartOfTheDemandedForgotten, late_start)
            + self.first(site, phase)
            + self.rest(site, phase)
    }

    fn button_wait(&self, site: &Site, movement: usize) -> u64 {
        let times = site.movement(movement);
        let of = usize::from(times.phase);
        let phase = self.phase(site, of);
        let two = self.unless(Fault::OwnClearanceOneAlone, times.clearance_two.into());
        let back = u64::from(times.clearance_one) + two;
        let began = self.unless(Fault::OtherWalkFromTheStart, back);
        let whole = self.ending(site, &phase, Some(movement), phase.green, 0);
        let back = self.ending(site, &phase, Some(movement), back, began);
        let whole = self.unless(Fault::OwnTurnForgotten, whole);
        let own = whole.max(self.unless(Fault::OwnClearanceForgotten, back));
        let first = self.unless(Fault::FirstForgotten, self.first(site, of));
        let late_start = match self.0 {
            Fault::OwnWithLateStart => phase.late_start,
            _ => 0,
        };
        let before = match self.0 {
            Fault::FirstBesideOwn => first + own,
            _ => first.max(own),
        };
        late_start + before + self.rest(site, of)
    }

    fn all(&self, site: &Site) -> Vec<u8> {
        let phases = match self.0 {
            Fault::OrderOfTheRing => ring(site),
            _ => (0..site.phase_count()).collect(),
        };
        let phases = phases.into_iter().map(|phase| self.lock_wait(site, phase));
        let movements = (0..site.movement_count()).map(|k| self.button_wait(site, k));
        let waits: Vec<u64> = match self.0 {
            Fault::MovementsFirst => movements.chain(phases).collect(),
            Fault::PhasesAlone => phases.collect(),
            _ => phases.chain(movements).collect(),
        };
        let bytes = waits.into_iter().flat_map(|wait| {
            let wait = match self.0 {
                Fault::OneStepTooFew => wait - 1,
                Fault::OneStepTooMany => wait + 1,
                _ => wait,
            };
            match self.0 {
                Fault::HighestByteFirst => (wait as u16).to_be_bytes(),
                _ => (wait as u16).to_le_bytes(),
            }
        });
        bytes.collect()
    }
}

/// The phases in running order.
fn ring(site: &Site) -> Vec<usize> {
    let all = (1_u8 << site.phase_count()) - 1;
    let mut ring = vec![0];
    for _ in 1..site.phase_count() {
        let last = *ring.last().unwrap();
        ring.push(site.first_after(last, all & !(1 << last)));
    }
    ring.into_iter().map(usize::from).collect()
}

impl Variant for Plain {
    fn waits(&self, personality: &[u8], waits: &mut [u8]) -> u64 {
        let site = match Site::read(personality) {
            Ok(site) => site,
            Err(_) if waits.len() < 4 && self.has(Fault::BufferBeforePersonality) => return 14,
            Err(_) => return model::packed::Board::read(&Model, personality),
        };
        let all = self.all(&site);
        let needed = match self.0 {
            Fault::ShortByOneTaken => all.len() - 1,
            _ => all.len(),
        };
        if waits.len() < needed || self.has(Fault::LongerRefused) && waits.len() > all.len() {
            if self.has(Fault::ShortBufferWrites) && !waits.is_empty() {
                waits[0] ^= 1;
            }
            return 14 | u64::from(self.has(Fault::BufferPlaceGiven)) << 8;
        }
        if self.has(Fault::BytesBehindCleared) {
            waits.fill(0);
        }
        let written = all.len().min(waits.len());
        waits[..written].copy_from_slice(&all[..written]);
        let length = match self.0 {
            Fault::CountForBytes => all.len() / 2,
            _ => all.len(),
        };
        (length as u64) << 8
    }
}

const SEED: u64 = 33;

/// Accepted personalities, and some that are refused.
fn cases() -> Vec<u64> {
    cases_of(
        &[Kind::Accepted, Kind::OtherEdition, Kind::Damaged(5)],
        6_000,
    )
}

#[test]
fn plain_waits_agree() {
    assert_agrees(&AsBoard(Plain(Fault::None)), SEED, cases());
}

#[test]
fn wrong_waits_are_noticed() {
    for &fault in FAULTS {
        let board = AsBoard(Plain(fault));
        assert_noticed(fault, &board, SEED, cases(), &["waits: "]);
    }
}

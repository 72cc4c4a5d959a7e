//! Sites of one cabinet under a monitor each: the model without a breach, and
//! cabinets broken on purpose.

use drive::{watch_cabinet, Report};
use generate::{Plan, Rng};
use model::packed::{self, number, Board};
use model::{parts_in, Number, RecordBytes, Site, TimedState, Times, OUTPUTS, PLAIN_LEN, RECORDS};
use monitor::Breach;
use variant::{AsBoard, Variant};

const SEED: u64 = 20_260_102;

/// Spoils the row and the outputs after an accepted call on a record, and its answer.
type Spoil = fn(&mut [RecordBytes], usize, &mut [u8], u64) -> u64;

/// The model with the accepted placings and steps of its cabinet spoilt, and with
/// retimings of its own.
struct Cabinet {
    place: Spoil,
    step: Spoil,
    retime: fn(&[u8], &mut [u8], &[u8]) -> u64,
}

const RIGHT: Cabinet = Cabinet {
    place: |_, _, _, answer| answer,
    step: |_, _, _, answer| answer,
    retime: packed::retime,
};

impl Variant for Cabinet {
    fn retime(&self, personality: &[u8], state: &mut [u8], new_personality: &[u8]) -> u64 {
        (self.retime)(personality, state, new_personality)
    }

    fn cabinet_place(
        &self,
        row: &mut [RecordBytes],
        record: usize,
        personality: &[u8],
        first: usize,
        outputs: &mut [u8],
    ) -> u64 {
        let answer = packed::cabinet_place(row, record, personality, first, outputs);
        match number(answer) {
            0 => (self.place)(row, record, outputs, answer),
            _ => answer,
        }
    }

    fn cabinet_step(
        &self,
        row: &mut [RecordBytes],
        record: usize,
        inputs: u64,
        outputs: &mut [u8],
    ) -> u64 {
        let answer = packed::cabinet_step(row, record, inputs, outputs);
        match number(answer) {
            0 => (self.step)(row, record, outputs, answer),
            _ => answer,
        }
    }
}

/// Watches so many sites of eight groups at most.
fn watched(board: &dyn Board, count: usize, seed: u64) -> Result<Vec<Report>, (usize, Breach)> {
    let mut rng = Rng::new(seed);
    let sites = (0..count).map(|_| Plan::small(&mut rng, OUTPUTS / RECORDS).bytes());
    let sites: Vec<Vec<u8>> = sites.collect();
    watch_cabinet(board, &sites, &mut rng, 4_000)
}

/// The breaches that some seeds find, each with its site; some must find one.
fn breaches(cabinet: Cabinet) -> Vec<(usize, Breach)> {
    let board = AsBoard(cabinet);
    let found = (0..20).filter_map(|seed| watched(&board, RECORDS, seed).err());
    let found: Vec<(usize, Breach)> = found.collect();
    assert!(!found.is_empty(), "the monitors notice nothing");
    found
}

/// The breaches of a cabinet whose steps are spoilt.
fn step_breaches(step: Spoil) -> Vec<(usize, Breach)> {
    breaches(Cabinet { step, ..RIGHT })
}

macro_rules! assert_breaches {
    ($found:expr, $breach:pat) => {
        for (_, breach) in $found {
            assert!(matches!(breach, $breach), "{breach}");
        }
    };
}

/// Changes the state in a record.
fn change_state(
    row: &mut [RecordBytes],
    record: usize,
    change: impl FnOnce(&[u8], &mut TimedState),
) {
    let (personality, bytes) = parts_in(row, record).unwrap();
    let mut timed = TimedState::from_bytes(bytes).unwrap();
    change(personality, &mut timed);
    bytes.copy_from_slice(&timed.to_bytes());
}

fn times_of(personality: &[u8]) -> Times {
    Times::of(&Site::read(personality).unwrap())
}

#[test]
fn every_site_of_the_model_is_without_a_breach() {
    let mut rng = Rng::new(SEED);
    let (mut retimings, mut changes, mut never_retimed) = (0, 0, 0);
    for _ in 0..100 {
        let count = rng.range(1, RECORDS);
        let reports = watched(&AsBoard(RIGHT), count, rng.draw());
        let reports = reports.unwrap_or_else(|(site, breach)| panic!("site {site}: {breach}"));
        assert_eq!(reports.len(), count);
        for report in reports {
            assert!(report.accepted > 500 && report.refused > 10, "{report:?}");
            retimings += report.retimings;
            changes += report.changes;
            never_retimed += usize::from(report.retimings == 0);
        }
    }
    assert!(retimings > 5_000 && changes > 500, "{retimings}, {changes}");
    assert!(never_retimed > 30, "{never_retimed}");
}

#[test]
fn the_largest_site_fills_a_cabinet() {
    let sites = [Plan::largest().bytes()];
    let reports = watch_cabinet(&AsBoard(RIGHT), &sites, &mut Rng::new(SEED), 4_000);
    let bound = Site::read(&sites[0]).unwrap().wait_bound();
    assert_eq!(reports.unwrap()[0].bound, u64::from(bound));
}

#[test]
fn a_step_that_writes_an_output_of_another() {
    for (site, breach) in step_breaches(|_, record, outputs, answer| {
        if record == 0 {
            outputs[31] = outputs[31].wrapping_add(1);
        }
        answer
    }) {
        assert!(matches!(breach, Breach::WritesBeside { .. }), "{breach}");
        assert_eq!(site, 0);
    }
}

#[test]
fn a_step_that_writes_another_record() {
    let found = step_breaches(|row, record, _, answer| {
        row[(record + 1) % RECORDS][816] ^= 1;
        answer
    });
    assert_breaches!(found, Breach::WritesBeside { .. });
}

#[test]
fn a_step_that_changes_the_site_of_its_record() {
    let found = step_breaches(|row, record, _, answer| {
        row[record][1] += 1;
        answer
    });
    assert_breaches!(found, Breach::NoState { .. });
}

#[test]
fn colours_one_output_too_far() {
    let found = step_breaches(|row, record, outputs, answer| {
        let first = usize::from(row[record][1]);
        let groups = usize::from(row[record][4 + 5]);
        outputs[first..first + groups].rotate_right(1);
        answer
    });
    assert_breaches!(
        found,
        Breach::Uncleared { .. } | Breach::StaysOpen { .. } | Breach::GreenTogether { .. }
    );
}

#[test]
fn a_site_that_stands_still() {
    let found = step_breaches(|row, record, _, answer| {
        let (_, state) = parts_in(row, record).unwrap();
        state[..PLAIN_LEN].copy_from_slice(&model::fresh().to_bytes());
        answer
    });
    assert_breaches!(found, Breach::PhaseWaits { .. } | Breach::WalkWaits { .. });
}

#[test]
fn a_site_that_goes_back_to_its_own_times() {
    let found = step_breaches(|row, record, _, answer| {
        change_state(row, record, |personality, timed| {
            timed.ruling = times_of(personality);
            timed.state.gap_count = 0;
            timed.state.maximum_count = 0;
        });
        answer
    });
    assert_breaches!(
        found,
        Breach::WrongTimes { .. } | Breach::PhaseWaits { .. } | Breach::WalkWaits { .. }
    );
}

#[test]
fn new_times_that_a_step_forgets() {
    let found = step_breaches(|row, record, _, answer| {
        change_state(row, record, |_, timed| timed.waiting = None);
        answer
    });
    assert_breaches!(found, Breach::WrongTimes { .. });
}

#[test]
fn the_wait_of_the_personality_whatever_times_rule() {
    let found = step_breaches(|row, record, _, _| {
        let (personality, _) = parts_in(row, record).unwrap();
        packed::wait_bound(personality)
    });
    assert_breaches!(found, Breach::WrongWait { .. });
}

#[test]
fn a_site_placed_with_times_that_wait() {
    let found = breaches(Cabinet {
        place: |row, record, _, answer| {
            change_state(row, record, |personality, timed| {
                timed.waiting = Some(times_of(personality));
            });
            answer
        },
        ..RIGHT
    });
    assert_breaches!(found, Breach::NotFresh);
}

#[test]
fn a_retiming_that_is_refused_in_a_cabinet() {
    let found = breaches(Cabinet {
        retime: |_, _, _| Number::WrongRecord as u64,
        ..RIGHT
    });
    assert_breaches!(found, Breach::WrongAnswer { .. });
}

#[test]
fn a_retiming_that_leaves_the_state() {
    let found = breaches(Cabinet {
        retime: |personality, state, new| packed::retime(personality, &mut state.to_vec(), new),
        ..RIGHT
    });
    assert_breaches!(found, Breach::WrongTimes { .. });
}

#[test]
fn a_refused_retiming_that_writes() {
    let found = breaches(Cabinet {
        retime: |personality, state, new| {
            let answer = packed::retime(personality, state, new);
            if answer != 0 {
                state[0] ^= 1;
            }
            answer
        },
        ..RIGHT
    });
    assert_breaches!(found, Breach::RefusalWrites { .. });
}

//! Four sites in one cabinet: worked cases, the order of refusals, and what is
//! left as it was.

use generate::{
    any_second, broken_times, known_inputs, twice_damaged, valid_timed_state, Plan, Rng,
    TimesBreakage,
};
use model::packed::{self, number};
use model::{
    layout, parts_in, records_in, Record, RecordBytes, Site, TimedState, RECORDS, ROOM, STATE_LEN,
};

const SEED: u64 = 24;
const CANARY: u8 = 0xA5;

const RED: u8 = 0;
const DARK: u8 = 4;

/// A cabinet: a row of four records, and a buffer of 32 outputs and some more.
#[derive(Clone, Debug, PartialEq, Eq)]
struct Cabinet {
    row: Vec<RecordBytes>,
    outputs: Vec<u8>,
}

impl Cabinet {
    fn empty() -> Cabinet {
        Cabinet {
            outputs: vec![RED; 32],
            ..Cabinet::with([Record::FREE; RECORDS])
        }
    }

    /// A cabinet with these records, its outputs recognizable.
    fn with(records: [Record; RECORDS]) -> Cabinet {
        Cabinet {
            row: records.each_ref().map(Record::to_bytes).to_vec(),
            outputs: vec![CANARY; 40],
        }
    }

    fn record(&self, record: usize) -> Record {
        Record::from_bytes(&self.row[record])
    }

    /// Makes a call. A refusal must leave everything as it was.
    fn call(&mut self, call: impl FnOnce(&mut [RecordBytes], &mut [u8]) -> u64) -> u64 {
        let before = self.clone();
        let answer = call(&mut self.row, &mut self.outputs);
        assert!(number(answer) == 0 || *self == before, "{answer:#x}");
        answer
    }

    fn place(&mut self, record: usize, personality: &[u8], first: usize) -> u64 {
        self.call(|row, outputs| packed::cabinet_place(row, record, personality, first, outputs))
    }

    fn step(&mut self, record: usize, inputs: u64) -> u64 {
        self.call(|row, outputs| packed::cabinet_step(row, record, inputs, outputs))
    }

    fn take_out(&mut self, record: usize) -> u64 {
        self.call(|row, outputs| packed::cabinet_take_out(row, record, outputs))
    }

    /// A retiming of the site of a record, on its parts in the row.
    fn retime(&mut self, record: usize, new_personality: &[u8]) -> u64 {
        self.call(|row, _| {
            let (personality, state) = parts_in(row, record).unwrap();
            packed::retime(personality, state, new_personality)
        })
    }
}

fn junction() -> Vec<u8> {
    Plan::junction().bytes()
}

/// A personality of one group.
fn one_group() -> Vec<u8> {
    Plan::smallest().bytes()
}

/// The bytes of the fresh state of a personality.
fn fresh(personality: &[u8]) -> [u8; STATE_LEN] {
    TimedState::fresh(&Site::read(personality).unwrap()).to_bytes()
}

/// A record that holds the junction of two phases at a first output.
fn held(first: u8) -> Record {
    let mut record = Record {
        held: 1,
        first,
        length: 68,
        state: fresh(&junction()),
        ..Record::FREE
    };
    record.room[..68].copy_from_slice(&junction());
    record
}

/// A record that holds the junction with a yellow of A that is too short.
fn refused(first: u8) -> Record {
    let mut record = held(first);
    record.room[20] = 29;
    record
}

const REFUSED: u64 = 20 << 8 | 5;

#[test]
fn the_worked_case() {
    let mut cabinet = Cabinet::empty();
    let site = junction();
    assert_eq!(cabinet.place(0, &site, 0), 0);
    assert_eq!(cabinet.place(1, &site, 1), 25);
    assert_eq!(cabinet.place(1, &site, 2), 0);
    assert_eq!(cabinet.step(1, 0), 270 << 8);
    assert_eq!(cabinet.step(0, 1 << 2), 15);
    assert_eq!(cabinet.take_out(2), 24);
    assert_eq!(cabinet.take_out(0), 0);
    assert_eq!(cabinet.place(3, &site, 30), 0);
    assert_eq!(cabinet.place(2, &site, 31), 25);
    assert_eq!(cabinet.step(4, 0), 24);
    assert_eq!(cabinet.outputs[..2], [DARK; 2]);
    assert_eq!(cabinet.outputs[2..], [RED; 30]);
    assert_eq!(cabinet.record(0), Record::FREE);
    assert_eq!(cabinet.record(2), Record::FREE);
    assert_eq!(cabinet.record(3), held(30));
}

#[test]
fn a_placed_site_begins_fresh_with_its_outputs_red() {
    let mut cabinet = Cabinet::with([Record::FREE; RECORDS]);
    assert_eq!(cabinet.place(2, &junction(), 5), 0);
    let record = &cabinet.row[2];
    assert_eq!(record[..4], [1, 5, 68, 0]);
    assert_eq!(record[4..72], junction());
    assert!(record[72..481].iter().all(|&byte| byte == 0));
    assert_eq!(record[481..], fresh(&junction()));
    // Start red and the first times of A rule; none wait.
    assert_eq!(record[481 + 39..481 + 45], [10, 0, 0, 0, 20, 0]);
    assert!(record[481 + 187..].iter().all(|&byte| byte == 0));
    let others = cabinet.row[..2].iter().chain(&cabinet.row[3..]);
    assert!(others.flatten().all(|&byte| byte == 0));
    assert_eq!(cabinet.outputs[5..7], [RED; 2]);
    let others = cabinet.outputs[..5].iter().chain(&cabinet.outputs[7..]);
    assert!(others.copied().all(|byte| byte == CANARY));
}

#[test]
fn nothing_of_a_former_site_is_left() {
    let old = Record {
        held: 0,
        first: 7,
        length: 477,
        room: [CANARY; ROOM],
        state: [CANARY; STATE_LEN],
    };
    let mut cabinet = Cabinet::with([old; RECORDS]);
    assert_eq!(cabinet.step(1, 0), 24);
    assert_eq!(cabinet.take_out(1), 24);
    assert_eq!(cabinet.place(1, &junction(), 0), 0);
    assert_eq!(cabinet.record(1), held(0));
    assert_eq!(cabinet.record(0), old);
    assert_eq!(cabinet.take_out(1), 0);
    assert_eq!(cabinet.record(1), Record::FREE);
}

#[test]
fn taking_out_turns_the_outputs_of_the_site_dark() {
    let mut cabinet = Cabinet::with([held(0), held(2), held(4), held(30)]);
    assert_eq!(cabinet.take_out(1), 0);
    let records = [held(0), Record::FREE, held(4), held(30)];
    assert_eq!(records_in(&cabinet.row), Some(records));
    assert_eq!(cabinet.outputs[2..4], [DARK; 2]);
    assert_eq!(cabinet.outputs[..2], [CANARY; 2]);
    assert_eq!(cabinet.outputs[4..], [CANARY; 36]);
    assert_eq!(cabinet.take_out(1), 24);
    assert_eq!(cabinet.place(1, &junction(), 2), 0);
    assert_eq!(cabinet.outputs[2..4], [RED; 2]);
}

#[test]
fn a_step_writes_the_state_and_the_outputs_of_its_site_only() {
    let mut records = [held(0), held(2), refused(9), Record::FREE];
    // Bytes behind the personality are of no account, and stay.
    records[1].room[68..].fill(CANARY);
    records[1].held = CANARY;
    let mut cabinet = Cabinet::with(records);
    for _ in 1..10 {
        assert_eq!(cabinet.step(1, 0), 270 << 8);
    }
    assert_eq!(cabinet.outputs[2..4], [0, 0]);
    assert_eq!(cabinet.step(1, 0), 270 << 8);
    assert_eq!(cabinet.outputs[2..4], [2, 0]);
    assert_eq!(cabinet.outputs[..2], [CANARY; 2]);
    assert_eq!(cabinet.outputs[4..], [CANARY; 36]);
    let mut state = fresh(&junction());
    for _ in 0..10 {
        packed::step(&junction(), &mut state, 0, &mut [0; 2]);
    }
    records[1].state = state;
    assert_eq!(records_in(&cabinet.row), Some(records));
}

#[test]
fn sites_run_as_if_each_were_alone() {
    let mut rng = Rng::new(SEED);
    for _ in 0..20 {
        let plans = [3, 8, 5, 16].map(|most| Plan::small(&mut rng, most));
        let mut cabinet = Cabinet::empty();
        let mut alone = Vec::new();
        let mut first = 0;
        for (record, plan) in plans.iter().enumerate() {
            let personality = plan.bytes();
            assert_eq!(cabinet.place(record, &personality, first), 0);
            let groups = plan.groups.len();
            let state = fresh(&personality);
            alone.push((personality, state, vec![RED; groups], first));
            first += groups;
        }
        for _ in 0..2_000 {
            let record = rng.below(RECORDS);
            let (personality, state, colours, first) = &mut alone[record];
            if rng.percent(3) {
                let new = any_second(&mut rng, personality);
                let answer = packed::retime(personality, state, &new);
                assert_eq!(cabinet.retime(record, &new), answer);
                continue;
            }
            let site = Site::read(personality).unwrap();
            let inputs = known_inputs(&mut rng, &site);
            let answer = packed::step(personality, state, inputs, colours);
            assert_eq!(cabinet.step(record, inputs), answer);
            assert_eq!(cabinet.outputs[*first..][..colours.len()], colours[..]);
        }
        for (record, (_, state, _, _)) in alone.iter().enumerate() {
            assert_eq!(cabinet.record(record).state, *state);
        }
        let shown: Vec<u8> = alone.iter().flat_map(|site| site.2.clone()).collect();
        assert_eq!(cabinet.outputs[..first], shown);
    }
}

#[test]
fn placing_refuses_personality_then_record_then_outputs_then_buffer() {
    let mut cabinet = Cabinet::with([held(0), Record::FREE, Record::FREE, held(10)]);
    cabinet.outputs.truncate(31);
    let mut wrong = junction();
    wrong[20] = 29;
    assert_eq!(cabinet.place(0, &wrong, 31), REFUSED);
    assert_eq!(cabinet.place(9, &[], 31), 1);
    assert_eq!(cabinet.place(0, &junction(), 31), 24);
    assert_eq!(cabinet.place(4, &junction(), 31), 24);
    assert_eq!(cabinet.place(1, &junction(), 31), 25);
    assert_eq!(cabinet.place(1, &junction(), 11), 25);
    assert_eq!(cabinet.place(1, &junction(), 12), 14);
    cabinet.outputs.push(CANARY);
    assert_eq!(cabinet.place(1, &junction(), 12), 0);
}

#[test]
fn stepping_refuses_record_then_personality_then_outputs_then_the_step_then_buffer() {
    let mut cabinet = Cabinet::with([refused(31), held(31), held(4), Record::FREE]);
    cabinet.row[1][481] = 9;
    cabinet.row[2][481] = 9;
    cabinet.outputs.truncate(31);
    assert_eq!(cabinet.step(3, 4), 24);
    assert_eq!(cabinet.step(4, 4), 24);
    assert_eq!(cabinet.step(0, 4), REFUSED);
    assert_eq!(cabinet.step(1, 4), 25);
    assert_eq!(cabinet.step(2, 4), 13);
    cabinet.row[2][481] = 0;
    assert_eq!(cabinet.step(2, 4), 15);
    assert_eq!(cabinet.step(2, 3), 14);
    cabinet.outputs.push(CANARY);
    assert_eq!(cabinet.step(2, 3), 270 << 8);
}

#[test]
fn taking_out_refuses_record_then_personality_then_outputs_then_buffer() {
    let mut cabinet = Cabinet::with([refused(31), held(31), held(4), Record::FREE]);
    cabinet.outputs.truncate(31);
    assert_eq!(cabinet.take_out(3), 24);
    assert_eq!(cabinet.take_out(4), 24);
    assert_eq!(cabinet.take_out(0), REFUSED);
    assert_eq!(cabinet.take_out(1), 25);
    assert_eq!(cabinet.take_out(2), 14);
    cabinet.outputs.push(CANARY);
    assert_eq!(cabinet.take_out(2), 0);
}

#[test]
fn a_state_that_is_none_or_not_valid_is_13_for_its_own_step_only() {
    let mut no_state = held(0);
    no_state.state = [CANARY; STATE_LEN];
    let mut invalid = held(2);
    invalid.state[0] = 2;
    let mut cabinet = Cabinet::with([no_state, invalid, held(4), Record::FREE]);
    assert_eq!(cabinet.step(0, 0), 13);
    assert_eq!(cabinet.step(1, 0), 13);
    assert_eq!(cabinet.step(2, 0), 270 << 8);
    assert_eq!(cabinet.place(3, &junction(), 1), 25);
    assert_eq!(cabinet.place(3, &junction(), 6), 0);
    assert_eq!(cabinet.take_out(0), 0);
    assert_eq!(cabinet.take_out(1), 0);
}

#[test]
fn every_number_but_0_holds_a_record() {
    for byte in 1..=255 {
        let mut record = held(0);
        record.held = byte;
        let mut cabinet = Cabinet::with([record, Record::FREE, Record::FREE, Record::FREE]);
        assert_eq!(cabinet.place(0, &junction(), 4), 24);
        assert_eq!(cabinet.place(1, &junction(), 1), 25);
        assert_eq!(cabinet.step(0, 0), 270 << 8);
        assert_eq!(cabinet.record(0).held, byte);
        assert_eq!(cabinet.take_out(0), 0);
        assert_eq!(cabinet.place(0, &junction(), 1), 0);
    }
}

#[test]
fn a_length_above_the_room_counts_as_the_room() {
    let mut largest = Record {
        held: 1,
        state: fresh(&Plan::largest().bytes()),
        ..Record::FREE
    };
    largest.room.copy_from_slice(&Plan::largest().bytes());
    let bound = packed::wait_bound(&Plan::largest().bytes());
    for length in [477, 478, 733, u16::MAX] {
        largest.length = length;
        let mut cabinet = Cabinet::with([largest, Record::FREE, Record::FREE, Record::FREE]);
        assert_eq!(cabinet.place(1, &one_group(), 31), 25);
        assert_eq!(cabinet.step(0, 0), bound);
        assert_eq!(cabinet.retime(0, &Plan::largest().bytes()), 0);
        assert_eq!(cabinet.record(0).length, length);
        assert_eq!(cabinet.take_out(0), 0);
    }
    let mut zeros_behind = held(0);
    for length in [69, 477, 478, u16::MAX] {
        zeros_behind.length = length;
        let mut cabinet = Cabinet::with([zeros_behind; RECORDS]);
        assert_eq!(cabinet.step(0, 0), 68 << 8 | 12);
        assert_eq!(cabinet.take_out(0), 68 << 8 | 12);
    }
}

#[test]
fn a_record_of_a_refused_personality_takes_no_outputs_and_is_not_free() {
    let mut cabinet = Cabinet::with([refused(0), refused(2), Record::FREE, Record::FREE]);
    assert_eq!(cabinet.place(0, &junction(), 0), 24);
    assert_eq!(cabinet.step(0, 0), REFUSED);
    assert_eq!(cabinet.take_out(0), REFUSED);
    assert_eq!(cabinet.place(2, &junction(), 0), 0);
    assert_eq!(cabinet.place(3, &junction(), 1), 25);
    assert_eq!(cabinet.place(3, &junction(), 2), 0);
}

#[test]
fn a_record_takes_outputs_past_the_last_from_nobody() {
    for first in 32..=255 {
        let mut cabinet = Cabinet::with([held(first), Record::FREE, Record::FREE, Record::FREE]);
        assert_eq!(cabinet.place(1, &Plan::largest().bytes(), 0), 0);
        assert_eq!(cabinet.step(0, 0), 25);
        assert_eq!(cabinet.take_out(0), 25);
    }
    // Its first output is the last one.
    let mut cabinet = Cabinet::with([held(31), Record::FREE, Record::FREE, Record::FREE]);
    assert_eq!(cabinet.place(1, &one_group(), 31), 25);
    assert_eq!(cabinet.place(1, &one_group(), 30), 0);
    assert_eq!(cabinet.step(0, 0), 25);
    assert_eq!(cabinet.take_out(0), 25);
}

#[test]
fn outputs_that_two_records_share_are_those_of_both() {
    // No placing leads here, and any bytes are a row.
    let mut cabinet = Cabinet::with([held(0), held(1), Record::FREE, Record::FREE]);
    assert_eq!(cabinet.step(0, 0), 270 << 8);
    assert_eq!(cabinet.step(1, 0), 270 << 8);
    assert_eq!(cabinet.take_out(0), 0);
    assert_eq!(cabinet.outputs[..4], [DARK, DARK, RED, CANARY]);
    assert_eq!(cabinet.place(0, &junction(), 0), 25);
    assert_eq!(cabinet.take_out(1), 0);
    assert_eq!(cabinet.place(0, &junction(), 0), 0);
}

#[test]
fn every_first_output_beside_a_placed_site() {
    let sites = [
        one_group(),
        junction(),
        Plan::turning_arrow(Some(vec![0; 2])).bytes(),
    ];
    for (one, own) in sites.iter().zip(1..) {
        for (other, groups) in sites.iter().zip(1..) {
            for at in 0..=32 - groups {
                for first in 0..40 {
                    let mut cabinet = Cabinet::empty();
                    assert_eq!(cabinet.place(3, other, at), 0);
                    let outputs: Vec<usize> = (first..first + own).collect();
                    let shared = outputs
                        .iter()
                        .any(|output| (at..at + groups).contains(output));
                    let past = outputs.iter().any(|&output| output > 31);
                    let expected = if shared || past { 25 } else { 0 };
                    assert_eq!(cabinet.place(0, one, first), expected, "{own} at {first}");
                }
            }
        }
    }
}

#[test]
fn first_outputs_of_any_size() {
    let mut cabinet = Cabinet::empty();
    let far = [
        33,
        255,
        256,
        288,
        1 << 16,
        1 << 32,
        usize::MAX - 1,
        usize::MAX,
    ];
    for first in far.into_iter().chain([31, 32]) {
        assert_eq!(cabinet.place(0, &junction(), first), 25, "{first}");
    }
    assert_eq!(cabinet.place(0, &Plan::largest().bytes(), 1), 25);
    assert_eq!(cabinet.place(0, &Plan::largest().bytes(), 0), 0);
    assert_eq!(
        cabinet.step(0, 0),
        packed::wait_bound(&Plan::largest().bytes())
    );
    assert_eq!(cabinet.take_out(0), 0);
    assert_eq!(cabinet.outputs, [DARK; 32]);
    assert_eq!(cabinet.place(0, &junction(), 30), 0);
}

#[test]
fn records_of_any_number() {
    let mut cabinet = Cabinet::with([held(0), held(2), held(4), Record::FREE]);
    for record in [4, 5, 256, 259, 1 << 32, usize::MAX] {
        assert_eq!(cabinet.place(record, &junction(), 6), 24);
        assert_eq!(cabinet.step(record, 0), 24);
        assert_eq!(cabinet.take_out(record), 24);
    }
}

#[test]
fn another_number_of_records_means_that_there_is_none() {
    let four = Cabinet::with([held(0), held(2), held(4), Record::FREE]).row;
    for records in [0, 1, 2, 3, 5, 6, 7, 8, 16] {
        let mut cabinet = Cabinet {
            row: four.iter().copied().cycle().take(records).collect(),
            outputs: vec![CANARY; 31],
        };
        for record in 0..RECORDS {
            assert_eq!(cabinet.place(record, &[], 31), 1);
            assert_eq!(cabinet.place(record, &junction(), 31), 24);
            assert_eq!(cabinet.step(record, 4), 24);
            assert_eq!(cabinet.take_out(record), 24);
        }
    }
}

#[test]
fn buffers_of_every_length() {
    for length in 0..40 {
        let expected = if length < 32 { 14 } else { 0 };
        let mut cabinet = Cabinet {
            outputs: vec![CANARY; length],
            ..Cabinet::with([held(0), held(2), Record::FREE, Record::FREE])
        };
        assert_eq!(cabinet.place(2, &junction(), 4), expected);
        assert_eq!(number(cabinet.step(1, 0)), expected as u8);
        assert_eq!(cabinet.take_out(0), expected);
    }
}

#[test]
fn a_held_personality_is_refused_as_if_it_were_read() {
    let mut rng = Rng::new(SEED);
    let mut found = 0;
    for _ in 0..300 {
        let personality = twice_damaged(&mut rng);
        let answer = packed::read(&personality);
        let mut cabinet = Cabinet::empty();
        assert_eq!(cabinet.place(0, &personality, 0), answer);
        if personality.len() > ROOM {
            continue;
        }
        let mut record = Record {
            held: 1,
            length: personality.len() as u16,
            ..Record::FREE
        };
        record.room[..personality.len()].copy_from_slice(&personality);
        let mut cabinet = Cabinet::with([Record::FREE, record, Record::FREE, Record::FREE]);
        assert_eq!(cabinet.step(1, 0), answer);
        assert_eq!(cabinet.take_out(1), answer);
        assert_eq!(cabinet.place(1, &junction(), 0), 24);
        found += 1;
    }
    assert!(found >= 200, "{found}");
}

#[test]
fn a_step_from_any_valid_state_is_that_of_the_site_alone() {
    let mut rng = Rng::new(SEED);
    for _ in 0..300 {
        let plan = Plan::small(&mut rng, 12);
        let personality = plan.bytes();
        let site = Site::read(&personality).unwrap();
        let groups = plan.groups.len();
        let first = rng.range(0, 32 - groups);
        let mut state = valid_timed_state(&mut rng, &personality, &site).to_bytes();
        let mut record = Record {
            held: 1,
            first: first as u8,
            length: personality.len() as u16,
            state,
            ..Record::FREE
        };
        record.room[..personality.len()].copy_from_slice(&personality);
        let mut cabinet = Cabinet::with([record; RECORDS]);
        let inputs = known_inputs(&mut rng, &site);
        let mut colours = vec![0; groups];
        let answer = packed::step(&personality, &mut state, inputs, &mut colours);
        assert_eq!(number(answer), 0);
        assert_eq!(cabinet.step(2, inputs), answer);
        let mut outputs = vec![CANARY; 40];
        outputs[first..first + groups].copy_from_slice(&colours);
        assert_eq!(cabinet.outputs, outputs);
        let stepped = Record { state, ..record };
        let records = [record, record, stepped, record];
        assert_eq!(records_in(&cabinet.row), Some(records));
    }
}

/// The junction of two phases with longer times, and a wait of 460.
fn longer() -> Vec<u8> {
    let plan = Plan {
        start_red: 20,
        phases: vec![[0, 40, 60, 10, 40, 20]; 2],
        ..Plan::junction()
    };
    plan.bytes()
}

#[test]
fn a_retiming_leaves_the_other_records_and_the_outputs() {
    let records = [held(0), held(2), refused(9), held(4)];
    let mut cabinet = Cabinet::with(records);
    let outputs = cabinet.outputs.clone();
    assert_eq!(cabinet.retime(1, &longer()), 0);
    let mut waits = TimedState::from_bytes(&records[1].state).unwrap();
    let new = longer();
    waits.waiting = Some(model::Times::of(&Site::read(&new).unwrap()));
    let retimed = Record {
        state: waits.to_bytes(),
        ..records[1]
    };
    let expected = [records[0], retimed, records[2], records[3]];
    assert_eq!(records_in(&cabinet.row), Some(expected));
    assert_eq!(cabinet.outputs, outputs);
}

#[test]
fn new_times_rule_at_one_site_only() {
    let mut cabinet = Cabinet::empty();
    assert_eq!(cabinet.place(0, &junction(), 0), 0);
    assert_eq!(cabinet.place(3, &junction(), 30), 0);
    let mut waits = Vec::new();
    for step in 1..=111 {
        if step == 20 {
            assert_eq!(cabinet.retime(3, &longer()), 0);
        }
        let inputs = if step == 12 { 2 } else { 0 };
        let answers = [0, 3].map(|record| cabinet.step(record, inputs));
        assert_eq!(answers[0], 270 << 8);
        waits.push(packed::rest(answers[1]));
    }
    assert!(waits[..70].iter().all(|&wait| wait == 270));
    assert!(waits[70..].iter().all(|&wait| wait == 460));
    // B runs at both, and minimum green has lasted 20 steps at one and 40 at the other.
    let running = |record: usize| cabinet.record(record).state[..4].to_vec();
    assert_eq!(running(0), [1, 3, 21, 0]);
    assert_eq!(running(3), [1, 3, 1, 0]);
    // The personality in the record stays, and so does everything behind it.
    assert_eq!(cabinet.record(3).personality(), junction());
    let again = {
        assert_eq!(cabinet.take_out(3), 0);
        assert_eq!(cabinet.place(3, &junction(), 30), 0);
        cabinet.record(3)
    };
    assert_eq!(again, held(30));
}

#[test]
fn retimings_refused_in_a_cabinet() {
    let mut cabinet = Cabinet::with([held(0), refused(2), held(4), Record::FREE]);
    cabinet.row[2][481] = 9;
    let mut other = longer();
    other[61] = 2;
    let mut wrong = longer();
    wrong[20] = 29;
    assert_eq!(cabinet.retime(0, &other), 26);
    assert_eq!(cabinet.retime(0, &wrong), REFUSED);
    assert_eq!(cabinet.retime(1, &longer()), REFUSED);
    assert_eq!(cabinet.retime(2, &wrong), 13);
    // A free record of zeros has no personality.
    assert_eq!(cabinet.retime(3, &longer()), 1);
    assert_eq!(cabinet.retime(0, &longer()), 0);
}

#[test]
fn times_that_do_not_fit_are_13_for_their_own_step_only() {
    let mut rng = Rng::new(SEED);
    let personality = junction();
    let site = Site::read(&personality).unwrap();
    for breakage in TimesBreakage::ALL {
        let mut record = held(2);
        let broken = broken_times(&mut rng, &personality, &site, breakage).unwrap();
        record.state.copy_from_slice(&broken);
        let mut cabinet = Cabinet::with([held(0), record, Record::FREE, Record::FREE]);
        assert_eq!(cabinet.step(1, 0), 13, "{breakage:?}");
        assert_eq!(cabinet.retime(1, &personality), 13, "{breakage:?}");
        assert_eq!(cabinet.step(0, 0), 270 << 8);
        assert_eq!(cabinet.place(2, &personality, 3), 25);
        assert_eq!(cabinet.take_out(1), 0);
    }
}

#[test]
fn a_site_of_edition_two_keeps_it_in_a_cabinet() {
    let two = Plan::junction_two().bytes();
    let mut cabinet = Cabinet::empty();
    assert_eq!(cabinet.place(0, &two, 0), 0);
    assert_eq!(cabinet.step(0, 0), 310 << 8);
    let mut one = two.clone();
    one[2] = 1;
    assert_eq!(packed::read(&one), 0);
    assert_eq!(cabinet.retime(0, &one), 26);
    let mut short = two.clone();
    short[22] = 14;
    assert_eq!(cabinet.retime(0, &short), 22 << 8 | 5);
    short[2] = 1;
    assert_eq!(cabinet.retime(0, &short), 26);
    // An all-red of A that edition one allows.
    let all_red = 481 + layout::RULING + 2 + 10;
    assert_eq!(cabinet.row[0][all_red], 15);
    cabinet.row[0][all_red] = 14;
    assert_eq!(cabinet.step(0, 0), 13);
    cabinet.row[0][all_red] = 15;
    assert_eq!(cabinet.step(0, 0), 310 << 8);
    assert_eq!(cabinet.retime(0, &two), 0);
}

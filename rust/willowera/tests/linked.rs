//! The wrappers over the linked library, on the junction of two phases.

#![cfg(feature = "linked")]

use willowera::{
    colour, interval, packed, read, refusal, section, stage, version, version_fits, wait_bound,
    Controller, Movement, Refusal, SEALED_LEN, STATE_LEN, VERSION,
};

/// The junction of two phases of document 01.
const JUNCTION: [u8; 68] = [
    4, 0, 1, 0, 2, 2, 10, 0, //
    24, 0, 2, 0, 0, 0, 20, 0, 30, 0, 5, 0, 30, 0, 10, 0, //
    0, 0, 20, 0, 30, 0, 5, 0, 30, 0, 10, 0, //
    4, 0, 3, 0, 1, 0, 2, 0, //
    8, 0, 4, 0, 2, 0, 0, 0, 1, 0, 0, 0, //
    4, 0, 5, 0, 0, 6, 1, 6, //
    0, 0, 6, 0,
];

#[test]
fn reads_and_waits() {
    assert_eq!(read(&JUNCTION), Ok(()));
    assert_eq!(wait_bound(&JUNCTION), Ok(270));
    let cut = Refusal {
        number: 1,
        place: 64,
    };
    assert_eq!(read(&JUNCTION[..66]), Err(cut));
    assert_eq!(wait_bound(&JUNCTION[..66]), Err(cut));
    assert_eq!(version(), VERSION);
    assert!(version_fits());
}

#[test]
fn waits_of_phases_and_movements() {
    use willowera::{waits, Waits, MOST_WAIT_BYTES};
    let junction = Waits {
        phases: vec![130, 130],
        movements: vec![],
    };
    assert_eq!(waits(&JUNCTION), Ok(junction));
    let cut = waits(&JUNCTION[..66]).unwrap_err();
    assert_eq!((cut.number, cut.place), (refusal::CUT_SHORT, 64));
    for length in 0..MOST_WAIT_BYTES {
        let mut buffer = vec![0xA5; length];
        let answer = packed::waits(&JUNCTION, &mut buffer);
        if length < 4 {
            assert_eq!(answer, u64::from(refusal::BUFFER_SHORT));
        } else {
            assert_eq!(answer, 4 << 8);
            assert_eq!(buffer[..4], [130, 0, 130, 0]);
            buffer.drain(..4);
        }
        assert!(buffer.iter().all(|&byte| byte == 0xA5), "{length}");
    }
}

#[test]
fn groups_of_a_personality() {
    use willowera::groups;
    assert_eq!(groups(&JUNCTION), Ok(2));
    assert_eq!(Controller::new(&JUNCTION).unwrap().groups(), 2);
    let left_over = Refusal {
        number: refusal::LEFT_OVER,
        place: 68,
    };
    let longer: Vec<u8> = JUNCTION.iter().copied().chain([0]).collect();
    assert_eq!(groups(&longer), Err(left_over));
}

#[test]
fn sections_are_parts_of_the_personality() {
    assert_eq!(section(&JUNCTION, 5), Ok([0, 6, 1, 6].as_slice()));
    assert_eq!(section(&JUNCTION, 6), Ok([].as_slice()));
    assert_eq!(section(&JUNCTION, 7).unwrap_err().number, 2);
}

#[test]
fn edition_two_of_the_limits() {
    let mut two = JUNCTION;
    // The kind of the site section, start red, and the all-reds of A and B.
    two[2] = 8;
    two[6] = 30;
    two[22] = 15;
    two[34] = 15;
    let with = |at: usize, byte: u8| {
        let mut bytes = two;
        bytes[at] = byte;
        read(&bytes)
    };
    let refused = |number, place| Err(Refusal { number, place });
    assert_eq!(read(&two), Ok(()));
    assert_eq!(wait_bound(&two), Ok(310));
    assert_eq!(with(6, 29), refused(5, 6));
    assert_eq!(with(22, 14), refused(5, 22));
    assert_eq!(with(34, 14), refused(5, 34));
    assert_eq!(with(2, 1), Ok(()));
    for kind in [0, 2, 9] {
        assert_eq!(with(2, kind), refused(2, 0));
    }
    assert_eq!(section(&two, 8), Ok([2, 2, 30, 0].as_slice()));
    assert_eq!(section(&two, 1).unwrap_err().number, 2);
    assert_eq!(section(&JUNCTION, 8).unwrap_err().number, 2);
    assert!(Controller::new(&two).is_ok());
}

#[test]
fn settings_of_a_sheet() {
    use willowera::{settings, Detector, Settings};
    let given = |minimum_green, passage_time| {
        Ok(Settings {
            minimum_green,
            passage_time,
        })
    };
    assert_eq!(settings(32, Detector::Advance(18.0)), given(100, 21));
    assert_eq!(settings(32, Detector::StopLine(18.0)), given(100, 0));
    let refused = |number| Err(Refusal { number, place: 0 });
    assert_eq!(settings(32, Detector::Advance(f64::NAN)), refused(19));
    assert_eq!(settings(32, Detector::StopLine(300.0)), refused(20));
    assert_eq!(packed::settings(32, 2, 18.0), 19);
}

#[test]
fn roads_of_the_junction() {
    use willowera::{road, Stream, Vehicles};
    let stream = |detector, group, rate| Stream {
        detector,
        group,
        rate,
    };
    let vehicles = |queued, gone| Vehicles { queued, gone };
    // Phase, interval (2 minimum green, 3 running, 5 yellow) and age.
    let hour = road(&JUNCTION, &[stream(0, 0, 600), stream(1, 1, 300)], 36_000).unwrap();
    assert_eq!(hour.vehicles, [vehicles(4, 596), vehicles(1, 299)]);
    assert_eq!(hour.state[..4], [1, 5, 28, 0]);
    let full = [stream(0, 0, 1800), stream(1, 1, 1800)];
    let short = road(&JUNCTION, &full, 200).unwrap();
    assert_eq!(short.vehicles, [vehicles(8, 2), vehicles(8, 2)]);
    assert_eq!(short.state[..4], [0, 2, 11, 0]);
    let long = road(&JUNCTION, &full, 36_000).unwrap();
    assert_eq!(long.vehicles, [vehicles(1400, 400); 2]);
    let one_detector = [stream(1, 0, 1800), stream(1, 1, 900)];
    let shared = road(&JUNCTION, &one_detector, 200).unwrap();
    assert_eq!(shared.vehicles, [vehicles(10, 0), vehicles(1, 4)]);
    assert_eq!(shared.state[..4], [1, 3, 110, 0]);
}

#[test]
fn roads_refused() {
    use willowera::{road, Stream};
    let stream = |detector, group, rate| Stream {
        detector,
        group,
        rate,
    };
    let refused = |number| Err(Refusal { number, place: 0 });
    let good = stream(0, 0, 1800);
    assert!(road(&JUNCTION, &[], 0).is_ok());
    assert!(road(&JUNCTION, &[good; 48], 1).is_ok());
    assert_eq!(road(&JUNCTION, &[good; 49], 1), refused(22));
    assert_eq!(road(&JUNCTION, &[good], 180_001), refused(22));
    assert_eq!(road(&JUNCTION, &[stream(0, 0, 1801)], 1), refused(22));
    assert_eq!(road(&JUNCTION, &[stream(2, 0, 1800)], 1), refused(22));
    assert_eq!(road(&JUNCTION, &[stream(0, 2, 1800)], 1), refused(22));
    assert_eq!(road(&[], &[good; 49], 1), refused(1));
    let mut state = [9; STATE_LEN];
    let one = [0, 0, 8, 7];
    assert_eq!(packed::road(&JUNCTION, &one, 1, &mut [], &mut []), 13);
    assert_eq!(
        packed::road(&JUNCTION, &one, 1, &mut state, &mut [0; 3]),
        14
    );
    assert_eq!(packed::road(&JUNCTION, &one[..3], 1, &mut [], &mut []), 22);
    assert_eq!(state, [9; STATE_LEN]);
}

#[test]
fn yellow_times() {
    use willowera::yellow;
    assert_eq!(yellow(72, 0), Ok(44));
    assert_eq!(yellow(40, 10), Ok(30));
    assert_eq!(yellow(110, -10), Ok(86));
    let refused = Err(Refusal {
        number: 23,
        place: 0,
    });
    assert_eq!(yellow(39, 0), refused);
    assert_eq!(yellow(72, 11), refused);
    assert_eq!(yellow(u32::MAX, i32::MIN), refused);
}

#[test]
fn steps_to_the_first_green() {
    let mut controller = Controller::new(&JUNCTION).unwrap();
    let mut colours = [9; 3];
    for _ in 1..10 {
        assert_eq!(controller.step(0, &mut colours), Ok(270));
        assert_eq!(colours, [0, 0, 9]);
    }
    assert_eq!(controller.step(0, &mut colours), Ok(270));
    assert_eq!(colours, [2, 0, 9]);
    assert_eq!(controller.state()[..2], [0, 2]);
    assert_eq!(controller.step(4, &mut colours).unwrap_err().number, 15);
    assert_eq!(
        controller.step(0, &mut colours[..1]).unwrap_err().number,
        14
    );
}

/// The junction with start red 20 and both phases M 40, X 60, G 10, Y 40, R 20.
fn longer() -> [u8; 68] {
    let mut bytes = JUNCTION;
    bytes[6] = 20;
    for phase in [12, 24] {
        bytes[phase..phase + 12].copy_from_slice(&[0, 0, 40, 0, 60, 0, 10, 0, 40, 0, 20, 0]);
    }
    bytes
}

#[test]
fn new_times_from_the_next_start_on() {
    let mut controller = Controller::new(&JUNCTION).unwrap();
    let mut colours = [9; 2];
    let mut shown = Vec::new();
    for step in 1..=111 {
        if step == 20 {
            assert_eq!(controller.retime(&longer()), Ok(()));
        }
        let detector = if step == 12 { 2 } else { 0 };
        let wait = controller.step(detector, &mut colours).unwrap();
        if [61, 70, 71, 111].contains(&step) {
            let [phase, interval, ..] = *controller.state();
            shown.push((step, phase, interval, colours, wait));
        }
    }
    assert_eq!(
        shown,
        [
            (61, 0, 6, [0, 0], 270),
            (70, 0, 6, [0, 0], 270),
            (71, 1, 2, [0, 2], 460),
            (111, 1, 3, [0, 2], 460),
        ]
    );
}

#[test]
fn retimings_refused() {
    let mut controller = Controller::new(&JUNCTION).unwrap();
    let before = *controller.state();
    let refused = |number, place| Err(Refusal { number, place });
    let mut other = longer();
    other[61] = 2;
    assert_eq!(controller.retime(&other), refused(26, 0));
    other[20] = 29;
    assert_eq!(controller.retime(&other), refused(5, 20));
    assert_eq!(controller.retime(&[]), refused(1, 0));
    assert_eq!(controller.state(), &before);
}

#[test]
fn a_controller_from_the_bytes_of_a_state() {
    let mut controller = Controller::new(&JUNCTION).unwrap();
    controller.retime(&longer()).unwrap();
    let mut stored = *controller.state();
    let mut again = Controller::from_state(&JUNCTION, &stored).unwrap();
    assert_eq!(again.state(), controller.state());
    for _ in 0..30 {
        let (mut one, mut other) = ([9; 2], [9; 2]);
        assert_eq!(again.step(0, &mut one), controller.step(0, &mut other));
        assert_eq!((again.state(), one), (controller.state(), other));
    }
    let number = |personality: &[u8], state: &[u8]| {
        let refused = Controller::from_state(personality, state);
        refused.unwrap_err().number
    };
    assert_eq!(number(&JUNCTION, &stored[1..]), 13);
    assert_eq!(number(&[], &stored), 1);
    stored[187] = 2;
    assert_eq!(number(&JUNCTION, &stored), 13);
}

#[test]
fn every_call_agrees_on_which_states_are_valid() {
    let mut controller = Controller::new(&JUNCTION).unwrap();
    for step in 1..=40 {
        let called = if step == 12 { 2 } else { 0 };
        controller.step(called, &mut [0; 2]).unwrap();
    }
    let mut refused = 0;
    for at in 0..STATE_LEN {
        for change in [1, 2, 128] {
            let mut state = *controller.state();
            state[at] ^= change;
            let from_state = Controller::from_state(&JUNCTION, &state);
            let sealed = packed::seal(&JUNCTION, &state, &mut [0; SEALED_LEN]);
            let stepped = packed::step(&JUNCTION, &mut state.clone(), 0, &mut [0; 2]);
            let number = from_state.map_or_else(|refusal| refusal.number, |_| 0);
            assert_eq!(u64::from(number), sealed, "{at} {change}");
            assert_eq!(number, stepped as u8, "{at} {change}");
            refused += u32::from(number == refusal::STATE_NOT_VALID);
        }
    }
    assert!(refused > 0);
}

#[test]
fn over_the_time_without_power() {
    let mut controller = Controller::new(&JUNCTION).unwrap();
    controller.retime(&longer()).unwrap();
    for _ in 0..5 {
        controller.step(2, &mut [0; 2]).unwrap();
    }
    let sealed = controller.seal().unwrap();
    assert_eq!(sealed[..3], [VERSION as u8, JUNCTION.len() as u8, 0]);
    assert_eq!(sealed[7..343], *controller.state());
    let mut resumed = Controller::resume(&JUNCTION, &sealed).unwrap();
    assert_eq!(resumed.groups(), 2);
    for _ in 0..200 {
        let (mut one, mut other) = ([9; 2], [9; 2]);
        assert_eq!(resumed.step(1, &mut one), controller.step(1, &mut other));
        assert_eq!((resumed.state(), one), (controller.state(), other));
    }
}

#[test]
fn sealed_records_refused() {
    let controller = Controller::new(&JUNCTION).unwrap();
    let sealed = controller.seal().unwrap();
    let number = |personality: &[u8], sealed: &[u8]| {
        let refused = Controller::resume(personality, sealed).unwrap_err();
        assert_eq!(
            (refused.place, refused.number == 1),
            (0, personality.is_empty())
        );
        refused.number
    };
    let mut older = sealed;
    older[0] -= 1;
    assert_eq!(number(&JUNCTION, &older), refusal::OTHER_VERSION);
    for at in 1..SEALED_LEN {
        let mut damaged = sealed;
        damaged[at] ^= 16;
        assert_eq!(number(&JUNCTION, &damaged), refusal::DAMAGED, "{at}");
    }
    assert_eq!(number(&JUNCTION, &sealed[..346]), refusal::DAMAGED);
    assert_eq!(number(&JUNCTION, &[]), refusal::DAMAGED);
    assert_eq!(number(&longer(), &sealed), refusal::OTHER_PERSONALITY);
    assert_eq!(number(&[], &sealed), refusal::CUT_SHORT);
    let (mut state, mut short) = (*controller.state(), [9; SEALED_LEN - 1]);
    assert_eq!(packed::seal(&JUNCTION, &state, &mut short), 14);
    assert_eq!(short, [9; SEALED_LEN - 1]);
    assert_eq!(packed::resume(&JUNCTION, &sealed, &mut state[1..]), 13);
    assert_eq!(packed::seal(&JUNCTION, &state[1..], &mut short), 13);
}

#[test]
fn fields_of_a_state() {
    let mut controller = Controller::new(&JUNCTION).unwrap();
    let idle = Movement {
        stage: stage::IDLE,
        age: 1,
    };
    for step in 1..=31 {
        let inputs = match step {
            12 => 2,
            30.. => 1,
            _ => 0,
        };
        controller.step(inputs, &mut [0; 2]).unwrap();
        let fields = controller.fields();
        assert_eq!((fields.phase(), fields.came_from()), (0, None));
        assert_eq!(fields.locked_demands(), if step < 12 { 0 } else { 2 });
        assert_eq!(fields.kept_set(), fields.locked_demands());
        assert_eq!(fields.button_demands(), 0);
        assert_eq!(fields.movements(), [idle; 8]);
        let (kind, first) = match step {
            ..10 => (interval::START_RED, 0),
            10..30 => (interval::MINIMUM_GREEN, 10),
            _ => (interval::RUNNING, 30),
        };
        let age = if first == 0 {
            step + 1
        } else {
            step - first + 1
        };
        assert_eq!((fields.interval(), fields.age()), (kind, age), "{step}");
    }
    // Detector 0 set the gap count in this step, and phase B is demanded.
    assert_eq!(controller.fields().gap_count(), 5);
    assert_eq!(controller.fields().maximum_count(), 1);
    assert_eq!(controller.fields().target(), None);
    assert!(!controller.fields().times_wait());
    controller.retime(&longer()).unwrap();
    assert!(controller.fields().times_wait());
    while controller.fields().interval() == interval::RUNNING {
        controller.step(0, &mut [0; 2]).unwrap();
    }
    let fields = controller.fields();
    assert_eq!((fields.phase(), fields.target()), (0, Some(1)));
    while controller.fields().phase() == 0 {
        controller.step(0, &mut [0; 2]).unwrap();
    }
    assert_eq!(controller.fields().came_from(), Some(0));
    assert!(!controller.fields().times_wait());
}

#[test]
fn fields_of_a_site_of_a_cabinet() {
    use willowera::{Cabinet, OUTPUTS};
    let mut cabinet = Cabinet::new();
    let mut outputs = [0; OUTPUTS];
    cabinet.place(1, &JUNCTION, 4, &mut outputs).unwrap();
    for _ in 0..10 {
        cabinet.step(1, 0, &mut outputs).unwrap();
    }
    let fields = cabinet.fields(1).unwrap();
    assert_eq!(fields.interval(), interval::MINIMUM_GREEN);
    assert_eq!(outputs[4..6], [colour::GREEN, colour::RED]);
    for record in [0, 4] {
        let refused = cabinet.fields(record).unwrap_err();
        assert_eq!(refused.number, refusal::WRONG_RECORD);
    }
}

#[test]
fn why_the_junction_holds() {
    use willowera::{Why, LONGEST_LINE};
    let mut controller = Controller::new(&JUNCTION).unwrap();
    let refused = |number| Refusal { number, place: 0 };
    let mut buffer = [9; LONGEST_LINE];
    for step in 1..=35 {
        controller.step(1, &mut [9; 2]).unwrap();
        if step < 30 {
            assert_eq!(controller.why_length(1), Ok(0));
            assert_eq!(controller.why(1, &mut []), Ok([].as_slice()));
        }
    }
    let before = *controller.state();
    let line = b"A holds, no other demand, gap 5, max 30".as_slice();
    assert_eq!(controller.why_length(0), Ok(line.len()));
    assert_eq!(controller.why(0, &mut buffer), Ok(line));
    assert!(buffer[line.len()..].iter().all(|&byte| byte == 9));
    let told = Why {
        phase: 0,
        no_other_demand: true,
        gap: 5,
        max: 30,
        walks: 0,
    };
    assert_eq!(Why::parse(line), Some(told));
    let mut short = [9; 38];
    assert_eq!(controller.why(0, &mut short), Err(refused(14)));
    assert_eq!(short, [9; 38]);
    assert_eq!(controller.why(0, &mut buffer[..39]), Ok(line));
    // A locking detector of B in the inputs alters nothing.
    assert_eq!(controller.why(2, &mut buffer), Ok(line));
    assert_eq!(controller.why_length(4), Err(refused(15)));
    assert_eq!(controller.why(4, &mut []), Err(refused(15)));
    assert_eq!(controller.state(), &before);
    assert_eq!(packed::why_length(&JUNCTION, &[], 4), 13);
    assert_eq!(packed::why(&JUNCTION, &[], 4, &mut []), 13);
    assert_eq!(packed::why_length(&[], &[], 4), 1);
    assert_eq!(packed::why(&[], &[], 4, &mut []), 1);
}

#[test]
fn why_a_site_of_a_cabinet_holds() {
    use willowera::{Cabinet, LONGEST_LINE, OUTPUTS};
    let refused = |number| Refusal { number, place: 0 };
    let mut cabinet = Cabinet::new();
    let (mut outputs, mut buffer) = ([0; OUTPUTS], [9; LONGEST_LINE]);
    cabinet.place(1, &JUNCTION, 4, &mut outputs).unwrap();
    cabinet.place(2, &JUNCTION, 6, &mut outputs).unwrap();
    for step in 1..=30 {
        cabinet.step(1, 0, &mut outputs).unwrap();
        let called = if step == 12 { 2 } else { 0 };
        cabinet.step(2, called, &mut outputs).unwrap();
    }
    let (resting, called) = (b"A holds, no other demand, max 30", b"A holds, max 30");
    assert_eq!(cabinet.why_length(1, 0), Ok(resting.len()));
    assert_eq!(cabinet.why(1, 0, &mut buffer), Ok(resting.as_slice()));
    assert_eq!(cabinet.why(2, 0, &mut buffer), Ok(called.as_slice()));
    assert_eq!(cabinet.why(2, 4, &mut buffer), Err(refused(15)));
    for record in [0, 3, 4, usize::MAX] {
        assert_eq!(cabinet.why_length(record, 0), Err(refused(24)));
        assert_eq!(cabinet.why(record, 0, &mut buffer), Err(refused(24)));
    }
}

#[test]
fn buffers_of_no_length() {
    assert_eq!(
        read(&[]).unwrap_err(),
        Refusal {
            number: 1,
            place: 0
        }
    );
    assert_eq!(packed::fresh(&JUNCTION, &mut []), 13);
    assert_eq!(packed::fresh(&JUNCTION, &mut [0; STATE_LEN + 1]), 13);
    assert_eq!(packed::fresh(&[], &mut []), 1);
    assert_eq!(packed::retime(&JUNCTION, &mut [], &[]), 13);
    assert_eq!(packed::retime(&[], &mut [], &[]), 1);
    assert_eq!(packed::step(&JUNCTION, &mut [], 0, &mut []), 13);
    assert_eq!(packed::step(&[], &mut [], 0, &mut []), 1);
}

#[test]
fn four_sites_in_one_cabinet() {
    use willowera::{Cabinet, Record, OUTPUTS, RECORDS};
    let refused = |number| Refusal { number, place: 0 };
    let mut cabinet = Cabinet::new();
    let mut outputs = [0; OUTPUTS + 1];
    assert_eq!(cabinet.place(0, &JUNCTION, 0, &mut outputs), Ok(()));
    let overlapping = cabinet.place(1, &JUNCTION, 1, &mut outputs);
    assert_eq!(overlapping, Err(refused(25)));
    assert_eq!(cabinet.place(1, &JUNCTION, 2, &mut outputs), Ok(()));
    assert_eq!(cabinet.step(1, 0, &mut outputs), Ok(270));
    assert_eq!(cabinet.step(0, 4, &mut outputs), Err(refused(15)));
    assert_eq!(cabinet.take_out(2, &mut outputs), Err(refused(24)));
    assert_eq!(cabinet.take_out(0, &mut outputs), Ok(()));
    assert_eq!(cabinet.place(3, &JUNCTION, 30, &mut outputs), Ok(()));
    let past = cabinet.place(2, &JUNCTION, 31, &mut outputs);
    assert_eq!(past, Err(refused(25)));
    assert_eq!(cabinet.step(4, 0, &mut outputs), Err(refused(24)));
    assert_eq!(outputs[..3], [4, 4, 0]);
    assert_eq!(outputs[2..], [0; 31]);
    let [zeroth, first, second, third] = cabinet.row();
    assert_eq!((zeroth, second), (&Record::FREE, &Record::FREE));
    assert_eq!((first.is_free(), first.first_output()), (false, 2));
    assert_eq!(first.held_personality(), JUNCTION);
    assert_eq!(first.state[..4], [0, 0, 2, 0]);
    assert_eq!((third.is_free(), third.first_output()), (false, 30));
    assert_eq!(cabinet.take_out(1, &mut outputs[..31]), Err(refused(14)));
    assert_eq!(Cabinet::of_row(*cabinet.row()), cabinet);
    // A number of records other than four: there is no such record.
    for count in [0, 1, 3, 5, 8] {
        let mut row: Vec<Record> = cabinet.row().iter().copied().cycle().take(count).collect();
        let before = row.clone();
        let outputs = &mut outputs.clone();
        for record in 0..=RECORDS {
            let placed = packed::cabinet_place(&mut row, record, &JUNCTION, 8, outputs);
            let stepped = packed::cabinet_step(&mut row, record, 0, outputs);
            let taken_out = packed::cabinet_take_out(&mut row, record, outputs);
            assert_eq!([placed, stepped, taken_out], [24; 3], "{count}, {record}");
            // Placing refuses the personality first.
            let refused = packed::cabinet_place(&mut row, record, &[], 40, outputs);
            assert_eq!(refused, 1, "{count}, {record}");
        }
        assert_eq!(row, before);
    }
}

#[test]
fn the_bytes_of_a_row() {
    use willowera::{Cabinet, Record, OUTPUTS, RECORD_LEN};
    let mut cabinet = Cabinet::new();
    let mut outputs = [0; OUTPUTS];
    cabinet.place(1, &JUNCTION, 2, &mut outputs).unwrap();
    cabinet.step(1, 0, &mut outputs).unwrap();
    let mut bytes = cabinet.to_bytes();
    assert_eq!(bytes.len(), 3_268);
    assert_eq!(bytes[817..821], [1, 2, 68, 0]);
    assert_eq!(bytes[821..889], JUNCTION);
    assert_eq!(bytes[817 + 481..817 + 485], [0, 0, 2, 0]);
    let beside = bytes[..817].iter().chain(&bytes[2 * 817..]);
    assert!(beside.copied().all(|byte| byte == 0));
    assert_eq!(Cabinet::of_bytes(&bytes), cabinet);
    // A stored row goes on, as a cabinet and where its bytes lie, at any alignment.
    let mut stored = Cabinet::of_bytes(&bytes);
    let stepped = stored.step(1, 0, &mut outputs).unwrap();
    let mut room = [0; 3_268 + 16];
    for start in 0..16 {
        room[start..start + 3_268].copy_from_slice(&bytes);
        let (row, _) = room[start..start + 3_268].as_chunks_mut::<RECORD_LEN>();
        let answer = packed::cabinet_step(Record::in_bytes_mut(row), 1, 0, &mut outputs);
        assert_eq!(answer, stepped << 8);
        assert_eq!(room[start..start + 3_268], stored.to_bytes());
    }
    // Any bytes are a row, whatever their records then are.
    bytes.fill(0xFF);
    let mut noise = Cabinet::of_bytes(&bytes);
    assert!(noise.step(0, 0, &mut outputs).is_err());
    assert_eq!(noise.to_bytes(), bytes);
}

#[test]
fn new_times_for_a_site_of_a_cabinet() {
    use willowera::{Cabinet, OUTPUTS};
    let refused = |number, place| Err(Refusal { number, place });
    let mut cabinet = Cabinet::new();
    let mut outputs = [0; OUTPUTS];
    assert_eq!(cabinet.place(1, &JUNCTION, 4, &mut outputs), Ok(()));
    assert_eq!(cabinet.place(2, &JUNCTION, 6, &mut outputs), Ok(()));
    let before = cabinet.clone();
    let mut other = longer();
    other[61] = 2;
    assert_eq!(cabinet.retime(1, &other), refused(26, 0));
    other[20] = 29;
    assert_eq!(cabinet.retime(1, &other), refused(5, 20));
    for record in [0, 3, 4, usize::MAX] {
        assert_eq!(cabinet.retime(record, &longer()), refused(24, 0));
    }
    assert_eq!(cabinet, before);
    assert_eq!(cabinet.retime(1, &longer()), Ok(()));
    // The times wait in the state of that record, and nothing else has changed.
    let state = cabinet.row()[1].state;
    assert_eq!(state[..187], before.row()[1].state[..187]);
    assert_eq!(state[187..190], [1, 20, 0]);
    let mut retimed = *before.row();
    retimed[1].state = state;
    assert_eq!(cabinet.row(), &retimed);
    // Start red ends by the old setting; the new times rule from there on.
    for step in 1..=10 {
        let wait = if step < 10 { 270 } else { 460 };
        assert_eq!(cabinet.step(1, 0, &mut outputs), Ok(wait));
        assert_eq!(cabinet.step(2, 0, &mut outputs), Ok(270));
    }
    assert_eq!(outputs[4..8], [2, 0, 2, 0]);
}

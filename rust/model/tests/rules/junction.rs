//! The junction of two phases: every case that document 01 lists.

use crate::trace::{changes, detector, once, Run};
use generate::Plan;
use model::{read, wait_bound, Number, Refusal, Verdict};

fn refused(number: Number, place: u32) -> Verdict {
    Err(Refusal { number, place })
}

/// The verdict on the junction with one byte put in.
fn with_byte(at: usize, byte: u8) -> Verdict {
    let mut bytes = Plan::junction().bytes();
    bytes[at] = byte;
    read(&bytes)
}

fn with_yellow_of_a(yellow: u16) -> Verdict {
    let mut plan = Plan::junction();
    plan.phases[0][4] = yellow;
    read(&plan.bytes())
}

fn with_maximum_of_a(maximum: u16) -> Verdict {
    let mut plan = Plan::junction();
    plan.phases[0][2] = maximum;
    read(&plan.bytes())
}

#[test]
fn its_bytes() {
    let bytes = Plan::junction().bytes();
    assert_eq!(bytes.len(), 68);
    for (kind, head) in [0, 8, 36, 44, 56, 64].into_iter().enumerate() {
        assert_eq!(bytes[head + 2..head + 4], [kind as u8 + 1, 0]);
    }
    assert_eq!(read(&bytes), Ok(()));
}

#[test]
fn bound_270() {
    assert_eq!(wait_bound(&Plan::junction().bytes()), Ok(270));
}

#[test]
fn detector_1_in_step_12_only() {
    let lines = changes(&Plan::junction(), 400, once(12, detector(1)));
    assert_eq!(
        lines,
        [
            "1 A S RR",
            "10 A M GR",
            "30 A G GR",
            "31 A Y YR",
            "61 A R RR",
            "71 B M RG",
            "91 B G RG",
        ]
    );
}

#[test]
fn the_same_with_detector_0_always_occupied() {
    let inputs = |step| detector(0) | once(12, detector(1))(step);
    let lines = changes(&Plan::junction(), 200, inputs);
    assert_eq!(
        lines,
        [
            "1 A S RR",
            "10 A M GR",
            "30 A G GR",
            "60 A Y YR",
            "90 A R RR",
            "100 B M RG",
            "120 B G RG",
            "121 B Y RY",
            "151 B R RR",
            "161 A M GR",
            "181 A G GR",
        ]
    );
}

#[test]
fn two_steps_without_inputs() {
    let mut run = Run::new(&Plan::junction());
    run.step(0);
    assert_eq!(run.shown(), "A S RR");
    run.step(0);
    assert_eq!(run.shown(), "A S RR");
}

#[test]
fn no_bytes() {
    assert_eq!(read(&[]), refused(Number::CutShort, 0));
}

#[test]
fn one_byte_more() {
    let mut bytes = Plan::junction().bytes();
    bytes.push(0);
    assert_eq!(read(&bytes), refused(Number::LeftOver, 68));
}

#[test]
fn yellow_of_a() {
    assert_eq!(with_yellow_of_a(29), refused(Number::WrongTime, 20));
    assert_eq!(with_yellow_of_a(30), Ok(()));
}

#[test]
fn maximum_of_a() {
    assert_eq!(with_maximum_of_a(1501), refused(Number::WrongTime, 16));
    assert_eq!(with_maximum_of_a(1500), Ok(()));
}

#[test]
fn group_set_2() {
    assert_eq!(with_byte(42, 3), refused(Number::SharedPhase, 48));
    assert_eq!(with_byte(42, 1), refused(Number::UnservedPhase, 36));
}

#[test]
fn second_conflict_record_0() {
    assert_eq!(with_byte(52, 0), refused(Number::WrongConflict, 48));
}

#[test]
fn first_detectors_phase_2() {
    assert_eq!(with_byte(60, 2), refused(Number::WrongDetector, 60));
}

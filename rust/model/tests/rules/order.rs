//! Phases not in letter order: request five of document 02.

use crate::trace::{changes, detector, once};
use generate::Plan;
use model::{read, section, wait_bound, Part, Refusal, Site};

/// The number and place of a refusal, 0 at 0 where it is accepted.
fn verdict(bytes: &[u8]) -> (u8, u32) {
    match read(bytes) {
        Ok(()) => (0, 0),
        Err(Refusal { number, place }) => (number as u8, place),
    }
}

fn ordered(order: &[u8]) -> Plan {
    Plan::three_phases(Some(order.to_vec()))
}

/// What is shown at each change, detectors 1 and 2 occupied in step 12.
fn both_called(plan: &Plan) -> Vec<String> {
    changes(plan, 140, once(12, detector(1) | detector(2)))
}

#[test]
fn c_before_b() {
    assert_eq!(
        both_called(&ordered(&[0, 2, 1])),
        [
            "1 A S RRR",
            "10 A M GRR",
            "30 A G GRR",
            "31 A Y YRR",
            "61 A R RRR",
            "71 C M RRG",
            "91 C G RRG",
            "92 C Y RRY",
            "122 C R RRR",
            "132 B M RGR",
        ]
    );
}

#[test]
fn letters_rule_without_the_section() {
    let lines = both_called(&Plan::three_phases(None));
    assert_eq!(lines, both_called(&ordered(&[0, 1, 2])));
    assert_eq!(lines[5], "71 B M RGR");
    assert_eq!(lines[9], "132 C M RRG");
}

#[test]
fn the_order_goes_round_from_any_place() {
    for order in [[0, 2, 1], [2, 1, 0], [1, 0, 2]] {
        assert_eq!(
            both_called(&ordered(&order)),
            both_called(&ordered(&[0, 2, 1]))
        );
    }
    for order in [[1, 2, 0], [2, 0, 1]] {
        assert_eq!(
            both_called(&ordered(&order)),
            both_called(&ordered(&[0, 1, 2]))
        );
    }
}

#[test]
fn the_first_of_every_set_after_every_phase() {
    let bytes = Plan::largest().bytes();
    let site = Site::read(&bytes).unwrap();
    let order = [0_u8, 2, 4, 6, 1, 3, 5];
    for (place, &phase) in order.iter().enumerate() {
        for set in (1..128_u8).filter(|set| set >> phase & 1 == 0) {
            let round = (1..7).map(|step| order[(place + step) % 7]);
            let first = round.into_iter().find(|other| set >> other & 1 != 0);
            assert_eq!(Some(site.first_after(phase, set)), first);
        }
    }
}

#[test]
fn the_fresh_state_is_phase_a_and_the_wait_is_the_same() {
    let lines = changes(&ordered(&[2, 1, 0]), 10, |_| 0);
    assert_eq!(lines, ["1 A S RRR", "10 A M GRR"]);
    let bound = wait_bound(&Plan::three_phases(None).bytes());
    assert_eq!(wait_bound(&ordered(&[2, 0, 1]).bytes()), bound);
}

#[test]
fn its_bytes() {
    let bytes = ordered(&[0, 2, 1]).bytes();
    assert_eq!(bytes.len(), 95);
    assert_eq!(bytes[88..], [3, 0, 9, 0, 0, 2, 1]);
    assert_eq!(verdict(&bytes), (0, 0));
    let part = Part {
        offset: 92,
        length: 3,
    };
    assert_eq!(section(&bytes, 9), Ok(part));
    assert!(section(&bytes, 7).is_err());
    assert!(section(&bytes[..88], 9).is_err());
}

#[test]
fn behind_early_cut_off_times_too() {
    let plan = Plan {
        early_cut_offs: Some(vec![20, 0, 7]),
        ..ordered(&[0, 2, 1])
    };
    let bytes = plan.bytes();
    assert_eq!(verdict(&bytes), (0, 0));
    let part = |offset, length| Ok(Part { offset, length });
    assert_eq!(section(&bytes, 7), part(92, 6));
    assert_eq!(section(&bytes, 9), part(102, 3));
}

#[test]
fn not_each_phase_once_is_18_at_the_head() {
    for order in [[0, 2, 2], [0, 0, 0], [1, 2, 3], [0, 1, 255], [3, 1, 2]] {
        assert_eq!(verdict(&ordered(&order).bytes()), (18, 88), "{order:?}");
    }
}

#[test]
fn kinds_lengths_and_ends() {
    let bytes = ordered(&[0, 2, 1]).bytes();
    let with = |at: usize, byte: u8| {
        let mut bytes = bytes.clone();
        bytes[at] = byte;
        verdict(&bytes)
    };
    for length in (0..=255).filter(|&length| length != 3) {
        assert_eq!(with(88, length), (3, 88));
    }
    for kind in (0..=255).filter(|kind| ![7, 9].contains(kind)) {
        assert_eq!(with(90, kind), (12, 88));
    }
    assert_eq!(with(90, 7), (3, 88), "early cut-off times are 6 bytes");
    for length in 89..92 {
        assert_eq!(verdict(&bytes[..length]), (12, 88));
    }
    for length in 92..95 {
        assert_eq!(verdict(&bytes[..length]), (1, 88));
    }
}

#[test]
fn nothing_follows_it() {
    let bytes = ordered(&[0, 2, 1]).bytes();
    let with = |more: &[u8]| verdict(&[bytes.as_slice(), more].concat());
    assert_eq!(with(&[0]), (12, 95));
    assert_eq!(with(&[3, 0, 9, 0, 0, 2, 1]), (12, 95));
    assert_eq!(
        with(&[6, 0, 7, 0, 0, 0, 0, 0, 0, 0]),
        (12, 95),
        "kind 7 comes before"
    );
}

#[test]
fn checked_before_17_and_12() {
    let mut plan = ordered(&[0, 2, 2]);
    plan.groups[1][1] = 3;
    let mut bytes = plan.bytes();
    assert_eq!(verdict(&bytes), (18, 88));
    bytes.push(0);
    assert_eq!(verdict(&bytes), (18, 88));
    plan.order = Some(vec![0, 2, 1]);
    assert_eq!(verdict(&plan.bytes()), (17, 54));
}

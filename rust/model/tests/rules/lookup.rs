//! Looking up sections.

use generate::Plan;
use model::{section, Number, Part, Refusal};

#[test]
fn every_section_of_the_junction() {
    let bytes = Plan::junction().bytes();
    let found = [(4, 4), (12, 24), (40, 4), (48, 8), (60, 4), (68, 0)];
    for (kind, (offset, length)) in (1..).zip(found) {
        assert_eq!(section(&bytes, kind), Ok(Part { offset, length }));
    }
}

#[test]
fn a_kind_not_held_is_2_at_0() {
    let bytes = Plan::junction().bytes();
    let refusal = Refusal {
        number: Number::UnexpectedKind,
        place: 0,
    };
    for kind in [0, 7, 8, 256, 257, u16::MAX] {
        assert_eq!(section(&bytes, kind), Err(refusal));
    }
}

#[test]
fn a_refused_personality_wins_over_the_kind() {
    let mut bytes = Plan::junction().bytes();
    bytes.push(1);
    let refusal = Refusal {
        number: Number::LeftOver,
        place: 68,
    };
    for kind in 0..10 {
        assert_eq!(section(&bytes, kind), Err(refusal));
    }
}

#[test]
fn the_parts_of_the_largest_site_hold_its_records() {
    let plan = Plan::largest();
    let bytes = plan.bytes();
    let body = |kind| {
        let Part { offset, length } = section(&bytes, kind).unwrap();
        bytes[offset as usize..][..length as usize].to_vec()
    };
    assert_eq!(body(3), plan.groups.concat());
    assert_eq!(body(5), plan.detectors.concat());
    assert_eq!(body(6).len(), 48);
    assert_eq!(body(7), [0, 0, 10, 0, 20, 0, 35, 0, 36, 0, 50, 0, 100, 0]);
    assert_eq!(body(9), [0, 2, 4, 6, 1, 3, 5]);
    assert_eq!(bytes.len(), 477);
}

//! The refusals of a personality: every number, place and order of checks.

use generate::Plan;
use model::{read, Number, Refusal, Setting};

/// The number and place of a refusal, 0 at 0 where it is accepted.
fn verdict(bytes: &[u8]) -> (u8, u32) {
    match read(bytes) {
        Ok(()) => (0, 0),
        Err(Refusal { number, place }) => (number as u8, place),
    }
}

/// The verdict on the junction with bytes put in.
fn junction_with(changes: &[(usize, u8)]) -> (u8, u32) {
    let mut bytes = Plan::junction().bytes();
    for &(at, byte) in changes {
        bytes[at] = byte;
    }
    verdict(&bytes)
}

/// Two phases, a vehicle group each and one pedestrian group of B.
fn crossing() -> Plan {
    Plan {
        groups: vec![[1, 0], [2, 0], [2, 2]],
        conflicts: vec![0b110, 0b001, 0b001],
        movements: vec![[10, 5, 7]],
        ..Plan::junction()
    }
}

#[test]
fn cut_anywhere_is_1_at_the_head() {
    let bytes = Plan::junction().bytes();
    let heads = [0, 8, 36, 44, 56, 64];
    for length in 0..bytes.len() {
        let head = heads.iter().rfind(|&&head| head <= length).unwrap();
        assert_eq!(
            verdict(&bytes[..length]),
            (1, *head as u32),
            "cut to {length}"
        );
    }
}

#[test]
fn wrong_kind_is_2_at_the_head() {
    for (head, kind) in [(0, 1), (8, 2), (36, 3), (44, 4), (56, 5), (64, 6)] {
        for wrong in (0..10).filter(|wrong| *wrong != kind) {
            // In first place 8 is the kind of edition two.
            if (head, wrong) != (0, 8) {
                assert_eq!(junction_with(&[(head + 2, wrong)]), (2, head as u32));
            }
        }
        assert_eq!(junction_with(&[(head + 3, 1)]), (2, head as u32));
    }
}

#[test]
fn wrong_length_is_3_at_the_head() {
    for (head, length) in [(0, 4), (8, 24), (36, 4), (44, 8), (64, 0)] {
        for wrong in (0..=255).filter(|wrong| *wrong != length) {
            assert_eq!(junction_with(&[(head, wrong)]), (3, head as u32));
        }
        assert_eq!(junction_with(&[(head + 1, 1)]), (3, head as u32));
    }
}

#[test]
fn the_length_of_kind_5_is_even_and_at_most_96() {
    assert_eq!(junction_with(&[(56, 3)]), (3, 56));
    assert_eq!(junction_with(&[(56, 98)]), (3, 56));
    assert_eq!(junction_with(&[(57, 1)]), (3, 56));
    assert_eq!(
        junction_with(&[(56, 96)]),
        (1, 56),
        "allowed, but past the end"
    );
    assert_eq!(
        junction_with(&[(56, 8)]).0,
        11,
        "the head of kind 6 as detectors"
    );
}

#[test]
fn kind_before_length_before_end() {
    assert_eq!(junction_with(&[(8, 9), (10, 9)]), (2, 8));
    let bytes = Plan::junction().bytes();
    assert_eq!(verdict(&[9, 0, 1, 0]), (3, 0));
    assert_eq!(verdict(&[9, 0, 2, 0]), (2, 0));
    assert_eq!(verdict(&bytes[..4]), (1, 0));
}

#[test]
fn counts_are_4_at_their_byte() {
    for phases in [0, 1, 8, 255] {
        assert_eq!(junction_with(&[(4, phases)]), (4, 4));
    }
    for groups in [0, 33, 255] {
        assert_eq!(junction_with(&[(5, groups)]), (4, 5));
    }
    assert_eq!(junction_with(&[(4, 8), (5, 33), (6, 0)]), (4, 4));
    assert_eq!(junction_with(&[(5, 33), (6, 0)]), (4, 5));
}

#[test]
fn every_phase_time_has_its_limits() {
    let written = [
        (Setting::LateStart, 0, 200),
        (Setting::MinimumGreen, 10, 400),
        (Setting::MaximumGreen, 10, 1500),
        (Setting::Gap, 0, 100),
        (Setting::Yellow, 30, 100),
        (Setting::AllRed, 10, 150),
    ];
    for phase in 0..2 {
        for (field, (setting, low, high)) in written.into_iter().enumerate() {
            assert_eq!(Setting::OF_PHASE[field], setting);
            let place = 12 + 12 * phase as u32 + 2 * field as u32;
            let with = |time: u16| {
                let mut plan = Plan::junction();
                plan.phases[phase][field] = time;
                verdict(&plan.bytes())
            };
            assert_eq!((with(low), with(high)), ((0, 0), (0, 0)), "{setting:?}");
            assert_eq!(with(high + 1), (5, place), "{setting:?}");
            assert_eq!(with(u16::MAX), (5, place), "{setting:?}");
            if low > 0 {
                assert_eq!(with(low - 1), (5, place), "{setting:?}");
            }
        }
    }
}

#[test]
fn start_red_has_its_limits() {
    let with = |start_red| {
        verdict(
            &Plan {
                start_red,
                ..Plan::junction()
            }
            .bytes(),
        )
    };
    assert_eq!([with(10), with(150)], [(0, 0); 2]);
    assert_eq!([with(9), with(151), with(0)], [(5, 6); 3]);
}

#[test]
fn every_pedestrian_time_has_its_limits() {
    let places = [74, 76, 78];
    assert_eq!(crossing().bytes().len(), 80);
    for (field, low) in [10, 1, 1].into_iter().enumerate() {
        let with = |time: u16| {
            let mut plan = crossing();
            plan.movements[0][field] = time;
            verdict(&plan.bytes())
        };
        assert_eq!([with(low), with(400)], [(0, 0); 2]);
        assert_eq!([with(low - 1), with(401)], [(5, places[field]); 2]);
    }
}

#[test]
fn the_first_wrong_field_counts() {
    let mut plan = Plan::junction();
    plan.phases[1][0] = 201;
    plan.phases[0][5] = 0;
    assert_eq!(verdict(&plan.bytes()), (5, 22));
    plan.phases[0][5] = 10;
    assert_eq!(verdict(&plan.bytes()), (5, 24));
}

#[test]
fn wrong_groups_are_6_at_their_record() {
    for set in [4, 128, 255] {
        assert_eq!(junction_with(&[(42, set)]), (6, 42));
    }
    for mark in [4, 255] {
        assert_eq!(junction_with(&[(43, mark)]), (6, 42));
    }
    assert_eq!(junction_with(&[(41, 4), (42, 4)]), (6, 40));
    for set in [0, 3] {
        assert_eq!(junction_with(&[(42, set), (43, 2)]), (6, 42));
    }
}

#[test]
fn a_vehicle_group_may_have_no_phase() {
    let plan = Plan {
        groups: vec![[1, 0], [2, 0], [0, 0]],
        conflicts: vec![0b110, 0b101, 0b011],
        ..Plan::junction()
    };
    assert_eq!(verdict(&plan.bytes()), (0, 0));
}

#[test]
fn the_ninth_pedestrian_group_is_7() {
    let with = |pedestrians: usize| {
        let mut groups = vec![[3, 0]];
        groups.extend(vec![[1, 2]; pedestrians]);
        let plan = Plan {
            conflicts: vec![0; groups.len()],
            movements: vec![[10, 1, 1]; pedestrians],
            groups,
            ..Plan::junction()
        };
        verdict(&plan.bytes())
    };
    assert_eq!(with(8), (0, 0));
    assert_eq!(with(9), (7, 40 + 2 * 9));
    assert_eq!(with(10), (7, 40 + 2 * 9));
}

#[test]
fn a_ninth_pedestrian_group_without_one_phase_is_6() {
    let mut plan = Plan::junction();
    plan.groups = vec![[1, 2]; 9];
    plan.groups[8] = [3, 2];
    plan.conflicts = vec![0; 9];
    assert_eq!(verdict(&plan.bytes()), (6, 40 + 2 * 8));
    plan.groups[8] = [1, 2];
    assert_eq!(verdict(&plan.bytes()), (7, 40 + 2 * 8), "before 8 at 36");
}

#[test]
fn an_unserved_phase_is_8_before_the_next_head() {
    assert_eq!(junction_with(&[(40, 2)]), (8, 36));
    assert_eq!(junction_with(&[(40, 2), (46, 9)]), (8, 36));
}

#[test]
fn wrong_conflicts_are_9_at_the_first_record() {
    assert_eq!(junction_with(&[(48, 3)]), (9, 48), "own bit");
    assert_eq!(junction_with(&[(52, 3)]), (9, 52), "own bit");
    assert_eq!(junction_with(&[(48, 6)]), (9, 48), "a group beyond");
    assert_eq!(junction_with(&[(55, 128)]), (9, 52), "the last bit");
    assert_eq!(junction_with(&[(48, 0)]), (9, 52), "one way");
}

#[test]
fn all_of_9_comes_before_any_of_10() {
    let plan = Plan {
        groups: vec![[1, 0], [1, 0], [2, 0]],
        conflicts: vec![0b010, 0b001, 0b100],
        ..Plan::junction()
    };
    assert_eq!(verdict(&plan.bytes()), (9, 50 + 8));
}

#[test]
fn conflicting_groups_that_share_a_phase_are_10_at_the_lowest() {
    let plan = Plan {
        groups: vec![[1, 0], [2, 0], [3, 0], [1, 2]],
        conflicts: vec![0b0010, 0b0001, 0b1000, 0b0100],
        movements: vec![[10, 5, 5]],
        ..Plan::junction()
    };
    assert_eq!(verdict(&plan.bytes()), (10, 52 + 8));
}

#[test]
fn wrong_detectors_are_11_at_their_record() {
    for phase in [2, 7, 8, 255] {
        assert_eq!(junction_with(&[(62, phase)]), (11, 62));
    }
    for mode in 0..=255 {
        let expected = match mode {
            1 | 2 | 5 | 6 => (0, 0),
            0 | 4 => (21, 56),
            _ => (11, 62),
        };
        assert_eq!(junction_with(&[(63, mode)]), expected, "mode {mode}");
    }
}

#[test]
fn forty_eight_detectors_and_none() {
    let with = |count: usize| Plan {
        groups: vec![[3, 0], [1, 2], [2, 2]],
        conflicts: vec![0; 3],
        detectors: vec![[1, 6]; count],
        movements: vec![[10, 5, 7]; 2],
        ..Plan::junction()
    };
    for count in [0, 1, 48] {
        assert_eq!(verdict(&with(count).bytes()), (0, 0));
    }
    let plan = Plan {
        detectors: vec![[1, 6]; 49],
        ..Plan::junction()
    };
    assert_eq!(verdict(&plan.bytes()), (3, 56));
}

#[test]
fn pedestrian_records_as_many_as_pedestrian_groups() {
    let mut plan = crossing();
    plan.movements.push([10, 5, 7]);
    assert_eq!(verdict(&plan.bytes()), (3, 70));
    plan.movements.clear();
    assert_eq!(verdict(&plan.bytes()), (3, 70));
}

#[test]
fn a_phase_nobody_can_call_is_21_at_the_head_of_kind_5() {
    for mode in [0, 4] {
        assert_eq!(junction_with(&[(63, mode)]), (21, 56));
        assert_eq!(junction_with(&[(61, mode)]), (21, 56));
    }
    for mode in [1, 2, 5, 6] {
        assert_eq!(junction_with(&[(63, mode)]), (0, 0));
    }
    assert_eq!(junction_with(&[(62, 0)]), (21, 56), "both call A");
    let mut plan = crossing();
    plan.detectors = vec![[0, 1]];
    assert_eq!(verdict(&plan.bytes()), (0, 0), "B has a pedestrian group");
    plan.detectors = vec![[1, 1]];
    assert_eq!(verdict(&plan.bytes()), (21, 62));
    plan.detectors.clear();
    assert_eq!(verdict(&plan.bytes()), (21, 62));
}

#[test]
fn after_all_sections_21_then_17_then_12() {
    let mut plan = Plan::turning_arrow(None);
    let more = |plan: &Plan| verdict(&[plan.bytes().as_slice(), &[0]].concat());
    plan.detectors[1][1] = 4;
    assert_eq!(more(&plan), (21, 62));
    plan.detectors[1][1] = 5;
    assert_eq!(more(&plan), (17, 42));
    plan.groups[1][1] = 0;
    assert_eq!(more(&plan), (12, 74));
    plan.detectors[1][1] = 4;
    assert_eq!(more(&plan), (21, 62));
    plan.order = Some(vec![0, 0]);
    assert_eq!(more(&plan), (18, 74), "checked with its body");
}

#[test]
fn sections_out_of_order_or_twice() {
    let bytes = Plan::junction().bytes();
    let twice = [&bytes[..36], &bytes[8..]].concat();
    assert_eq!(verdict(&twice), (2, 36));
    let without = [&bytes[..36], &bytes[44..]].concat();
    assert_eq!(verdict(&without), (2, 36));
    let seventh = [&bytes[..], &[0, 0, 6, 0]].concat();
    assert_eq!(verdict(&seventh), (12, 68));
}

#[test]
fn earlier_sections_count_first() {
    assert_eq!(junction_with(&[(20, 29), (60, 2)]), (5, 20));
    assert_eq!(junction_with(&[(58, 9), (52, 0)]), (9, 48));
    assert_eq!(junction_with(&[(42, 3), (52, 0)]), (9, 48));
}

#[test]
fn all_32_groups_with_every_conflict() {
    let plan = Plan::largest();
    assert_eq!(verdict(&plan.bytes()), (0, 0));
    for group in 0..32 {
        let mut own = plan.clone();
        own.conflicts[group] |= 1 << group;
        assert_eq!(
            read(&own.bytes()).unwrap_err().number,
            Number::WrongConflict
        );
    }
}

#[test]
fn one_way_conflicts_at_the_record_that_has_the_bit() {
    let plan = Plan::largest();
    let first = 4 + 4 + 4 + 84 + 4 + 64 + 4;
    for one in 0..32 {
        for other in (0..32).filter(|other| plan.conflicts[one] >> other & 1 != 0) {
            let mut broken = plan.clone();
            broken.conflicts[one] ^= 1 << other;
            let place = first + 4 * other as u32;
            assert_eq!(verdict(&broken.bytes()), (9, place), "{one} and {other}");
        }
    }
}

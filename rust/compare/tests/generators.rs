//! The generators reach what they are meant to reach.

use generate::{
    any_records, broken_state_bytes, broken_times, changed_beyond_times, damaged, damaged_record,
    held_record, invalid_state, known_inputs, other_edition, record_of, refused_second, retimed,
    running_timed_state, scrambled, time_fields, twice_damaged, twist, unknown_inputs, valid_state,
    valid_timed_state, Breakage, CabinetCall, Plan, Rng, RoadPlan, SealDamage, TimesBreakage,
    Twist, AIMED, MODES,
};
use model::packed::{self, number, rest, Model};
use model::{
    read, records_in, times_alone_differ, valid, valid_timed, why_on, Edition, Interval, Mark,
    Reasons, Record, Road, Setting, Site, Stage, State, Stream, TimedState, Times, RECORDS,
    RECORD_LEN, STATE_LEN,
};
use std::collections::{BTreeMap, BTreeSet};

const SEED: u64 = 1_993;

fn plans(count: usize) -> impl Iterator<Item = Plan> {
    let mut rng = Rng::new(SEED);
    (0..count).map(move |_| Plan::random(&mut rng))
}

#[test]
fn equal_seeds_give_equal_draws() {
    let draws = |seed, index| {
        let mut rng = Rng::of_case(seed, index);
        (0..5).map(|_| rng.draw()).collect::<Vec<_>>()
    };
    assert_eq!(draws(1, 2), draws(1, 2));
    assert_ne!(draws(1, 2), draws(1, 3));
    assert_ne!(draws(1, 2), draws(2, 2));
}

#[test]
fn random_plans_are_accepted() {
    for plan in plans(3_000) {
        assert_eq!(read(&plan.bytes()), Ok(()), "{plan:?}");
    }
}

#[test]
fn accepted_plans_have_every_size() {
    let mut phases = BTreeSet::new();
    let mut groups = BTreeSet::new();
    let mut movements = BTreeSet::new();
    let mut detectors = BTreeSet::new();
    for plan in plans(3_000) {
        phases.insert(plan.phases.len());
        groups.insert(plan.groups.len());
        movements.insert(plan.movements.len());
        detectors.insert(plan.detectors.len());
    }
    assert!(phases.into_iter().eq(2..=7));
    assert!(groups.into_iter().eq(1..=32));
    assert!(movements.into_iter().eq(0..=8));
    assert!(detectors.into_iter().eq(0..=48));
}

#[test]
fn accepted_plans_have_every_trait() {
    let mut seen: BTreeMap<&str, usize> = BTreeMap::new();
    let mut modes = BTreeSet::new();
    for plan in plans(3_000) {
        let pedestrian = Mark::Pedestrian as u8;
        let vehicles = || plan.groups.iter().filter(|group| group[1] != pedestrian);
        let mut count = |name, holds| *seen.entry(name).or_default() += usize::from(holds);
        count("edition one", plan.edition == Edition::One);
        count("edition two", plan.edition == Edition::Two);
        count("late start", plan.phases.iter().any(|times| times[0] > 0));
        count(
            "no late start",
            plan.phases.iter().any(|times| times[0] == 0),
        );
        count("overlap", vehicles().any(|group| group[0].count_ones() > 1));
        count("empty set", vehicles().any(|group| group[0] == 0));
        count("late mark", vehicles().any(|group| group[1] == 1));
        let early = plan.early_groups().count();
        let times = &plan.early_cut_offs;
        count("early mark", early > 0);
        let order = &plan.order;
        count("no order", order.is_none());
        count(
            "an order",
            order.as_ref().is_some_and(|order| !order.is_sorted()),
        );
        count(
            "an order as letters",
            order.as_ref().is_some_and(|order| order.is_sorted()),
        );
        count("an order without times", order.is_some() && times.is_none());
        count("no early mark", times.is_some() && early == 0);
        count("no early cut-off section", times.is_none());
        let zero = times.iter().flatten().any(|&time| time == 0);
        count("early cut-off of no time", zero && early > 0);
        let yellow = |phase: usize| plan.phases[phase][4];
        let pairs = || times.iter().flatten().copied().enumerate();
        let shorter = pairs().any(|(phase, time)| (1..yellow(phase)).contains(&time));
        count("early cut-off shorter than yellow", shorter);
        let longer = pairs().any(|(phase, time)| time > yellow(phase));
        count("early cut-off longer than yellow", longer);
        count("pedestrians only", vehicles().count() == 0);
        count("conflicts", plan.conflicts.iter().any(|&row| row != 0));
        count("no conflicts", plan.conflicts.iter().all(|&row| row == 0));
        let phases = plan.groups.iter().filter(|group| group[1] == pedestrian);
        let phases: Vec<u8> = phases.map(|group| group[0]).collect();
        let twice = |set: &u8| phases.iter().filter(|other| *other == set).count() > 1;
        count("two movements of a phase", phases.iter().any(twice));
        modes.extend(plan.detectors.iter().map(|detector| detector[1]));
    }
    for (name, count) in seen {
        assert!(count >= 20, "{name}: {count}");
    }
    assert!(modes.into_iter().eq(MODES));
}

#[test]
fn every_time_reaches_both_limits_of_each_edition() {
    for edition in Edition::ALL {
        let plans = || plans(6_000).filter(move |plan| plan.edition == edition);
        let mut phase_times = [const { BTreeSet::new() }; 6];
        let mut movement_times = [const { BTreeSet::new() }; 3];
        for plan in plans() {
            for times in &plan.phases {
                for (&time, seen) in times.iter().zip(&mut phase_times) {
                    seen.insert(time);
                }
            }
            for times in &plan.movements {
                for (&time, seen) in times.iter().zip(&mut movement_times) {
                    seen.insert(time);
                }
            }
        }
        let (lowest_start, lowest_red) = match edition {
            Edition::One => (10, 10),
            Edition::Two => (30, 15),
        };
        let ends = |seen: &BTreeSet<u16>| (*seen.first().unwrap(), *seen.last().unwrap());
        let phase_ends = [
            (0, 200),
            (10, 400),
            (10, 1500),
            (0, 100),
            (30, 100),
            (lowest_red, 150),
        ];
        assert_eq!(phase_times.each_ref().map(ends), phase_ends);
        let movement_ends = [(10, 400), (1, 400), (1, 400)];
        assert_eq!(movement_times.each_ref().map(ends), movement_ends);
        let start_reds = plans().map(|plan| plan.start_red).collect();
        assert_eq!(ends(&start_reds), (lowest_start, 150));
        let early_cut_offs = plans().filter_map(|plan| plan.early_cut_offs);
        assert_eq!(ends(&early_cut_offs.flatten().collect()), (0, 200));
    }
}

#[test]
fn edition_one_has_times_below_the_limits_of_edition_two() {
    let mut start_reds = BTreeSet::new();
    let mut all_reds = BTreeSet::new();
    for plan in plans(3_000).filter(|plan| plan.edition == Edition::One) {
        start_reds.insert(plan.start_red);
        all_reds.extend(plan.phases.iter().map(|times| times[5]));
    }
    assert!([10, 11, 29, 30]
        .iter()
        .all(|time| start_reds.contains(time)));
    assert!((10..=16).all(|time| all_reds.contains(&time)));
}

#[test]
fn wrong_times_of_edition_two_are_those_of_edition_one_too() {
    let mut rng = Rng::new(SEED);
    let mut between = BTreeMap::new();
    for _ in 0..3_000 {
        let bytes = damaged(&mut rng, 5);
        let place = rest(packed::read(&bytes)) as usize;
        let mut as_one = bytes.clone();
        as_one[2] = 1;
        if bytes[2] == 8 && read(&as_one).is_ok() {
            let time = u16::from_le_bytes([bytes[place], bytes[place + 1]]);
            // Start red, or an all-red.
            let setting = if place == 6 { "start red" } else { "all-red" };
            between
                .entry(setting)
                .or_insert(BTreeSet::new())
                .insert(time);
        }
    }
    let start_reds = &between["start red"];
    assert!(start_reds.contains(&29) && start_reds.iter().all(|time| (10..30).contains(time)));
    assert!(between["all-red"].iter().copied().eq(10..15), "{between:?}");
}

#[test]
fn damage_to_the_first_kind_is_of_neither_edition() {
    let mut rng = Rng::new(SEED);
    let mut kinds = BTreeSet::new();
    for _ in 0..3_000 {
        let bytes = damaged(&mut rng, 2);
        if rest(packed::read(&bytes)) == 0 {
            kinds.insert(u16::from_le_bytes([bytes[2], bytes[3]]));
        }
    }
    for kind in [0, 2, 3, 4, 5, 6, 7, 9, 256, 257, 264, 2_048] {
        assert!(kinds.contains(&kind), "{kind}");
    }
}

#[test]
fn personalities_of_the_other_edition_are_accepted_or_too_short() {
    let mut rng = Rng::new(SEED);
    let mut seen: BTreeMap<(u8, u8), usize> = BTreeMap::new();
    for _ in 0..2_000 {
        let bytes = other_edition(&mut rng);
        let answer = number(packed::read(&bytes));
        *seen.entry((bytes[2], answer)).or_default() += 1;
    }
    let pairs: Vec<(u8, u8)> = seen.keys().copied().collect();
    assert_eq!(pairs, [(1, 0), (8, 0), (8, 5)], "{seen:?}");
    assert!(seen.values().all(|&count| count >= 20), "{seen:?}");
}

#[test]
fn aimed_damage_hits() {
    let mut rng = Rng::new(SEED);
    for aim in AIMED {
        for _ in 0..400 {
            let bytes = damaged(&mut rng, aim);
            let refusal = read(&bytes).expect_err("damaged");
            assert_eq!(refusal.number as u8, aim, "at {}: {bytes:?}", refusal.place);
        }
    }
}

#[test]
fn aimed_damage_hits_many_places() {
    let mut rng = Rng::new(SEED);
    for aim in AIMED {
        let places: BTreeSet<u64> = (0..1_000)
            .map(|_| rest(packed::read(&damaged(&mut rng, aim))))
            .collect();
        let expected = if aim == 4 { 2 } else { 6 };
        assert!(places.len() >= expected, "{aim}: {places:?}");
    }
}

#[test]
fn damage_without_an_aim_hits_many_numbers() {
    let mut rng = Rng::new(SEED);
    let mut twice = BTreeSet::new();
    let mut scrambles = BTreeSet::new();
    for _ in 0..3_000 {
        twice.insert(number(packed::read(&twice_damaged(&mut rng))));
        scrambles.insert(number(packed::read(&scrambled(&mut rng))));
    }
    // Bytes left over are only noticed where nothing else is wrong.
    let mut numbers = (1..=11).chain([17, 18, 21]);
    assert!(numbers.all(|number| twice.contains(&number)), "{twice:?}");
    assert!(scrambles.len() >= 12, "{scrambles:?}");
}

#[test]
fn valid_states_are_valid_and_of_every_kind() {
    let mut rng = Rng::new(SEED);
    let mut seen = BTreeSet::new();
    for plan in plans(300) {
        let bytes = plan.bytes();
        let site = Site::read(&bytes).unwrap();
        for _ in 0..50 {
            let state = valid_state(&mut rng, &site);
            assert!(valid(&site, &state), "{state:?}");
            assert_eq!(State::from_bytes(&state.to_bytes()), Some(state));
            for movement in state.movements {
                seen.insert((state.interval, movement.stage));
            }
        }
    }
    // Start red has idle movements only; early cut-off, yellow and all-red idle
    // and C2 only.
    let count_of = |interval: Interval| seen.iter().filter(|(seen, _)| *seen == interval).count();
    assert_eq!(Interval::ALL.map(count_of), [1, 4, 4, 4, 2, 2, 2]);
    assert!(seen.contains(&(Interval::AllRed, Stage::ClearanceTwo)));
}

#[test]
fn every_breakage_makes_a_state_invalid() {
    let mut rng = Rng::new(SEED);
    for breakage in Breakage::ALL {
        let mut found = 0;
        for plan in plans(60) {
            let bytes = plan.bytes();
            let site = Site::read(&bytes).unwrap();
            if let Some(state) = invalid_state(&mut rng, &site, breakage) {
                assert!(!valid(&site, &state), "{breakage:?}: {state:?}");
                found += 1;
            }
        }
        assert!(found >= 10, "{breakage:?}: {found}");
    }
}

#[test]
fn broken_state_bytes_are_no_state() {
    let mut rng = Rng::new(SEED);
    let bytes = Plan::largest().bytes();
    let site = Site::read(&bytes).unwrap();
    for _ in 0..2_000 {
        let broken = broken_state_bytes(&mut rng, &site);
        assert_eq!(TimedState::from_bytes(&broken), None, "{broken:?}");
    }
}

#[test]
fn inputs_known_and_unknown() {
    let mut rng = Rng::new(SEED);
    for plan in plans(200) {
        let bytes = plan.bytes();
        let site = Site::read(&bytes).unwrap();
        for _ in 0..20 {
            assert_eq!(known_inputs(&mut rng, &site) & !site.known_inputs(), 0);
            assert_ne!(unknown_inputs(&mut rng, &site) & !site.known_inputs(), 0);
        }
    }
}

#[test]
fn retimed_personalities_differ_in_times_alone() {
    let mut rng = Rng::new(SEED);
    let mut seen: BTreeMap<&str, usize> = BTreeMap::new();
    for plan in plans(2_000) {
        let first = plan.bytes();
        let second = retimed(&mut rng, &first);
        assert_eq!(read(&second), Ok(()));
        assert!(times_alone_differ(&first, &second));
        let time = |bytes: &[u8], at: usize| u16::from_le_bytes([bytes[at], bytes[at + 1]]);
        let fields = time_fields(&first);
        let changed = fields
            .iter()
            .filter(|field| time(&first, field.0) != time(&second, field.0));
        let mut count = |name, holds| *seen.entry(name).or_default() += usize::from(holds);
        count("equal", first == second);
        count("one time", changed.clone().count() == 1);
        count("most times", 2 * changed.count() > fields.len());
        let late = |from: u16, to: u16| {
            let mut late = fields.iter().filter(|field| field.1 == Setting::LateStart);
            late.any(|field| time(&first, field.0) == from && time(&second, field.0) == to)
        };
        count("a late start of 20 for none", late(0, 20));
        let gone = |field: &(usize, Setting)| {
            let late = field.1 == Setting::LateStart;
            late && time(&first, field.0) > 0 && time(&second, field.0) == 0
        };
        count("a late start gone", fields.iter().any(gone));
    }
    for (name, count) in seen {
        assert!(count >= 100, "{name}: {count}");
    }
}

#[test]
fn second_personalities_that_are_not_to_be_accepted() {
    let mut rng = Rng::new(SEED);
    let (mut one_byte, mut other_length, mut numbers) = (0, 0, BTreeSet::new());
    // Other editions by their first kind: accepted, and refused for too short a time.
    let mut editions: BTreeMap<(u8, u8), usize> = BTreeMap::new();
    for plan in plans(1_000) {
        let first = plan.bytes();
        let second = changed_beyond_times(&mut rng, &first);
        assert_eq!(read(&second), Ok(()));
        assert!(!times_alone_differ(&first, &second));
        if second.len() == first.len() {
            let differing = first
                .iter()
                .zip(&second)
                .filter(|(one, other)| one != other);
            one_byte += usize::from(differing.count() == 1);
        } else {
            other_length += 1;
        }
        let refused = refused_second(&mut rng, &first);
        let answer = number(packed::read(&refused));
        numbers.insert(answer);
        for (other, answer) in [(&second, 0), (&refused, answer)] {
            let same_site = other.len() == first.len() && other[4..6] == first[4..6];
            if same_site && other[2] != first[2] && [0, 5].contains(&answer) {
                *editions.entry((other[2], answer)).or_default() += 1;
            }
        }
    }
    for pair in [(1, 0), (8, 0), (8, 5)] {
        let found = editions.get(&pair).copied().unwrap_or(0);
        assert!(found >= 20, "{pair:?}: {editions:?}");
    }
    assert!(
        one_byte >= 100 && other_length >= 100,
        "{one_byte}, {other_length}"
    );
    assert!(!numbers.contains(&0) && numbers.len() >= 12, "{numbers:?}");
}

#[test]
fn valid_timed_states_are_valid_and_of_every_kind() {
    let mut rng = Rng::new(SEED);
    let mut seen: BTreeMap<&str, usize> = BTreeMap::new();
    for plan in plans(300) {
        let bytes = plan.bytes();
        let site = Site::read(&bytes).unwrap();
        let own = Times::of(&site);
        for _ in 0..20 {
            let timed = valid_timed_state(&mut rng, &bytes, &site);
            assert!(valid_timed(&site, &timed), "{timed:?}");
            assert_eq!(TimedState::from_bytes(&timed.to_bytes()), Some(timed));
            let mut count = |name, holds| *seen.entry(name).or_default() += usize::from(holds);
            count("own times", timed.ruling == own);
            count("other times", timed.ruling != own);
            count("none waiting", timed.waiting.is_none());
            count("equal waiting", timed.waiting == Some(timed.ruling));
            count("own waiting", timed.waiting == Some(own));
            let others = timed.waiting.is_some_and(|waiting| waiting != timed.ruling);
            count("others waiting", others);
            let red = timed.state.interval == Interval::StartRed;
            let counts = timed.state.gap_count > 0 && timed.state.maximum_count > 0;
            let waits = timed.waiting.is_some();
            count(
                "counts in start red before a change",
                red && counts && waits,
            );
            // By the personality's own times the state is not valid.
            count(
                "valid by the ruling times alone",
                !valid(&site, &timed.state),
            );
        }
    }
    for (name, count) in seen {
        assert!(count >= 100, "{name}: {count}");
    }
}

#[test]
fn running_states_have_every_reason_to_hold() {
    let mut rng = Rng::new(SEED);
    let mut seen: BTreeMap<String, usize> = BTreeMap::new();
    for plan in plans(1_000) {
        let bytes = plan.bytes();
        let site = Site::read(&bytes).unwrap();
        for _ in 0..20 {
            let timed = running_timed_state(&mut rng, &bytes, &site);
            assert!(valid_timed(&site, &timed), "{timed:?}");
            let inputs = known_inputs(&mut rng, &site);
            let reasons = why_on(&site, &timed, inputs).unwrap();
            let reasons = reasons.expect("a state in running");
            let Reasons {
                no_other_demand,
                gap,
                steps_left,
                walks,
                ..
            } = reasons;
            let mut count = |name: String| *seen.entry(name).or_default() += 1;
            count(format!("no other demand {no_other_demand}"));
            count(format!("gap of length {}", gap.to_string().len()));
            count(format!(
                "maximum of length {}",
                steps_left.to_string().len()
            ));
            count(format!("gap above 0 {}", gap > 0));
            count(format!("steps left {}", steps_left > 0));
            count(format!("walks {}", walks.count_ones().min(4)));
            if [1, 9, 10, 99, 100, 999, 1000].contains(&steps_left) {
                count(format!("{steps_left} steps left"));
            }
        }
    }
    assert_eq!(seen.len(), 2 + 3 + 4 + 2 + 2 + 5 + 7, "{seen:?}");
    for (name, count) in seen {
        assert!(count >= 20, "{name}: {count}");
    }
}

#[test]
fn wrong_times_of_a_state_are_those_of_edition_one_too() {
    let mut rng = Rng::new(SEED);
    for breakage in [TimesBreakage::RulingOutside, TimesBreakage::WaitingOutside] {
        let mut found = 0;
        for plan in plans(2_000).filter(|plan| plan.edition == Edition::Two) {
            let bytes = plan.bytes();
            let site = Site::read(&bytes).unwrap();
            let broken = broken_times(&mut rng, &bytes, &site, breakage).unwrap();
            let timed = TimedState::from_bytes(&broken).unwrap();
            assert!(!valid_timed(&site, &timed));
            let mut as_one = bytes.clone();
            as_one[2] = 1;
            found += usize::from(valid_timed(&Site::read(&as_one).unwrap(), &timed));
        }
        assert!(found >= 20, "{breakage:?}: {found}");
    }
}

#[test]
fn every_breakage_of_the_times_makes_a_state_invalid() {
    let mut rng = Rng::new(SEED);
    for breakage in TimesBreakage::ALL {
        let mut found = 0;
        for plan in plans(60) {
            let bytes = plan.bytes();
            let site = Site::read(&bytes).unwrap();
            if let Some(broken) = broken_times(&mut rng, &bytes, &site, breakage) {
                let timed = TimedState::from_bytes(&broken);
                assert!(
                    timed.is_none_or(|timed| !valid_timed(&site, &timed)),
                    "{breakage:?}: {broken:?}"
                );
                found += 1;
            }
        }
        assert!(found >= 10, "{breakage:?}: {found}");
    }
}

/// Random roads, each with the personality of its site.
fn roads(count: usize) -> impl Iterator<Item = (Vec<u8>, RoadPlan)> {
    let mut rng = Rng::new(SEED);
    plans(count).map(move |plan| {
        let bytes = plan.bytes();
        let site = Site::read(&bytes).unwrap();
        let road = RoadPlan::random(&mut rng, &site);
        (bytes, road)
    })
}

fn streams(road: &RoadPlan) -> Vec<Stream> {
    let (records, ragged) = road.streams.as_chunks();
    assert!(ragged.is_empty());
    records.iter().map(|&one| Stream::from_bytes(one)).collect()
}

#[test]
fn random_roads_are_accepted() {
    for (bytes, road) in roads(3_000) {
        let site = Site::read(&bytes).unwrap();
        assert!(
            Road::new(site, &road.streams, road.steps).is_ok(),
            "{road:?}"
        );
    }
}

#[test]
fn roads_have_every_size_and_trait() {
    let mut counts = BTreeSet::new();
    let mut rates = BTreeSet::new();
    let mut steps = BTreeSet::new();
    let mut marks = BTreeSet::new();
    let mut modes = BTreeSet::new();
    let mut seen: BTreeMap<&str, usize> = BTreeMap::new();
    for (bytes, road) in roads(3_000) {
        let site = Site::read(&bytes).unwrap();
        let streams = streams(&road);
        counts.insert(streams.len());
        steps.insert(road.steps);
        let shared = |of: fn(&Stream) -> u8| {
            let distinct: BTreeSet<u8> = streams.iter().map(of).collect();
            distinct.len() < streams.len()
        };
        let mut count = |name, holds| *seen.entry(name).or_default() += usize::from(holds);
        count("shared detector", shared(|stream| stream.detector));
        count("shared group", shared(|stream| stream.group));
        let mut other_phase = false;
        for stream in &streams {
            let group = site.group(stream.group.into());
            let detector = site.detector(stream.detector.into());
            rates.insert(stream.rate);
            marks.insert(group.mark as u8);
            modes.insert(detector.mode);
            other_phase |= group.set >> detector.phase & 1 == 0;
        }
        count("group of another phase", other_phase);
        count(
            "every group of its phase",
            !streams.is_empty() && !other_phase,
        );
    }
    for (name, count) in seen {
        assert!(count >= 100, "{name}: {count}");
    }
    assert!(counts.into_iter().eq(0..=48));
    assert_eq!((rates.first(), rates.last()), (Some(&0), Some(&1800)));
    assert_eq!((steps.first(), steps.last()), (Some(&0), Some(&180_000)));
    assert!(marks.into_iter().eq([0, 1, 3]));
    assert!(modes.into_iter().eq(MODES));
}

#[test]
fn roads_release_in_every_way() {
    // Streams with vehicles gone, with none gone, and with a queue that ends empty.
    let (mut left, mut stood, mut emptied) = (0, 0, 0);
    for (bytes, road) in roads(300) {
        let site = Site::read(&bytes).unwrap();
        let mut road = Road::new(site, &road.streams, road.steps).unwrap();
        road.run();
        for vehicles in road.vehicles() {
            left += usize::from(vehicles.gone > 0);
            stood += usize::from(vehicles.gone == 0 && vehicles.queued > 0);
            emptied += usize::from(vehicles.gone > 0 && vehicles.queued == 0);
        }
    }
    for count in [left, stood, emptied] {
        assert!(count >= 100, "{left}, {stood}, {emptied}");
    }
}

/// The answer of a call on a copy of a row.
fn called(records: &[Record; RECORDS], call: &CabinetCall) -> u8 {
    let mut row = records.each_ref().map(Record::to_bytes);
    number(call.make(&Model, &mut row, call.personality(), &mut [0; 32]))
}

#[test]
fn held_records_can_be_stepped_and_taken_out() {
    let mut rng = Rng::new(SEED);
    for _ in 0..1_000 {
        let records = [held_record(&mut rng); RECORDS];
        assert_eq!(called(&records, &CabinetCall::TakeOut { record: 3 }), 0);
        let step = CabinetCall::Step {
            record: 0,
            inputs: 0,
        };
        assert_eq!(called(&records, &step), 0);
    }
}

#[test]
fn every_twist_shows_in_a_step() {
    let mut rng = Rng::new(SEED);
    for chosen in Twist::ALL {
        let mut answers: BTreeMap<u8, usize> = BTreeMap::new();
        for _ in 0..400 {
            let mut record = held_record(&mut rng);
            let before = record;
            if twist(&mut rng, &mut record, chosen).is_some() && record != before {
                let step = CabinetCall::Step {
                    record: 1,
                    inputs: 0,
                };
                let answer = called(&[record; RECORDS], &step);
                *answers.entry(answer).or_default() += 1;
            }
        }
        let expected: &[u8] = match chosen {
            Twist::Freed => &[24],
            Twist::HeldByAny | Twist::BytesBehind => &[0],
            Twist::Refused => &[2, 3, 5, 6, 9],
            Twist::LengthAbove => &[0, 12, 25],
            Twist::LengthBeside => &[1, 12],
            Twist::PastTheLast => &[25],
            Twist::FirstAnywhere => &[0, 25],
            Twist::InvalidState | Twist::InvalidTimes | Twist::NoState => &[13],
            Twist::Noise => &[2],
        };
        for number in expected {
            let found = answers.get(number).copied().unwrap_or(0);
            assert!(found >= 10, "{chosen:?}, {number}: {answers:?}");
        }
        let exact = !matches!(chosen, Twist::Refused | Twist::LengthBeside | Twist::Noise);
        assert!(!exact || answers.len() == expected.len(), "{answers:?}");
    }
}

#[test]
fn every_damage_of_a_sealed_record_shows_in_a_resuming() {
    let mut rng = Rng::new(SEED);
    let mut answers: BTreeMap<(String, u8), usize> = BTreeMap::new();
    for plan in plans(600) {
        let bytes = plan.bytes();
        let site = Site::read(&bytes).unwrap();
        let [record, before] = [(); 2].map(|()| {
            let state = valid_timed_state(&mut rng, &bytes, &site);
            record_of(&bytes, &state.to_bytes())
        });
        assert_eq!(packed::resume(&bytes, &record, &mut [0; STATE_LEN]), 0);
        for damage in SealDamage::ALL {
            let damaged = damaged_record(&mut rng, &bytes, &record, &before, damage);
            if damaged != record {
                let answer = packed::resume(&bytes, &damaged, &mut [0; STATE_LEN]);
                let key = (format!("{damage:?}"), number(answer));
                *answers.entry(key).or_default() += 1;
            }
        }
    }
    for damage in SealDamage::ALL {
        let name = format!("{damage:?}");
        let expected: &[u8] = match damage {
            SealDamage::OneBit | SealDamage::OneByte => &[28],
            SealDamage::Neighbours | SealDamage::Places => &[27, 28],
            SealDamage::Torn => &[0, 28],
            SealDamage::Shorter | SealDamage::Longer => &[28],
            SealDamage::OtherVersion | SealDamage::OtherVersionAndMore => &[27],
            SealDamage::Noise | SealDamage::OtherVersionWhole => &[27],
            SealDamage::OtherLength | SealDamage::OtherCheck => &[29],
            SealDamage::OtherPersonality => &[29],
            SealDamage::OtherState => &[0, 13],
        };
        for &number in expected {
            let found = answers.get(&(name.clone(), number)).copied().unwrap_or(0);
            assert!(found >= 3, "{name}, {number}: {answers:?}");
        }
        let chance = [
            SealDamage::OneBit,
            SealDamage::OneByte,
            SealDamage::Neighbours,
            SealDamage::Places,
            SealDamage::Noise,
        ];
        let others = answers
            .keys()
            .filter(|(found, number)| *found == name && !expected.contains(number));
        assert!(
            chance.contains(&damage) || others.count() == 0,
            "{answers:?}"
        );
    }
}

#[test]
fn calls_on_cabinets_reach_every_answer() {
    let mut rng = Rng::new(SEED);
    let mut answers: BTreeMap<(&str, u8), usize> = BTreeMap::new();
    for _ in 0..6_000 {
        let records = any_records(&mut rng);
        for _ in 0..10 {
            let call = CabinetCall::random(&mut rng, &records);
            let name = match call {
                CabinetCall::Place { .. } => "place",
                CabinetCall::Step { .. } => "step",
                CabinetCall::TakeOut { .. } => "take out",
                CabinetCall::Retime { .. } => "retime",
            };
            *answers.entry((name, called(&records, &call))).or_default() += 1;
        }
    }
    let reached = |name, numbers: &[u8]| {
        for &number in numbers {
            let found = answers.get(&(name, number)).copied().unwrap_or(0);
            assert!(found >= 5, "{name}, {number}: {answers:?}");
        }
    };
    reached(
        "place",
        &[0, 1, 2, 3, 5, 6, 7, 8, 9, 10, 11, 17, 18, 21, 24, 25],
    );
    reached("step", &[0, 1, 2, 3, 5, 9, 12, 13, 15, 21, 24, 25]);
    reached("take out", &[0, 2, 12, 24, 25]);
    reached("retime", &[0, 1, 2, 3, 5, 6, 9, 12, 13, 26]);
}

#[test]
fn lists_of_calls_fill_and_empty_a_cabinet() {
    let mut rng = Rng::new(SEED);
    let mut held: BTreeMap<usize, usize> = BTreeMap::new();
    for _ in 0..300 {
        let mut row = [[0; RECORD_LEN]; RECORDS];
        let outputs = &mut [0; 32];
        for _ in 0..60 {
            let records = records_in(&row).unwrap();
            let count = records.iter().filter(|record| !record.is_free()).count();
            *held.entry(count).or_default() += 1;
            let call = CabinetCall::random(&mut rng, &records);
            call.make(&Model, &mut row, call.personality(), outputs);
        }
    }
    for count in 0..=RECORDS {
        assert!(
            held.get(&count).is_some_and(|&calls| calls >= 500),
            "{held:?}"
        );
    }
}

#[test]
fn every_refusal_number_occurs_in_the_cases() {
    let tally = compare::run_cases(&Model, SEED, 0..2_000).unwrap();
    for number in (0..=15).chain([17, 18, 21, 22]).chain(24..=29) {
        assert!(tally.answers(number) >= 20, "{number}\n{tally}");
    }
    for kind in compare::Kind::all() {
        assert!(tally.cases(kind) >= 20, "{kind}\n{tally}");
    }
}

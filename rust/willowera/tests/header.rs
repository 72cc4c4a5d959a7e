//! The constants, fields and words here are those of the C headers.

use std::collections::BTreeMap;
use std::mem::{offset_of, size_of};
use willowera::{colour, interval, refusal, stage, Fields, Movement, Record, Refusal};
use willowera::{LONGEST_LINE, MOST_PERSONALITY_BYTES, MOST_WAIT_BYTES, MOVEMENTS};
use willowera::{OUTPUTS, RECORDS, SEALED_LEN, STATE_LEN, VERSION};

const HEADER: &str = include_str!("../../../include/willowera.h");
const WORDS: &str = include_str!("../../../include/willowera_words.h");

/// The numbers that a text of the header defines, by name without WILLOWERA_.
fn defined(text: &'static str) -> BTreeMap<&'static str, usize> {
    let number = |line: &'static str| {
        let mut words = line.strip_prefix("#define WILLOWERA_")?.split_whitespace();
        Some((words.next()?, words.next()?.parse().ok()?))
    };
    text.lines().filter_map(number).collect()
}

/// The part of the header between two of its headings.
fn part(from: &str, to: &str) -> &'static str {
    let start = HEADER.find(from).expect(from);
    let length = HEADER[start..].find(to).expect(to);
    &HEADER[start..start + length]
}

/// The same names with the same numbers.
fn same(part: &'static str, ours: &[(&'static str, u8)]) {
    let ours = ours
        .iter()
        .map(|&(name, number)| (name, usize::from(number)));
    assert_eq!(defined(part), ours.collect());
}

macro_rules! named {
    ($module:ident: $($name:ident)*) => { [$((stringify!($name), $module::$name)),*] };
}

#[test]
fn colours() {
    let ours = named!(colour: RED YELLOW GREEN FLASHING_RED DARK);
    same(part("/* ── Colours", "/* ── Codes"), &ours);
}

#[test]
fn intervals_and_stages() {
    let mut ours =
        named!(interval: START_RED LATE_START MINIMUM_GREEN RUNNING EARLY_CUT_OFF YELLOW ALL_RED)
            .to_vec();
    ours.extend(named!(stage: IDLE WALK CLEARANCE_ONE CLEARANCE_TWO));
    // In C a colour has the name of this interval already. Here no phase is None.
    for (name, _) in &mut ours {
        if *name == "YELLOW" {
            *name = "INTERVAL_YELLOW";
        }
    }
    ours.push(("NO_PHASE", 255));
    same(part("/* ── Codes", "/* ── The fields"), &ours);
}

#[test]
fn refusals() {
    let ours = named!(refusal: ACCEPTED CUT_SHORT WRONG_KIND WRONG_LENGTH WRONG_COUNT TIME_OUTSIDE WRONG_GROUP
        NINTH_PEDESTRIAN PHASE_WITHOUT_GROUP WRONG_CONFLICT CONFLICT_IN_PHASE WRONG_DETECTOR LEFT_OVER
        STATE_NOT_VALID BUFFER_SHORT STRAY_INPUT NO_EARLY_TIMES WRONG_ORDER UNCALLED_PHASE SHEET_OUT_OF_RANGE
        ABOVE_LIMITS WRONG_STREAMS YELLOW_OUT_OF_RANGE WRONG_RECORD OUTPUTS_TAKEN NOT_ONLY_TIMES OTHER_VERSION
        DAMAGED OTHER_PERSONALITY);
    same(part("/* ── Refusals", "/* ── Answers"), &ours);
}

#[test]
fn sizes() {
    let all = defined(HEADER);
    assert_eq!(all["STATE_BYTES"], STATE_LEN);
    assert_eq!(all["SEALED_BYTES"], SEALED_LEN);
    assert_eq!(all["MOST_LINE_BYTES"], LONGEST_LINE);
    assert_eq!(all["MOST_MOVEMENTS"], MOVEMENTS);
    assert_eq!(all["MOST_WAIT_BYTES"], MOST_WAIT_BYTES);
    let most = all["MOST_PHASES"] + all["MOST_MOVEMENTS"];
    assert_eq!(all["MOST_WAIT_BYTES"], 2 * most);
    assert_eq!(all["MOST_PERSONALITY_BYTES"], MOST_PERSONALITY_BYTES);
    assert_eq!(all["RECORDS"], RECORDS);
    assert_eq!(all["OUTPUTS"], OUTPUTS);
    assert_eq!(all["VERSION"], VERSION as usize);
}

/// The parts of a record in the header, each with its offset, and the bytes of all: every part
/// is a byte, or bytes one after the other.
fn record() -> (Vec<(&'static str, usize)>, usize) {
    let all = defined(HEADER);
    let number = |text: &str| match text.strip_prefix("WILLOWERA_") {
        Some(name) => all[name],
        None => text.parse().expect("a number"),
    };
    let mut parts = Vec::new();
    let mut end = 0;
    for line in part("struct willowera_record {", "};").lines().skip(1) {
        let field = line.trim().strip_prefix("uint8_t ").expect("bytes");
        let (field, _) = field.split_once(';').expect("the end of a part");
        let (name, count) = match field.split_once('[') {
            Some((name, count)) => (name, number(count.strip_suffix(']').expect("a count"))),
            None => (field, 1),
        };
        parts.push((name, end));
        end += count;
    }
    (parts, end)
}

#[test]
fn parts_of_a_record() {
    let ours = [
        ("held", offset_of!(Record, held)),
        ("first", offset_of!(Record, first)),
        ("length", offset_of!(Record, length)),
        ("personality", offset_of!(Record, personality)),
        ("state", offset_of!(Record, state)),
    ];
    assert_eq!(record(), (ours.to_vec(), size_of::<Record>()));
}

#[test]
fn fields() {
    let all = defined(HEADER);
    let state: [u8; STATE_LEN] = std::array::from_fn(|at| (7 * at + 1) as u8);
    let one = |name: &str| state[all[name]];
    let two_at = |at: usize| u16::from_le_bytes([state[at], state[at + 1]]);
    let two = |name: &str| two_at(all[name]);
    let fields = Fields::of(&state);
    assert_eq!(fields.phase(), one("STATE_PHASE"));
    assert_eq!(fields.interval(), one("STATE_INTERVAL"));
    assert_eq!(fields.age(), two("STATE_AGE"));
    assert_eq!(fields.came_from(), Some(state[all["STATE_CAME_FROM"] + 1]));
    assert_eq!(fields.target(), Some(state[all["STATE_TARGET"] + 1]));
    assert_eq!(fields.gap_count(), two("STATE_GAP"));
    assert_eq!(fields.maximum_count(), two("STATE_MAXIMUM"));
    assert_eq!(fields.locked_demands(), one("STATE_LOCKED"));
    assert_eq!(fields.button_demands(), one("STATE_BUTTONS"));
    assert_eq!(fields.kept_set(), one("STATE_KEPT"));
    for (k, movement) in fields.movements().into_iter().enumerate() {
        let at = all["STATE_MOVEMENTS"] + all["MOVEMENT_BYTES"] * k;
        let (stage, age) = (state[at], two_at(at + 1));
        assert_eq!(movement, Movement { stage, age });
    }
    let mut waiting = [0; STATE_LEN];
    let none = Fields::of(&waiting);
    assert_eq!((none.came_from(), none.target()), (None, None));
    assert!(!none.times_wait());
    waiting[all["STATE_TIMES_WAIT"]] = 1;
    assert!(Fields::of(&waiting).times_wait());
}

/// The sentences of the table in C, by number; that of every other number is the last.
fn sentences() -> (BTreeMap<usize, &'static str>, &'static str) {
    let numbers = defined(HEADER);
    let table = WORDS.split("switch (number) {").nth(1).expect("the table");
    let table = table.split("\n}\n").next().expect("its end");
    let sentence = |text: &'static str| text.split('"').nth(1).expect("a sentence");
    let (cases, last) = table.split_once("default:").expect("a default");
    let case = |text: &'static str| {
        let name = text.split(':').next().expect("a case").trim();
        let number = name.strip_prefix("WILLOWERA_").map(|name| numbers[name]);
        let number = number.unwrap_or_else(|| name.parse().expect("a number"));
        (number, sentence(text))
    };
    (
        cases.split("case ").skip(1).map(case).collect(),
        sentence(last),
    )
}

#[test]
fn words() {
    let (sentences, other) = sentences();
    for number in defined(part("/* ── Refusals", "/* ── Answers")).values() {
        assert!(sentences.contains_key(number), "{number}");
    }
    for number in 0..=255 {
        let refusal = Refusal { number, place: 0 };
        let expected = sentences.get(&usize::from(number)).unwrap_or(&other);
        assert_eq!(refusal.words(), *expected);
        let shown = format!("refused {number} 0: {expected}");
        assert_eq!(refusal.to_string(), shown);
    }
}

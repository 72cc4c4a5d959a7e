//! Refusals in words, each with the line that made the bytes. The model stands for the
//! library here; the tests of the command ask the library itself.

use model::packed;

const TEXT: &str = "\
site
start red 10
phases
A 0 20 30 5 30 10
B 0 20 30 5 30 10
C 0 20 30 5 30 10
groups
V1 A vehicle
V2 B vehicle
V3 C early-cut-off
P1 B pedestrian
conflicts
V1: V2 V3 P1
V2: V1 V3
V3: V1 V2
P1: V1
detectors
0 A locking extending
1 B locking extending
2 C locking
pedestrians
P1 60 10 90
early-cut-off
A 0
B 0
C 20
order
A C B
";

/// The refusal of the text with some parts replaced: number, `line:column` and words, and
/// the lines of the other places.
fn told(edits: &[(&str, &str)]) -> (u8, String, Vec<usize>) {
    let mut text = TEXT.to_string();
    for (old, new) in edits {
        assert!(text.contains(old), "{old}");
        text = text.replacen(old, new, 1);
    }
    let site = site::read(&text).unwrap_or_else(|mistakes| panic!("{mistakes:?}"));
    let built = site.build();
    let answer = packed::read(&built.bytes);
    let told = site::tell(&site, &built, answer as u8, (answer >> 8) as usize);
    let others = told.others.iter().map(|(span, _)| span.line).collect();
    let text = format!("{}:{} {}", told.span.line, told.span.column, told.text);
    (told.number, text, others)
}

fn refused(edits: &[(&str, &str)], number: u8, text: &str, others: &[usize]) {
    assert_eq!(told(edits), (number, text.to_string(), others.to_vec()));
}

#[test]
fn the_text_itself_is_accepted() {
    assert_eq!(told(&[]).0, 0);
}

#[test]
fn counts_and_lengths() {
    let phases = "D 0 20 30 5 30 10\nE 0 20 30 5 30 10\nF 0 20 30 5 30 10\nG 0 20 30 5 30 10\nH 0 20 30 5 30 10\n";
    let early = "D 0\nE 0\nF 0\nG 0\nH 0\norder";
    refused(
        &[("groups\n", &format!("{phases}groups\n")), ("order", early)],
        4,
        "11:1 8 phases; 2 to 7 are allowed",
        &[],
    );
    refused(
        &[("A C B", "A C B A")],
        3,
        "27:1 the order has 4 letters, and the site 3 phases",
        &[],
    );
    let rows: String = (3..49).map(|at| format!("{at} A locking\n")).collect();
    refused(
        &[("pedestrians\n", &format!("{rows}pedestrians\n"))],
        3,
        "66:1 49 detectors; at most 48 are allowed",
        &[],
    );
}

#[test]
fn times_outside_the_limits() {
    refused(
        &[("B 0 20 30 5 30 10", "B 0 20 30 5 2.9 s 10")],
        5,
        "5:13 phase B: yellow is 2.9 s (29 steps); edition 1 allows 3.0 s to 10.0 s (30 to 100 steps)",
        &[],
    );
    refused(
        &[("start red 10", "edition 2\nstart red 10")],
        5,
        "3:11 the site: start red is 1.0 s (10 steps); edition 2 allows 3.0 s to 15.0 s (30 to 150 steps)",
        &[],
    );
    refused(
        &[("60 10 90", "60 0 90")],
        5,
        "22:7 P1: first clearance is 0.0 s (0 steps); edition 1 allows 0.1 s to 40.0 s (1 to 400 steps)",
        &[],
    );
    refused(
        &[("C 20\n", "C 201\n")],
        5,
        "26:3 phase C: early cut-off green is 20.1 s (201 steps); edition 1 allows 0.0 s to 20.0 s (0 to 200 steps)",
        &[],
    );
}

#[test]
fn groups() {
    refused(
        &[("V2 B", "V2 BE")],
        6,
        "9:4 V2 has phase E; the site has phases A to C",
        &[],
    );
    refused(
        &[("P1 B", "P1 AB")],
        6,
        "11:4 P1 is a pedestrian group with 2 phases; it must have exactly one",
        &[],
    );
    refused(
        &[("P1 B", "P1 -")],
        6,
        "11:4 P1 is a pedestrian group with no phase; it must have exactly one",
        &[],
    );
    refused(
        &[("V3 C", "V3 -")],
        8,
        "6:1 phase C is in the set of no group",
        &[7],
    );
    refused(
        &[("early-cut-off\nA 0\nB 0\nC 20\n", "")],
        17,
        "10:6 V3 has the mark `early-cut-off`, but the text has no heading `early-cut-off`",
        &[],
    );
    let nine: String = (2..10).map(|at| format!("P{at} B pedestrian\n")).collect();
    let rows: String = (2..10).map(|at| format!("P{at}:\n")).collect();
    let walks: String = (2..10).map(|at| format!("P{at} 60 10 90\n")).collect();
    refused(
        &[
            ("conflicts\n", &format!("{nine}conflicts\n")),
            ("detectors\n", &format!("{rows}detectors\n")),
            ("early-cut-off\n", "early-cut-off\n"),
            ("P1 60 10 90\n", &format!("P1 60 10 90\n{walks}")),
        ],
        7,
        "19:1 P9 is the ninth pedestrian group; at most 8 are allowed",
        &[],
    );
}

#[test]
fn conflicts() {
    refused(
        &[("V2: V1", "V2: V2 V1")],
        9,
        "14:5 V2 conflicts with itself",
        &[],
    );
    refused(
        &[("V3: V1 V2", "V3: V2")],
        9,
        "13:8 V1 lists V3, but the row of V3 does not list V1",
        &[15],
    );
    refused(
        &[("V2 B", "V2 AB")],
        10,
        "13:5 V1 and V2 conflict and are both in phase A",
        &[8, 9, 4],
    );
}

#[test]
fn detectors_order_and_callers() {
    refused(
        &[("1 B locking", "1 D locking")],
        11,
        "19:3 detector 1 is of phase D; the site has phases A to C",
        &[],
    );
    refused(
        &[("A C B", "A C A")],
        18,
        "28:5 the order has phase A twice, and phase B is missing",
        &[5],
    );
    refused(
        &[("A C B", "A C D")],
        18,
        "28:5 the order has phase D (the site has phases A to C), and phase B is missing",
        &[5],
    );
    refused(
        &[("2 C locking", "2 C no-call extending")],
        21,
        "6:1 phase C has no calling detector and no pedestrian group: nobody can call it",
        &[20],
    );
}

#[test]
fn limits_are_those_of_the_model() {
    for edition in [model::Edition::One, model::Edition::Two] {
        let kind = if edition == model::Edition::One { 1 } else { 2 };
        let theirs = model::Setting::OF_PHASE
            .map(|one| one.limits(edition))
            .map(|one| (one.low, one.high));
        assert_eq!(site::PHASE_SETTINGS.map(|one| one.limits(kind)), theirs);
        let theirs = model::Setting::OF_MOVEMENT
            .map(|one| one.limits(edition))
            .map(|one| (one.low, one.high));
        assert_eq!(site::MOVEMENT_SETTINGS.map(|one| one.limits(kind)), theirs);
    }
}

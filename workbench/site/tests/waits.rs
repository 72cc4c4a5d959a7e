//! What the waits are made of. The model stands for the library here; the command and the
//! page ask the library itself.

use generate::{Plan, Rng};
use model::{waits, MOST_WAIT_BYTES};

/// The waits of a personality by the model, and the sums of the parts by its text.
fn both(bytes: &[u8]) -> Option<(Vec<u64>, Vec<u64>)> {
    let mut buffer = [0; MOST_WAIT_BYTES];
    let length = waits(bytes, &mut buffer).ok()? as usize;
    let two = |pair: &[u8]| u64::from(u16::from_le_bytes([pair[0], pair[1]]));
    let told = buffer[..length].chunks(2).map(two).collect();
    let site = site::read(&site::show(bytes).unwrap()).unwrap();
    let sums = site::waits::waits(&site);
    Some((told, sums.iter().map(|wait| wait.steps()).collect()))
}

#[test]
fn the_parts_add_up_to_the_waits() {
    let mut seen = 0;
    for case in 0..4_000 {
        let bytes = Plan::random(&mut Rng::of_case(5, case)).bytes();
        if let Some((told, sums)) = both(&bytes) {
            assert_eq!(told, sums, "case {case}");
            seen += 1;
        }
    }
    assert!(seen > 2_000, "only {seen} were accepted");
}

const TEXT: &str = "\
site
start red 10
phases
A 0 20 30 5 30 10
B 5 20 40 5 30 10
groups
V1 A vehicle
V2 B late-start
P1 A pedestrian
P2 A pedestrian
conflicts
V1: V2
V2: V1 P1 P2
P1: V2
P2: V2
detectors
0 A locking
1 B locking
pedestrians
P1 100 7 60
P2 60 5 20
";

#[test]
fn each_part_is_told() {
    let waits = site::waits::waits(&site::read(TEXT).unwrap());
    let words = |at: usize| format!("{}: {}", waits[at].who, waits[at].words());
    assert_eq!(words(0), "phase A: A is left 6.0 + turn of B 10.5");
    assert_eq!(
        words(1),
        "phase B: B is left 4.0 + turn of A 16.7 + late start of B 0.5"
    );
    assert_eq!(
        words(2),
        "P1: rest of A after a press for P1 17.2 + turn of B 10.5"
    );
    let parts: Vec<String> = site::waits::parts(&waits)
        .iter()
        .map(|part| format!("{}: {}", part.what, part.words()))
        .collect();
    let expected = [
        "A is left: C2 of P1 6.0",
        "turn of B: L 0.5 + M 2.0 + X 4.0 + Y 3.0 + R 1.0",
        "B is left: Y 3.0 + R 1.0",
        "turn of A: W of P1 10.0 + C1 of P1 0.7 + C2 of P1 6.0",
        "late start of B: L 0.5",
        "rest of A after a press for P1: C1 of P1 0.7 + C2 of P1 6.0 + W of P2 6.0 + C1 of P2 0.5 + Y 3.0 + R 1.0",
        "rest of A after a press for P2: C1 of P2 0.5 + C2 of P2 2.0 + W of P1 10.0 + C1 of P1 0.7 + C2 of P1 6.0",
    ];
    assert_eq!(parts, expected);
}

//! Recordings of the linked library.

#![cfg(feature = "linked")]

use record::{Recorder, Seen};

/// The shortest recording of a seed, and what it has in it.
fn shortest(seed: u64) -> (Vec<u8>, Seen) {
    let mut recorder = Recorder::new(seed);
    recorder.record(0);
    recorder.finish()
}

#[test]
fn the_shortest_recording_has_everything() {
    for seed in 1..5 {
        assert_eq!(shortest(seed).1.missing(), [""; 0], "seed {seed}");
    }
}

#[test]
fn equal_seeds_give_equal_recordings() {
    assert!(shortest(1).0 == shortest(1).0);
    assert!(shortest(1).0 != shortest(2).0);
}

#[test]
fn what_is_missing_is_named() {
    let mut recorder = Recorder::new(1);
    recorder.begin();
    recorder.call("version", &[]);
    recorder.call("yellow", &[50.into(), 0.into()]);
    recorder.call("yellow", &[39.into(), 0.into()]);
    let missing = recorder.finish().1.missing();
    let has = |words: &str| missing.iter().any(|line| line.ends_with(words));
    assert!(has("call of willowera_step"));
    assert!(has("refusal with 22"));
    assert!(
        has("the upper 32 bits of argument 6 decide")
            && missing.iter().any(|line| line.contains("willowera_step"))
    );
    assert!(!has("call of willowera_version"));
    assert!(!has("call of willowera_yellow"));
    assert!(!has("refusal with 23"));
}

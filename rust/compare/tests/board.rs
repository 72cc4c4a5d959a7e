//! The library against the model, if it is linked.

#![cfg(feature = "linked")]

use compare::{run_cases, run_watches, run_why_vectors, Asked, Library};
use model::packed::{Board, Model};
use std::path::Path;

/// Seeds of the cases that run with every test.
const SEEDS: [u64; 3] = [1, 20_260_101, 0xB0A2D];

#[test]
fn differs_nowhere() {
    for seed in SEEDS {
        println!("seed {seed}");
        match run_cases(&Library, seed, 0..1_300) {
            Ok(tally) => println!("{tally}"),
            Err(failure) => panic!("{failure}"),
        }
    }
}

#[test]
fn agrees_with_the_lines_of_the_python_model() {
    let package = Path::new(env!("CARGO_MANIFEST_DIR"));
    let kept = std::fs::read(package.join("../../vectors/whys"));
    let kept = kept.expect("the vectors of the line are kept");
    for board in [&Model as &dyn Board, &Library] {
        let Asked { lists, lines } = run_why_vectors(board, &kept).unwrap();
        assert!(lists > 200 && lines > 3_000, "{lists} lists, {lines} lines");
    }
}

#[test]
fn breaks_no_part_of_demand_3() {
    for seed in SEEDS {
        println!("seed {seed}");
        match run_watches(&Library, seed, 100_000) {
            Ok(watched) => watched.iter().for_each(|strategy| println!("{strategy}")),
            Err((personality, breach)) => panic!("{breach}\n{personality:02x?}"),
        }
    }
}

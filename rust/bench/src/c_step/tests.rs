//! The step in C beside the library's: every answer and every byte is the same.

use super::step;
use generate::{any_inputs, damaged, known_inputs, retimed, scrambled, twice_damaged, Rng, AIMED};
use model::{Site, MAX_GROUPS, STATE_LEN};
use std::cell::Cell;
use variant::{AsBoard, Variant};
use willowera::packed;

const SITES: [&[u8]; 8] = [
    include_bytes!("../../../../examples/crossings/personality.bin"),
    include_bytes!("../../../../examples/edition_two/personality.bin"),
    include_bytes!("../../../../examples/four_phases/personality.bin"),
    include_bytes!("../../../../examples/largest/personality.bin"),
    include_bytes!("../../../../examples/staggered/personality.bin"),
    include_bytes!("../../../../examples/t_junction/personality.bin"),
    include_bytes!("../../../../examples/t_junction_leading/personality.bin"),
    include_bytes!("../../../../examples/two_phases/personality.bin"),
];

/// Both steps at once, and how many calls were made. The other calls are the model's.
#[derive(Default)]
struct Both {
    calls: Cell<usize>,
}

impl Variant for Both {
    fn step(&self, personality: &[u8], state: &mut [u8], inputs: u64, colours: &mut [u8]) -> u64 {
        let mut expected = (state.to_vec(), colours.to_vec());
        let handed = format!("{personality:?}, {state:?}, {inputs:#x}, {colours:?}");
        let answer = step(personality, state, inputs, colours);
        let library = packed::step(personality, &mut expected.0, inputs, &mut expected.1);
        assert_eq!(answer, library, "the answer: {handed}");
        assert_eq!(*state, expected.0, "the state: {handed}");
        assert_eq!(*colours, expected.1, "the colours: {handed}");
        self.calls.set(self.calls.get() + 1);
        answer
    }
}

/// Personalities good and damaged, states valid or not, with times that wait and
/// without, runs, inputs and buffers of every kind. They are compared with the model too.
#[test]
fn generated_calls_are_the_same() {
    let both = AsBoard(Both::default());
    if let Err(failure) = compare::run_cases(&both, 1, 0..1_220) {
        panic!("{failure}");
    }
    let calls = both.0.calls.get();
    println!("{calls} calls");
    assert!(calls >= 20_000, "{calls}");
}

/// The fresh state of a site.
fn fresh(personality: &[u8]) -> [u8; STATE_LEN] {
    let mut state = [0; STATE_LEN];
    assert_eq!(packed::fresh(personality, &mut state), 0);
    state
}

/// The example sites with each bit turned over in turn, and cut at each byte.
#[test]
fn damaged_sites_are_the_same() {
    let both = Both::default();
    for site in SITES {
        let step = |personality: &[u8]| {
            both.step(personality, &mut fresh(site), 0, &mut [7; MAX_GROUPS]);
        };
        let mut personality = site.to_vec();
        for bit in 0..8 * site.len() {
            personality[bit / 8] ^= 1 << (bit % 8);
            step(&personality);
            personality[bit / 8] ^= 1 << (bit % 8);
        }
        (0..=site.len()).for_each(|length| step(&site[..length]));
    }
    println!("{} calls", both.calls.get());
}

/// Personalities damaged to be refused with each number, and in other ways.
#[test]
fn damaged_personalities_are_the_same() {
    let both = Both::default();
    let mut rng = Rng::new(1);
    for round in 0..500 {
        let state = fresh(SITES[round % SITES.len()]);
        let aimed = AIMED.map(|number| damaged(&mut rng, number));
        let others = [twice_damaged(&mut rng), scrambled(&mut rng)];
        for personality in aimed.iter().chain(&others) {
            both.step(personality, &mut state.clone(), 0, &mut [7; MAX_GROUPS]);
        }
    }
    println!("{} calls", both.calls.get());
}

/// Runs of the example sites, with new times and refused calls among the steps.
#[test]
fn example_sites_run_the_same() {
    let both = Both::default();
    for (seed, personality) in SITES.iter().enumerate() {
        let site = Site::read(personality).expect("an accepted site");
        let mut rng = Rng::new(seed as u64);
        let (mut state, mut colours) = (fresh(personality), [0; MAX_GROUPS]);
        for _ in 0..5_000 {
            match rng.below(100) {
                0 => {
                    let second = retimed(&mut rng, personality);
                    assert_eq!(packed::retime(personality, &mut state, &second), 0);
                }
                1 => {
                    let (inputs, room) = (any_inputs(&mut rng, &site), rng.below(MAX_GROUPS));
                    both.step(personality, &mut state, inputs, &mut colours[..room]);
                }
                _ => {
                    let inputs = known_inputs(&mut rng, &site) & known_inputs(&mut rng, &site);
                    let answer = both.step(personality, &mut state, inputs, &mut colours);
                    assert_eq!(answer & 0xff, 0);
                }
            }
        }
    }
    println!("{} calls", both.calls.get());
}

//! The model itself, watched on many sites: no breach.

use drive::{watch, Among, Driver, Report, Strategy};
use generate::{Pace, Plan, Rng, Shape};
use model::packed::Model;
use model::Stage;

const SEED: u64 = 20_260_101;

/// A run that must be without a breach.
fn watched(plan: &Plan, strategy: Strategy, seed: u64, calls: u64) -> Report {
    let personality = plan.bytes();
    let site = model::Site::read(&personality).unwrap();
    let mut driver = Driver::new(strategy, &site, Rng::new(seed));
    let watched = watch(
        Among::Nothing,
        &Model,
        &personality,
        &mut driver,
        &mut Rng::new(!seed),
        calls,
    );
    watched
        .unwrap()
        .unwrap_or_else(|breach| panic!("{strategy:?}, seed {seed}: {breach}\n{plan:?}"))
}

#[test]
fn the_junction_of_two_phases() {
    for strategy in Strategy::ALL {
        let report = watched(&Plan::junction(), strategy, SEED, 20_000);
        assert_eq!(report.bound, 270);
        assert!(
            report.accepted > 19_000 && report.refused > 300,
            "{report:?}"
        );
    }
}

#[test]
fn the_largest_site() {
    for strategy in Strategy::ALL {
        watched(&Plan::largest(), strategy, SEED, 20_000);
    }
}

#[test]
fn random_sites() {
    let mut rng = Rng::new(SEED);
    for seed in 0..150 {
        let plan = Plan::random(&mut rng);
        for strategy in Strategy::ALL {
            watched(&plan, strategy, seed, 600);
        }
    }
}

#[test]
fn walks_rest_under_the_drivers() {
    for strategy in [Strategy::Bursts, Strategy::Single, Strategy::Late] {
        let mut rng = Rng::new(SEED);
        let rested = (0..20).filter(|&seed| {
            let personality = Plan::random(&mut rng).bytes();
            let site = model::Site::read(&personality).unwrap();
            let mut driver = Driver::new(strategy, &site, Rng::new(seed));
            let mut state = model::fresh();
            (0..2_000).any(|_| {
                let inputs = driver.inputs(&site, &state);
                state = model::step_on(&site, &state, inputs, &mut [0; 32]).unwrap();
                (0..site.movement_count()).any(|index| {
                    let movement = state.movements[index];
                    movement.stage == Stage::Walk && movement.age > site.movement(index).walk
                })
            })
        });
        let rested = rested.count();
        assert!(rested >= 5, "{strategy:?}: at {rested} of 20 sites");
    }
}

#[test]
fn the_adversaries_come_near_the_bound() {
    let mut rng = Rng::new(SEED);
    let mut nearest = 0.0_f64;
    for seed in 0..40 {
        let shape = Shape {
            pace: Pace::Short,
            detectors: 24,
            ..Shape::random(&mut rng)
        };
        let plan = Plan::of_shape(&mut rng, shape);
        for strategy in [Strategy::Greedy, Strategy::Ambush] {
            let report = watched(&plan, strategy, seed, 5_000);
            let part = report.longest_wait as f64 / report.bound as f64;
            nearest = nearest.max(part);
        }
    }
    println!("the longest wait is {nearest:.2} of the bound");
    assert!(
        nearest > 0.5,
        "the longest wait is {nearest:.2} of the bound"
    );
}

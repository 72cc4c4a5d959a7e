//! What the tests of watched runs have in common.

use drive::{watch, Among, Driver, Report, Strategy};
use generate::{Plan, Rng};
use model::packed::Board;
use model::Site;
use monitor::Breach;

/// A run of a board.
pub fn watched(
    among: Among,
    board: &dyn Board,
    plan: &Plan,
    strategy: Strategy,
    seed: u64,
    calls: u64,
) -> Result<Report, Breach> {
    let personality = plan.bytes();
    let site = Site::read(&personality).unwrap();
    let mut driver = Driver::new(strategy, &site, Rng::new(seed));
    let mut rng = Rng::new(!seed);
    watch(among, board, &personality, &mut driver, &mut rng, calls).unwrap()
}

/// The first breach of a kind on some site under some strategy.
pub fn find_breach(
    among: Among,
    board: &dyn Board,
    site: fn(&mut Rng) -> Plan,
    wanted: impl Fn(&Breach) -> bool,
) -> Breach {
    let mut rng = Rng::new(7);
    for seed in 0..30 {
        let plan = site(&mut rng);
        for strategy in Strategy::ALL {
            match watched(among, board, &plan, strategy, seed, 3_000) {
                Err(breach) if wanted(&breach) => return breach,
                _ => {}
            }
        }
    }
    panic!("the monitor notices nothing");
}

/// The first breach on some site under some strategy.
pub fn first_breach(among: Among, board: &dyn Board, site: fn(&mut Rng) -> Plan) -> Breach {
    find_breach(among, board, site, |_| true)
}

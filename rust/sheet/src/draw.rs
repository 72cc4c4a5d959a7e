//! Sheets drawn at random: any bits, metres of every size, and the neighbours of
//! the numbers where an answer changes.

use generate::Rng;

/// What a call is handed.
#[derive(Clone, Copy, Debug, PartialEq, Eq)]
pub struct Drawn {
    pub speed: u32,
    pub detector: u32,
    pub bits: u64,
}

pub fn drawn(rng: &mut Rng) -> Drawn {
    let speed = speed(rng);
    Drawn {
        speed,
        detector: detector(rng),
        bits: bits(rng, speed),
    }
}

fn speed(rng: &mut Rng) -> u32 {
    match rng.below(20) {
        0 => rng.pick(&[0, 1, 19, 20, 110, 111, 255, 256, 65_556, u32::MAX]),
        1 => rng.draw() as u32,
        _ => rng.range(20, 110) as u32,
    }
}

fn detector(rng: &mut Rng) -> u32 {
    match rng.below(40) {
        0 => rng.draw() as u32,
        1 => rng.pick(&[2, 255, 256, u32::MAX]),
        choice => (choice % 4 == 2) as u32,
    }
}

fn bits(rng: &mut Rng, speed: u32) -> u64 {
    match rng.below(16) {
        // any bits
        0 => rng.draw(),
        // no number, an infinity, the numbers next to 0, below 0
        1 => sign(rng) | 0x7FF0_0000_0000_0000 | rng.draw() >> (12 + rng.below(52)),
        2 => sign(rng) | rng.draw() >> (12 + rng.below(52)),
        3 => near(rng, 0.0),
        4 => rng.draw() | 1 << 63,
        // metres of every size up to 1,024, and evenly up to 128
        5 | 6 => (rng.range(0, 1032) as u64) << 52 | rng.draw() >> 12,
        7 | 8 => ((rng.draw() >> 11) as f64 / (1u64 << 46) as f64).to_bits(),
        // where one vehicle more stands, and the ends of the ranges
        9 | 10 => {
            let metres = 6 * rng.range(0, 51);
            near(rng, metres as f64)
        }
        11 => {
            let end = rng.pick(&[300.0, 108.0, 114.0]);
            near(rng, end)
        }
        // where one step more is taken
        _ => {
            let t = rng.range(0, 102);
            near(rng, f64::from(speed) * t as f64 / 36.0)
        }
    }
}

fn sign(rng: &mut Rng) -> u64 {
    u64::from(rng.percent(50)) << 63
}

/// A value at most four places beside another.
fn near(rng: &mut Rng, metres: f64) -> u64 {
    metres
        .to_bits()
        .wrapping_add(rng.range(0, 8) as u64)
        .wrapping_sub(4)
}

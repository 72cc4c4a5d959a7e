//! Request six of document 02 in exact arithmetic, written from the paper. A
//! binary64 value is taken apart into a whole number and a power of two, and
//! nothing here computes with floats.

/// Where an approach is detected.
pub const ADVANCE: u32 = 0;
pub const STOP_LINE: u32 = 1;

/// The limits of M and G.
const HIGHEST_MINIMUM: u64 = 400;
const HIGHEST_GAP: u64 = 100;

/// The settings of a sheet, or the number of its refusal.
#[derive(Clone, Copy, Debug, PartialEq, Eq)]
pub enum Answer {
    Settings { minimum: u64, passage: u64 },
    Refused(u8),
}

impl Answer {
    /// The answer as the library packs it.
    pub fn packed(self) -> u64 {
        match self {
            Answer::Settings { minimum, passage } => minimum << 8 | passage << 24,
            Answer::Refused(number) => u64::from(number),
        }
    }
}

/// A number that is not below 0: `digits` × 2^`exponent`.
#[derive(Clone, Copy, Debug, PartialEq, Eq)]
pub struct Exact {
    digits: u128,
    exponent: i32,
}

/// Past so many places a value of 60 digits is below 1, whatever divides it.
const FAR: u32 = 100;

impl Exact {
    /// The value of 64 bits; none where it is below 0, infinite or no number.
    pub fn of_bits(bits: u64) -> Option<Exact> {
        let field = (bits >> 52 & 0x7FF) as i32;
        let fraction = u128::from(bits & 0xF_FFFF_FFFF_FFFF);
        let (digits, exponent) = match field {
            0x7FF => return None,
            0 => (fraction, -1074),
            _ => (fraction | 1 << 52, field - 1075),
        };
        let negative = bits >> 63 == 1 && digits != 0;
        (!negative).then_some(Exact { digits, exponent })
    }

    /// How many places stand after the point; a value with places before it
    /// only is above 2^52.
    fn places(self) -> Option<u32> {
        u32::try_from(-self.exponent).ok()
    }

    fn at_most(self, whole: u128) -> bool {
        match self.places() {
            None => self.digits == 0,
            Some(places) => places >= FAR || self.digits <= whole << places,
        }
    }

    /// The whole part of the value divided by a number, and whether anything
    /// is left over. The value is at most 10,800.
    fn divided(self, by: u128) -> (u64, bool) {
        let places = self.places().expect("a small value");
        if places >= FAR {
            return (0, self.digits != 0);
        }
        let by = by << places;
        ((self.digits / by) as u64, !self.digits.is_multiple_of(by))
    }

    fn times(self, factor: u128) -> Exact {
        Exact {
            digits: self.digits * factor,
            ..self
        }
    }

    /// The nearest value of 53 digits, and of two that are as near the even
    /// one. (The exponent is at least that of the smallest binary64 value.)
    fn rounded(self) -> Exact {
        let size = u128::BITS - self.digits.leading_zeros();
        let dropped = size.saturating_sub(53);
        let kept = self.digits >> dropped;
        let twice_left = (self.digits - (kept << dropped)) * 2;
        let unit = 1 << dropped;
        let up = twice_left > unit || (twice_left == unit && kept % 2 == 1);
        Exact {
            digits: kept + u128::from(up),
            exponent: self.exponent + dropped as i32,
        }
    }
}

/// The smallest t with t × speed not below the product.
fn smallest(product: Exact, speed: u32) -> u64 {
    let (whole, left) = product.divided(speed.into());
    whole + u64::from(left)
}

/// The answer to a sheet; another detector than the two is refused with 19.
pub fn settings(speed: u32, detector: u32, bits: u64) -> Answer {
    answer(speed, detector, bits, Exact::rounded)
}

/// The answer if 36 × distance were not rounded: it tells where the rounding
/// decides.
pub fn unrounded(speed: u32, detector: u32, bits: u64) -> Answer {
    answer(speed, detector, bits, |product| product)
}

fn answer(speed: u32, detector: u32, bits: u64, rounding: fn(Exact) -> Exact) -> Answer {
    let metres = Exact::of_bits(bits).filter(|metres| metres.at_most(300));
    let (Some(metres), 20..=110, ADVANCE | STOP_LINE) = (metres, speed, detector) else {
        return Answer::Refused(19);
    };
    let minimum = 40 + 20 * metres.divided(6).0;
    let passage = match detector {
        ADVANCE => smallest(rounding(metres.times(36)), speed),
        _ => 0,
    };
    if minimum > HIGHEST_MINIMUM || passage > HIGHEST_GAP {
        return Answer::Refused(20);
    }
    Answer::Settings { minimum, passage }
}

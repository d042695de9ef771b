//! Quantities: the limits of document 01 and its word "nearest".

/// Points of four seconds in an interval.
pub const POINTS: usize = 75;
pub const REGIONS: usize = 5;

pub const POWER_LIMIT: i128 = 100_000;
pub const FREQUENCY_LOWEST: i128 = 45_000_000;
pub const FREQUENCY_HIGHEST: i128 = 55_000_000;
pub const FREQUENCY_NOMINAL: i128 = 50_000_000;
pub const MEASURE_LIMIT: i128 = 5_000_000;
pub const GENERATION_LIMIT: i128 = 2_000_000;
pub const UNIT_DEFAULT_LOWEST: i128 = -5_625_000_000_000_000;
pub const RESIDUAL_DEFAULT_LOWEST: i128 = -50_000_000_000_000_000;
pub const PRICE_LIMIT: i128 = 10_000_000;
pub const COST_LIMIT: i128 = 1_000_000_000_000;
pub const AMOUNT_LIMIT: i128 = 2_000_000;
pub const SHARE_TOTAL_LIMIT: i128 = 1_000_000_000_000;
pub const SHARE_WEIGHT_LIMIT: i128 = 6_010_000_000_000_000_000;
pub const FACTOR_ONE: i128 = 1_000_000_000;
/// The largest performance that one unit can have in an interval, either way.
pub const PERFORMANCE_LIMIT: i128 = 5_625_000_000_000_000;

/// The nearest whole number to numerator / denominator, halves away from zero.
/// The denominator is above 0.
pub fn nearest(numerator: i128, denominator: i128) -> i128 {
    let size = (2 * numerator.abs() + denominator) / (2 * denominator);
    if numerator < 0 {
        -size
    } else {
        size
    }
}

/// The two directions of a requirement.
#[derive(Clone, Copy, Debug, PartialEq, Eq)]
pub enum Direction {
    Raise,
    Lower,
}

impl Direction {
    pub const BOTH: [Direction; 2] = [Direction::Raise, Direction::Lower];

    pub fn word(self) -> &'static str {
        match self {
            Direction::Raise => "raise",
            Direction::Lower => "lower",
        }
    }

    /// Where this direction's payment, used and unused defaults begin.
    fn first_default(self) -> usize {
        match self {
            Direction::Raise => 0,
            Direction::Lower => 3,
        }
    }

    pub fn payment_default(self, defaults: &[i128; 6]) -> i128 {
        defaults[self.first_default()]
    }

    pub fn used_default(self, defaults: &[i128; 6]) -> i128 {
        defaults[self.first_default() + 1]
    }

    pub fn unused_default(self, defaults: &[i128; 6]) -> i128 {
        defaults[self.first_default() + 2]
    }
}

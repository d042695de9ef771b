//! The lowest and the highest value of every field of a book, said once: reader and writer both go by them. Where
//! document 01 names no limit, it is the field's width.

use crate::quantities::*;

pub type Limits = (i128, i128);

const U16: Limits = (0, 65_535);
const U32: Limits = (0, 4_294_967_295);

pub const UNITS: Limits = (0, 512);
pub const REQUIREMENTS: Limits = (1, 32);

pub const SMOOTHING: Limits = (1, 10_000);
pub const BAD_FREQUENCY_LIMIT: Limits = (0, 75);
pub const BAD_UNIT_PERCENT: Limits = (0, 100);
pub const INTERVAL: Limits = U32;

pub const SEPARATION: Limits = (0, 1);
pub const MEASURE_BEFORE: Limits = (-MEASURE_LIMIT, MEASURE_LIMIT);
pub const GENERATION: Limits = (0, GENERATION_LIMIT);
pub const RESIDUAL_DEFAULT: Limits = (RESIDUAL_DEFAULT_LOWEST, 0);
pub const FREQUENCY: Limits = (FREQUENCY_LOWEST, FREQUENCY_HIGHEST);

pub const UNIT_NUMBER: Limits = U16;
pub const UNIT_REGION: Limits = (0, REGIONS as i128 - 1);
pub const UNIT_KIND: Limits = (0, 1);
pub const POWER: Limits = (-POWER_LIMIT, POWER_LIMIT);
pub const UNIT_DEFAULT: Limits = (UNIT_DEFAULT_LOWEST, 0);
pub const GROUP: Limits = U16;

pub const REQUIREMENT_NUMBER: Limits = U16;
pub const REGION_SET: Limits = (1, 31);
pub const DIRECTION: Limits = (0, 1);
pub const PRICE: Limits = (0, PRICE_LIMIT);
pub const COST: Limits = (0, COST_LIMIT);
pub const AMOUNT: Limits = (0, AMOUNT_LIMIT);

pub fn keeps(value: i128, (lowest, highest): Limits) -> bool {
    lowest <= value && value <= highest
}

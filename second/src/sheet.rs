//! Is their factor sheet possible? (request R-12): a sheet of factors in billionths against the performances that
//! it is made of, judged by the request's own sentence, in products and without a division.

use crate::book::Refusal;
use crate::quantities::*;

/// The members that a requirement can have: 512 units and its residual.
pub const SHEET_LIMIT: usize = 513;

#[derive(Clone, Copy, Debug, PartialEq, Eq)]
pub enum Side {
    Positive,
    Negative,
}

/// What is said of a sheet; a wrong member is named by its place, from 1.
#[derive(Clone, Copy, Debug, PartialEq, Eq)]
pub enum Verdict {
    Possible,
    WrongMember(usize),
    WrongSide(Side),
}

fn require(holds: bool, number: u8) -> Result<(), Refusal> {
    if holds {
        Ok(())
    } else {
        Err(Refusal::of(number))
    }
}

/// The performance over the total of its side, less the factor in billionths, is less than one billionth either
/// way: all three times a billion and times the total.
fn is_near(performance: i128, factor: i128, total: i128) -> bool {
    (FACTOR_ONE * performance - factor * total).abs() < total
}

/// One member, with the absolute totals of the two sides.
fn is_right(performance: i128, factor: i128, positive: i128, negative: i128) -> bool {
    if performance > 0 {
        factor >= 0 && is_near(performance, factor, positive)
    } else if performance < 0 {
        factor <= 0 && is_near(performance, factor, negative)
    } else {
        factor == 0
    }
}

/// Refusals 5, 12, 5; then the first wrong member; then the side whose sum is off, positive first.
pub fn judge(performances: &[i128], factors: &[i128]) -> Result<Verdict, Refusal> {
    require(factors.len() <= SHEET_LIMIT, 5)?;
    require(factors.len() == performances.len(), 12)?;
    let positive: i128 = performances.iter().filter(|&&performance| performance > 0).sum();
    let negative: i128 = performances.iter().filter(|&&performance| performance < 0).map(|p| -p).sum();
    require(positive <= SHARE_WEIGHT_LIMIT && negative <= SHARE_WEIGHT_LIMIT, 5)?;
    let members = || performances.iter().copied().zip(factors.iter().copied());
    for (place, (performance, factor)) in members().enumerate() {
        if !is_right(performance, factor, positive, negative) {
            return Ok(Verdict::WrongMember(place + 1));
        }
    }
    let credits: i128 = members().filter(|&(performance, _)| performance > 0).map(|(_, factor)| factor).sum();
    let debits: i128 = members().filter(|&(performance, _)| performance < 0).map(|(_, factor)| factor).sum();
    if positive > 0 && credits != FACTOR_ONE {
        return Ok(Verdict::WrongSide(Side::Positive));
    }
    if negative > 0 && debits != -FACTOR_ONE {
        return Ok(Verdict::WrongSide(Side::Negative));
    }
    Ok(Verdict::Possible)
}

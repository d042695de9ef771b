//! The share: a total over weights, whole parts first, then one each to the largest remainders; equal remainders
//! go first to the larger weight, then to the earlier member (request R-9).

use std::cmp::Reverse;

use crate::book::Refusal;
use crate::quantities::*;

#[derive(Clone, Debug, PartialEq, Eq)]
pub struct Shared {
    pub amounts: Vec<i128>,
    pub unplaced: i128,
}

pub fn share(total: i128, weights: &[i128]) -> Result<Shared, Refusal> {
    share_in_order(|remainder, weight| (remainder, weight), total, weights)
}

/// The share before request R-9: equal remainders go to the earlier member, whatever the weights. Nothing is
/// settled by it; it is kept to show where the two rules differ.
pub fn share_earlier_first(total: i128, weights: &[i128]) -> Result<Shared, Refusal> {
    share_in_order(|remainder, _weight| (remainder, 0), total, weights)
}

/// A member's claim to a left-over, from its remainder and its weight; the highest claim comes first.
type Claim = fn(i128, i128) -> (i128, i128);

fn share_in_order(claim: Claim, total: i128, weights: &[i128]) -> Result<Shared, Refusal> {
    let sum: i128 = weights.iter().sum();
    if total > SHARE_TOTAL_LIMIT || sum > SHARE_WEIGHT_LIMIT {
        return Err(Refusal::of(5));
    }
    if sum == 0 {
        return Ok(Shared { amounts: vec![0; weights.len()], unplaced: total });
    }
    let mut amounts: Vec<i128> = weights.iter().map(|weight| total * weight / sum).collect();
    // The remainders add up to left_over·W and each is below W, so that more members than left-overs have one
    // above 0 (or nothing is left over): every left-over finds a member, and only members with weight get one.
    let left_over = total - amounts.iter().sum::<i128>();
    // A stable sort keeps the earlier member first among equal claims.
    let mut order: Vec<usize> = (0..weights.len()).collect();
    order.sort_by_key(|&member| Reverse(claim(total * weights[member] % sum, weights[member])));
    for &member in order.iter().take(left_over as usize) {
        amounts[member] += 1;
    }
    Ok(Shared { amounts, unplaced: 0 })
}

//! Factors and cents (004, report 7): what each member is credited or charged.

use crate::book::{Book, Refusal, Requirement};
use crate::members::{members, Member};
use crate::performance::{roster_views, RegionView};
use crate::quantities::*;
use crate::rcr::rcr;
use crate::roster::{grouped, RosterMember};
use crate::share::{share, Shared};

/// One member's line of the listing.
#[derive(Clone, Debug, PartialEq, Eq)]
pub struct Line {
    pub member: Member,
    pub factor: i128,
    pub payment: i128,
    pub used: i128,
    pub unused: i128,
}

/// One requirement's part of the listing.
#[derive(Clone, Debug, PartialEq, Eq)]
pub struct Settled {
    pub number: i128,
    pub direction: Direction,
    pub rcr: i128,
    pub pool: i128,
    pub used_pool: i128,
    pub unused_pool: i128,
    pub used_unplaced: i128,
    pub unused_unplaced: i128,
    pub lines: Vec<Line>,
}

/// The weights of one sign: the sizes of that sign's numbers, 0 for the others.
pub fn positive_weights(numbers: &[i128]) -> Vec<i128> {
    numbers.iter().map(|&number| number.max(0)).collect()
}

pub fn negative_weights(numbers: &[i128]) -> Vec<i128> {
    numbers.iter().map(|&number| -number.min(0)).collect()
}

/// A total shared over the positive numbers, and with a minus sign over the
/// negative ones. A side without a member leaves its total nowhere.
pub fn share_both_signs(total: i128, numbers: &[i128]) -> Result<Vec<i128>, Refusal> {
    let credits = share(total, &positive_weights(numbers))?.amounts;
    let debits = share(total, &negative_weights(numbers))?.amounts;
    Ok(credits.iter().zip(&debits).map(|(credit, debit)| credit - debit).collect())
}

/// Nearest of price·RCR/90,000; 0 if either sign has no member.
pub fn payment_pool(price: i128, rcr: i128, performances: &[i128]) -> i128 {
    let helped = performances.iter().any(|&performance| performance > 0);
    let hindered = performances.iter().any(|&performance| performance < 0);
    if helped && hindered {
        nearest(price * rcr, 90_000)
    } else {
        0
    }
}

/// Nearest of cost·used/enabled, used capped at enabled; 0 if enabled is 0.
pub fn used_share_of_cost(cost: i128, used: i128, enabled: i128) -> i128 {
    if enabled == 0 {
        0
    } else {
        nearest(cost * used.min(enabled), enabled)
    }
}

fn used_pool(requirement: &Requirement, views: &[RegionView]) -> i128 {
    let unreliable = (0..REGIONS)
        .any(|region| requirement.includes(region) && !views[region].reliable(requirement.direction));
    if unreliable {
        0
    } else {
        used_share_of_cost(requirement.cost, requirement.used, requirement.enabled)
    }
}

/// A charge over the negative numbers: amounts at most 0, and what is unplaced.
fn charge(total: i128, numbers: &[i128]) -> Result<Shared, Refusal> {
    let shared = share(total, &negative_weights(numbers))?;
    let amounts = shared.amounts.iter().map(|amount| -amount).collect();
    Ok(Shared { amounts, unplaced: shared.unplaced })
}

/// A requirement settled by an RCR that is worked out already.
pub fn settle_with_rcr(
    requirement: &Requirement,
    book: &Book,
    roster: &[RosterMember],
    views: &[RegionView],
    rcr: i128,
) -> Result<Settled, Refusal> {
    let members = members(requirement, book, roster, views);
    let payment_performances: Vec<i128> = members.iter().map(|m| m.payment_performance).collect();
    let used_performances: Vec<i128> = members.iter().map(|m| m.used_performance).collect();
    let unused_defaults: Vec<i128> = members.iter().map(|m| m.unused_default).collect();

    let pool = payment_pool(requirement.price, rcr, &payment_performances);
    let used_pool = used_pool(requirement, views);
    let unused_pool = requirement.cost - used_pool;

    let factors = share_both_signs(FACTOR_ONE, &payment_performances)?;
    let payments = share_both_signs(pool, &payment_performances)?;
    let used = charge(used_pool, &used_performances)?;
    let unused = charge(unused_pool, &unused_defaults)?;

    let lines = members
        .into_iter()
        .enumerate()
        .map(|(place, member)| Line {
            member,
            factor: factors[place],
            payment: payments[place],
            used: used.amounts[place],
            unused: unused.amounts[place],
        })
        .collect();
    Ok(Settled {
        number: requirement.number,
        direction: requirement.direction,
        rcr,
        pool,
        used_pool,
        unused_pool,
        used_unplaced: used.unplaced,
        unused_unplaced: unused.unplaced,
        lines,
    })
}

pub fn settle_requirement(
    requirement: &Requirement,
    book: &Book,
    roster: &[RosterMember],
    views: &[RegionView],
) -> Result<Settled, Refusal> {
    settle_with_rcr(requirement, book, roster, views, rcr(requirement, book, roster, views))
}

/// The book settled with what is known of its members and of its regions.
pub fn settle_roster(
    book: &Book,
    roster: &[RosterMember],
    views: &[RegionView],
) -> Result<Vec<Settled>, Refusal> {
    book.requirements.iter().map(|requirement| settle_requirement(requirement, book, roster, views)).collect()
}

/// The book settled with what is known of its regions.
pub fn settle_by_views(book: &Book, views: &[RegionView]) -> Result<Vec<Settled>, Refusal> {
    settle_roster(book, &grouped(&book.units), views)
}

/// The book with its roster grouped once.
pub fn settle_book(book: &Book) -> Result<Vec<Settled>, Refusal> {
    let roster = grouped(&book.units);
    settle_roster(book, &roster, &roster_views(book, &roster))
}

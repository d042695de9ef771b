//! RCR (001, 7): the largest helpful deviation of a requirement, in 75ths of a cMW.

use crate::book::{Book, Requirement};
use crate::performance::RegionView;
use crate::quantities::*;
use crate::roster::RosterMember;

/// The sum of generation times FM over the requirement's regions at a point.
pub fn weighted_measure(requirement: &Requirement, book: &Book, views: &[RegionView], point: usize) -> i128 {
    (0..REGIONS)
        .filter(|&region| requirement.includes(region))
        .map(|region| book.frequencies[region].generation * views[region].measures[point])
        .sum()
}

/// The helpful deviations at one point: positive ones for raise, negative ones,
/// sign turned, for lower; the residual of the whole set counts as one party.
pub fn helpful_sum(direction: Direction, deviations: &[i128]) -> i128 {
    let helpful = |deviation: i128| match direction {
        Direction::Raise => deviation.max(0),
        Direction::Lower => -deviation.min(0),
    };
    let residual = -deviations.iter().sum::<i128>();
    deviations.iter().map(|&deviation| helpful(deviation)).sum::<i128>() + helpful(residual)
}

fn has_right_sign(direction: Direction, measure: i128) -> bool {
    match direction {
        Direction::Raise => measure > 0,
        Direction::Lower => measure < 0,
    }
}

/// The two exceptions: an unreliable region, or too many bad members.
fn stands_down(
    requirement: &Requirement,
    book: &Book,
    views: &[RegionView],
    members: &[&RosterMember],
) -> bool {
    let unreliable = (0..REGIONS)
        .any(|region| requirement.includes(region) && !views[region].reliable(requirement.direction));
    let bad = members.iter().filter(|member| !member.good).count() as i128;
    unreliable || 100 * bad > book.settings.bad_unit_percent * members.len() as i128
}

pub fn rcr(requirement: &Requirement, book: &Book, roster: &[RosterMember], views: &[RegionView]) -> i128 {
    let members: Vec<&RosterMember> =
        roster.iter().filter(|member| requirement.includes(member.region)).collect();
    if stands_down(requirement, book, views, &members) {
        return 0;
    }
    let good: Vec<&RosterMember> = members.into_iter().filter(|member| member.good).collect();
    let mut largest = 0;
    for point in 0..POINTS {
        if has_right_sign(requirement.direction, weighted_measure(requirement, book, views, point)) {
            let deviations: Vec<i128> = good.iter().map(|member| member.deviations[point]).collect();
            largest = largest.max(helpful_sum(requirement.direction, &deviations));
        }
    }
    largest
}

//! Members: the units and groups of a requirement's regions in roster order, then one residual.

use crate::book::{Book, Requirement};
use crate::performance::*;
use crate::quantities::*;
use crate::roster::RosterMember;

#[derive(Clone, Copy, Debug, PartialEq, Eq)]
pub enum Name {
    /// An ungrouped unit's number, or a group's: that of its primary.
    Unit(i128),
    Residual,
}

/// One member with the performances that its three amounts are shared by.
#[derive(Clone, Debug, PartialEq, Eq)]
pub struct Member {
    pub name: Name,
    pub standing: Standing,
    pub payment_performance: i128,
    pub used_performance: i128,
    pub unused_default: i128,
}

fn live_or(standing: Standing, live: i128, default: i128) -> i128 {
    match standing {
        Standing::Live => live,
        Standing::Default(_) => default,
    }
}

/// A unit or a group as a member, live or by its defaults.
pub fn unit_member(direction: Direction, of: &RosterMember, view: &RegionView) -> Member {
    let standing = view.member_standing(direction, of.good);
    let live = view.performance(direction, &of.deviations);
    Member {
        name: Name::Unit(of.number),
        standing,
        payment_performance: live_or(standing, live, direction.payment_default(&of.defaults)),
        used_performance: live_or(standing, live, direction.used_default(&of.defaults)),
        unused_default: direction.unused_default(&of.defaults),
    }
}

/// The residual of one region, before the regions of a requirement are added up.
pub fn region_residual(direction: Direction, book: &Book, views: &[RegionView], region: usize) -> Member {
    let view = &views[region];
    let defaults = &book.frequencies[region].defaults;
    let standing = view.residual_standing(direction);
    let live = view.performance(direction, &view.residual_deviations);
    Member {
        name: Name::Residual,
        standing,
        payment_performance: live_or(standing, live, direction.payment_default(defaults)),
        used_performance: live_or(standing, live, direction.used_default(defaults)),
        unused_default: direction.unused_default(defaults),
    }
}

/// Default if any is; of two reasons, unreliable is named first.
fn joined_standing(one: Standing, other: Standing) -> Standing {
    use Standing::{Default, Live};
    match (one, other) {
        (Live, standing) | (standing, Live) => standing,
        (Default(Reason::UnreliableRegion), _) | (_, Default(Reason::UnreliableRegion)) => {
            Default(Reason::UnreliableRegion)
        }
        (standing, _) => standing,
    }
}

/// The requirement's one residual: the sum of its regions' residuals.
pub fn joined_residual(residuals: &[Member]) -> Member {
    let mut joined = Member {
        name: Name::Residual,
        standing: Standing::Live,
        payment_performance: 0,
        used_performance: 0,
        unused_default: 0,
    };
    for residual in residuals {
        joined.standing = joined_standing(joined.standing, residual.standing);
        joined.payment_performance += residual.payment_performance;
        joined.used_performance += residual.used_performance;
        joined.unused_default += residual.unused_default;
    }
    joined
}

pub fn members(
    requirement: &Requirement,
    book: &Book,
    roster: &[RosterMember],
    views: &[RegionView],
) -> Vec<Member> {
    let direction = requirement.direction;
    let mut all: Vec<Member> = roster
        .iter()
        .filter(|member| requirement.includes(member.region))
        .map(|member| unit_member(direction, member, &views[member.region]))
        .collect();
    let residuals: Vec<Member> = (0..REGIONS)
        .filter(|&region| requirement.includes(region))
        .map(|region| region_residual(direction, book, views, region))
        .collect();
    all.push(joined_residual(&residuals));
    all
}

//! The members of a roster (request R-5): its ungrouped units and its groups, put together once.

use crate::book::Unit;
use crate::deviation::{unit_deviations, unit_is_good};
use crate::quantities::*;

/// An ungrouped unit, or a group as one: number, region and defaults are its primary's, the deviations those of all its units
/// together, and one bad unit makes it bad.
#[derive(Clone, Debug, PartialEq, Eq)]
pub struct RosterMember {
    pub number: i128,
    pub region: usize,
    pub defaults: [i128; 6],
    pub good: bool,
    pub deviations: [i128; POINTS],
    /// Of how many units it is.
    pub units: usize,
}

/// Each unit's deviations have its own kind's sign.
fn added_up(units: &[Unit]) -> [i128; POINTS] {
    let mut all = [0; POINTS];
    for deviations in units.iter().map(unit_deviations) {
        for point in 0..POINTS {
            all[point] += deviations[point];
        }
    }
    all
}

fn as_one(units: &[Unit]) -> RosterMember {
    let primary = &units[0];
    RosterMember {
        number: primary.number,
        region: primary.region,
        defaults: primary.defaults,
        good: units.iter().all(unit_is_good),
        deviations: added_up(units),
        units: units.len(),
    }
}

/// The units of each member, in roster order.
pub fn by_member(units: &[Unit]) -> impl Iterator<Item = &[Unit]> {
    units.chunk_by(|one, next| one.group != 0 && one.group == next.group)
}

/// The roster as members, in its order.
pub fn grouped(units: &[Unit]) -> Vec<RosterMember> {
    by_member(units).map(as_one).collect()
}

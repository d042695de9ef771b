//! What must hold of every settled book, whatever the figures: demand 3 of the
//! request, and the closing of each share. Nothing here calls the share itself, nor asks `dropped` which points
//! are kept.

use crate::book::{Book, FrequencyRecord, Requirement, Unit};
use crate::cents::{settle_book, Line, Settled};
use crate::deviation::{unit_deviations, unit_is_good};
use crate::members::Name;
use crate::performance::{region_views, RegionView, Standing};
use crate::quantities::*;

type Held = Result<(), String>;

fn hold(holds: bool, what: impl FnOnce() -> String) -> Held {
    if holds {
        Ok(())
    } else {
        Err(what())
    }
}

/// Who receives an amount that is shared, and by what weight.
struct Slice {
    weight: i128,
    amount: i128,
}

/// All of the total is placed if there is weight; every amount is less than one
/// away from its exact share; no larger remainder goes without, of equal ones no
/// larger weight, of equal weights no earlier member.
fn share_closes(what: &str, total: i128, slices: &[Slice]) -> Held {
    let weight: i128 = slices.iter().map(|slice| slice.weight).sum();
    let placed: i128 = slices.iter().map(|slice| slice.amount).sum();
    if weight == 0 {
        return hold(placed == 0, || format!("{what}: {placed} placed without weight"));
    }
    hold(placed == total, || format!("{what}: {placed} placed of {total}"))?;
    let mut lowest_lifted: Option<(i128, i128, usize)> = None;
    let mut highest_left: Option<(i128, i128, usize)> = None;
    for (place, slice) in slices.iter().enumerate() {
        let exact = total * slice.weight;
        hold((slice.amount * weight - exact).abs() < weight, || {
            format!("{what}: member {place} is one or more away from its exact share")
        })?;
        let rank = (exact % weight, slice.weight, usize::MAX - place);
        if slice.amount > exact / weight {
            lowest_lifted = Some(lowest_lifted.map_or(rank, |lowest| lowest.min(rank)));
        } else {
            highest_left = Some(highest_left.map_or(rank, |highest| highest.max(rank)));
        }
    }
    let in_order = match (lowest_lifted, highest_left) {
        (Some(lifted), Some(left)) => lifted > left,
        _ => true,
    };
    hold(in_order, || {
        format!(
            "{what}: a left-over went past a larger remainder, or of equal ones a larger or earlier weight"
        )
    })
}

fn slices(lines: &[Line], weight: impl Fn(&Line) -> i128, amount: impl Fn(&Line) -> i128) -> Vec<Slice> {
    lines.iter().map(|line| Slice { weight: weight(line), amount: amount(line) }).collect()
}

fn shares_close(settled: &Settled) -> Held {
    let lines = &settled.lines;
    let helped = |line: &Line| line.member.payment_performance.max(0);
    let hindered = |line: &Line| -line.member.payment_performance.min(0);
    share_closes("positive factors", FACTOR_ONE, &slices(lines, helped, |line| line.factor.max(0)))?;
    share_closes("negative factors", FACTOR_ONE, &slices(lines, hindered, |line| -line.factor.min(0)))?;
    share_closes("credits", settled.pool, &slices(lines, helped, |line| line.payment.max(0)))?;
    share_closes("debits", settled.pool, &slices(lines, hindered, |line| -line.payment.min(0)))?;
    let used = |line: &Line| -line.member.used_performance.min(0);
    let unused = |line: &Line| -line.member.unused_default;
    let used_placed = settled.used_pool - settled.used_unplaced;
    let unused_placed = settled.unused_pool - settled.unused_unplaced;
    share_closes("used", used_placed, &slices(lines, used, |line| -line.used))?;
    share_closes("unused", unused_placed, &slices(lines, unused, |line| -line.unused))?;
    unplaced_only_without_weight(settled)
}

fn unplaced_only_without_weight(settled: &Settled) -> Held {
    let any_used = settled.lines.iter().any(|line| line.member.used_performance < 0);
    let any_unused = settled.lines.iter().any(|line| line.member.unused_default < 0);
    let used = if any_used { 0 } else { settled.used_pool };
    let unused = if any_unused { 0 } else { settled.unused_pool };
    hold(settled.used_unplaced == used, || "used unplaced".to_string())?;
    hold(settled.unused_unplaced == unused, || "unused unplaced".to_string())
}

/// Credits, debits and pool are equal to the cent; without a default a helpful
/// party is there exactly when an unhelpful one is.
fn payments_close(settled: &Settled) -> Held {
    let performances = || settled.lines.iter().map(|line| line.member.payment_performance);
    let credits: i128 = settled.lines.iter().map(|line| line.payment.max(0)).sum();
    let debits: i128 = settled.lines.iter().map(|line| -line.payment.min(0)).sum();
    hold(credits == settled.pool && debits == settled.pool, || {
        format!("credits {credits}, debits {debits}, pool {}", settled.pool)
    })?;
    let helpful = performances().any(|performance| performance > 0);
    let unhelpful = performances().any(|performance| performance < 0);
    hold(settled.pool == 0 || (helpful && unhelpful), || "a pool without two sides".to_string())?;
    let defaults = settled.lines.iter().any(|line| line.member.standing != Standing::Live);
    hold(defaults || helpful == unhelpful, || "live members, but one side only".to_string())?;
    // Live parts cancel and defaults are at most 0, so a helpful party is never alone.
    let sum: i128 = performances().sum();
    hold(sum <= 0 && (defaults || sum == 0), || format!("performances add up to {sum}"))
}

fn signs_hold(settled: &Settled) -> Held {
    let right = settled.lines.iter().all(|line| {
        let sign = line.member.payment_performance.signum();
        [line.factor, line.payment].iter().all(|amount| amount.signum() * sign >= 0)
            && (sign != 0 || (line.factor == 0 && line.payment == 0))
            && line.used <= 0
            && line.unused <= 0
    });
    hold(right, || "an amount has the wrong sign".to_string())
}

/// Whether a point is kept in performance (request R-3), in other words than `dropped` has: FM and what the
/// frequency is away from 50 Hz have one sign exactly if their product is above 0.
fn is_kept(record: &FrequencyRecord, view: &RegionView, point: usize) -> bool {
    let away = record.frequencies[point] - 50_000_000;
    !record.good[point] || away * view.measures[point] <= 0 || away.abs() <= 15_000
}

/// The direction's side of FM times deviation, over the kept points.
fn over_the_kept(
    direction: Direction,
    record: &FrequencyRecord,
    view: &RegionView,
    deviations: &[i128; POINTS],
) -> i128 {
    let mut sum = 0;
    for (point, away) in deviations.iter().enumerate() {
        let measure = view.measures[point];
        let counts = if direction == Direction::Raise { measure > 0 } else { measure < 0 };
        if counts && is_kept(record, view, point) {
            sum += measure * away;
        }
    }
    sum
}

/// The units of the member that a unit belongs to: itself, or all of its group, wherever they stand.
fn members_units<'a>(all: &'a [Unit], unit: &'a Unit) -> Vec<&'a Unit> {
    if unit.group == 0 {
        return vec![unit];
    }
    all.iter().filter(|other| other.group == unit.group).collect()
}

/// In a region whose residual is live, the units of good members and the residual add up to zero: in deviation at every point,
/// dropped or kept, in performance over the kept points.
fn region_closes(
    direction: Direction,
    record: &FrequencyRecord,
    all_units: &[Unit],
    view: &RegionView,
) -> Held {
    let units: Vec<&Unit> = all_units.iter().filter(|unit| unit.region == record.region).collect();
    if view.residual_standing(direction) != Standing::Live {
        return Ok(());
    }
    let good: Vec<[i128; POINTS]> = units
        .iter()
        .filter(|unit| members_units(all_units, unit).iter().all(|unit| unit_is_good(unit)))
        .map(|unit| unit_deviations(unit))
        .collect();
    for point in 0..POINTS {
        let sum = good.iter().map(|unit| unit[point]).sum::<i128>() + view.residual_deviations[point];
        hold(sum == 0, || format!("deviations at point {point} add up to {sum}"))?;
    }
    let units: i128 = good.iter().map(|unit| over_the_kept(direction, record, view, unit)).sum();
    let residual = over_the_kept(direction, record, view, &view.residual_deviations);
    hold(units + residual == 0, || format!("region performances {units} and {residual}"))
}

fn regions_close(book: &Book, views: &[RegionView]) -> Held {
    for (record, view) in book.frequencies.iter().zip(views) {
        for direction in Direction::BOTH {
            region_closes(direction, record, &book.units, view)?;
        }
    }
    Ok(())
}

/// Every live member's performance is the sum over the kept points: a unit's own, a group's that of its units one by one, and
/// for the residual that of the residual deviations of its regions.
fn performances_are_over_the_kept(
    book: &Book,
    views: &[RegionView],
    settled: &Settled,
    set: &[usize],
) -> Held {
    let sum = |region: usize, deviations: &[i128; POINTS]| {
        over_the_kept(settled.direction, &book.frequencies[region], &views[region], deviations)
    };
    for line in settled.lines.iter().filter(|line| line.member.standing == Standing::Live) {
        let expected: i128 = match line.member.name {
            Name::Unit(number) => {
                let unit = book.units.iter().find(|unit| unit.number == number).expect("a unit of the book");
                let units = members_units(&book.units, unit);
                units.iter().map(|unit| sum(unit.region, &unit_deviations(unit))).sum()
            }
            Name::Residual => set.iter().map(|&region| sum(region, &views[region].residual_deviations)).sum(),
        };
        let performance = line.member.payment_performance;
        hold(performance == expected, || {
            format!("performance {performance}, over the kept points {expected}")
        })?;
    }
    Ok(())
}

/// One good unit drawn as two whose figures add up to its own. The second takes
/// its number from the gap that follows, so the roster order stays.
pub fn split_unit(unit: &Unit, part: i128) -> (Unit, Unit) {
    let mut one = unit.clone();
    let mut other = unit.clone();
    let cut = |whole: i128| whole / part;
    let divide = |whole: i128, one: &mut i128, other: &mut i128| {
        *one = cut(whole);
        *other = whole - cut(whole);
    };
    divide(unit.start, &mut one.start, &mut other.start);
    divide(unit.end, &mut one.end, &mut other.end);
    for place in 0..6 {
        divide(unit.defaults[place], &mut one.defaults[place], &mut other.defaults[place]);
    }
    for point in 0..POINTS {
        divide(unit.readings[point], &mut one.readings[point], &mut other.readings[point]);
    }
    other.number += 1;
    (one, other)
}

/// The first unit of each member.
fn primaries(units: &[Unit]) -> impl Iterator<Item = &Unit> {
    let is_primary =
        |place: usize| place == 0 || units[place].group == 0 || units[place - 1].group != units[place].group;
    units.iter().enumerate().filter(move |(place, _)| is_primary(*place)).map(|(_, unit)| unit)
}

/// Each member of the requirement's regions has its line, by the number of its primary, and then comes the residual.
fn lines_are_the_members(book: &Book, requirement: &Requirement, settled: &Settled) -> Held {
    let members = primaries(&book.units).filter(|unit| requirement.includes(unit.region));
    let names = members.map(|unit| Name::Unit(unit.number)).chain([Name::Residual]);
    hold(settled.lines.iter().map(|line| line.member.name).eq(names), || "other members".to_string())
}

/// Whether deviations at all points, and performances, which are over the kept ones, stay when one unit is drawn as
/// two.
fn split_keeps(book: &Book, all: &[Settled], place: usize, part: i128) -> Held {
    let (one, other) = split_unit(&book.units[place], part);
    let [whole, first, second] = [&book.units[place], &one, &other].map(unit_deviations);
    let adds_up = (0..POINTS).all(|point| first[point] + second[point] == whole[point]);
    hold(adds_up, || format!("split of unit {} moves deviations", book.units[place].number))?;
    let mut drawn = book.clone();
    drawn.units.splice(place..=place, [one, other]);
    let after = settle_book(&drawn).map_err(|refusal| format!("split book refused {refusal}"))?;
    for ((requirement, before), after) in book.requirements.iter().zip(all).zip(&after) {
        let old: Vec<i128> = before.lines.iter().map(|line| line.member.payment_performance).collect();
        let mut new: Vec<i128> = after.lines.iter().map(|line| line.member.payment_performance).collect();
        if requirement.includes(book.units[place].region) {
            let earlier = primaries(&book.units[..place]).filter(|unit| requirement.includes(unit.region));
            let here = earlier.count();
            let second = new.remove(here + 1);
            new[here] += second;
        }
        hold(old == new, || format!("split of unit {} moves performances", book.units[place].number))?;
    }
    Ok(())
}

/// Splits one good ungrouped unit of the book, if there is room for one more.
pub fn splits_close(book: &Book, all: &[Settled], turn: usize) -> Held {
    let can_be_split = |unit: &Unit| unit.group == 0 && unit_is_good(unit);
    let good: Vec<usize> = (0..book.units.len()).filter(|&place| can_be_split(&book.units[place])).collect();
    if good.is_empty() || book.units.len() == 512 {
        return Ok(());
    }
    split_keeps(book, all, good[turn % good.len()], 2 + turn as i128 % 5)
}

/// Every invariant of one settled book.
pub fn check(book: &Book, all: &[Settled]) -> Held {
    let views = region_views(book);
    regions_close(book, &views)?;
    for (requirement, settled) in book.requirements.iter().zip(all) {
        let named = |what: String| format!("requirement {}: {what}", requirement.number);
        hold(settled.used_pool + settled.unused_pool == requirement.cost, || {
            named("used and unused pool are not the cost".to_string())
        })?;
        let set: Vec<usize> = (0..REGIONS).filter(|&region| requirement.includes(region)).collect();
        lines_are_the_members(book, requirement, settled).map_err(named)?;
        performances_are_over_the_kept(book, &views, settled, &set).map_err(named)?;
        shares_close(settled).map_err(named)?;
        payments_close(settled).map_err(named)?;
        signs_hold(settled).map_err(named)?;
    }
    Ok(())
}

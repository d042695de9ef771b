//! Groups for made books (request R-5): units of a book joined to groups, a few of them so that they cancel or are bad, and members cut
//! into groups that do as they did.

use std::collections::BTreeSet;

use crate::book::{Book, Unit, UNITS_LIMIT};
use crate::chance::Chance;
use crate::deviation::unit_is_good;
use crate::make::{make_bad, rising_numbers};
use crate::quantities::*;
use crate::roster::by_member;

/// No round sizes; a run of units that is shorter is a group of its own size.
const SIZES: [usize; 12] = [1, 1, 2, 2, 2, 3, 3, 5, 7, 13, 76, 477];
/// How far from each other the parts of a cut value are drawn.
const REACHES: [i128; 5] = [0, 1, 100, 3_000, POWER_LIMIT];

/// Where the groups of a roster stand.
#[derive(Clone, Copy, Debug, PartialEq, Eq)]
pub enum Spread {
    /// Groups and ungrouped units in turn, as it comes.
    Among,
    /// Ungrouped units, and one group at the end.
    Last,
    /// Groups alone, one next to the other.
    SideBySide,
    /// The whole roster one group.
    Whole,
}

/// Different group numbers, in any order: one after the other, with one unused between, falling, or any.
fn group_numbers(chance: &mut Chance, count: usize) -> Vec<i128> {
    let wanted = count as i128;
    let first = chance.pick(&[1, 1, 2, 255, 256, 65_535 - 2 * wanted]);
    let mut numbers: Vec<i128> = match chance.place(4) {
        0 => (0..wanted).map(|nth| first + nth).collect(),
        1 => (0..wanted).map(|nth| first + 2 * nth).collect(),
        2 => (0..wanted).map(|nth| 65_535 - nth).collect(),
        _ => {
            let mut all = BTreeSet::new();
            while all.len() < count {
                all.insert(chance.between(1, 65_535));
            }
            all.into_iter().collect()
        }
    };
    if chance.one_in(2) {
        for place in 1..count {
            numbers.swap(place, chance.place(place + 1));
        }
    }
    numbers
}

/// These units as one group: in the region of the first, which alone keeps its defaults.
fn join_these(units: &mut [Unit], group: i128) {
    let region = units[0].region;
    for (place, unit) in units.iter_mut().enumerate() {
        unit.group = group;
        unit.region = region;
        if place > 0 {
            unit.defaults = [0; 6];
        }
    }
}

/// How many units each group or ungrouped stretch has, and which of them are groups.
fn stretches(chance: &mut Chance, roster: usize, spread: Spread, largest: usize) -> Vec<(usize, bool)> {
    let mut left = roster;
    let mut all = Vec::new();
    while left > 0 {
        let drawn = chance.pick(&SIZES);
        let size = if drawn > largest { 1 + drawn % largest } else { drawn }.min(left);
        let (size, is_group) = match spread {
            Spread::Among => (size, chance.one_in(2)),
            Spread::SideBySide => (size, true),
            Spread::Whole => (left, true),
            Spread::Last if all.is_empty() => (left - size, false),
            Spread::Last => (left, true),
        };
        all.push((size, is_group));
        left -= size;
    }
    all
}

/// Units of the roster joined to groups, where there is a choice of at most so many units.
pub fn join(chance: &mut Chance, units: &mut [Unit], spread: Spread, largest: usize) {
    let stretches = stretches(chance, units.len(), spread, largest);
    let groups = stretches.iter().filter(|(_, is_group)| *is_group).count();
    let mut numbers = group_numbers(chance, groups).into_iter();
    let mut at = 0;
    for (size, is_group) in stretches {
        if is_group && size > 0 {
            join_these(&mut units[at..at + size], numbers.next().expect("a number for each group"));
        }
        at += size;
    }
}

pub fn draw_spread(chance: &mut Chance) -> Spread {
    chance.pick(&[
        Spread::Among,
        Spread::Among,
        Spread::Among,
        Spread::Last,
        Spread::SideBySide,
        Spread::Whole,
    ])
}

/// How many units each member of the roster has.
fn sizes_of(units: &[Unit]) -> Vec<usize> {
    by_member(units).map(<[Unit]>::len).collect()
}

/// Each second unit of a group as the first turned round, a load for a generator, so that the two cancel; or but for one cMW.
pub fn cancel(chance: &mut Chance, units: &mut [Unit]) {
    let mut at = 0;
    for size in sizes_of(units) {
        for place in (at + 1..at + size).step_by(2) {
            let (number, primary) = (units[place].number, units[place - 1].clone());
            units[place] = Unit { number, load: !primary.load, defaults: [0; 6], ..primary };
            let point = chance.place(POINTS);
            if chance.one_in(4) && units[place].good[point] {
                let reading = &mut units[place].readings[point];
                *reading += if *reading < POWER_LIMIT { 1 } else { -1 };
            }
        }
        at += size;
    }
}

/// The first, the last, a middle or any unit of a member bad, now and then several.
fn make_member_bad(chance: &mut Chance, units: &mut [Unit]) {
    let last = units.len() - 1;
    for _ in 0..chance.pick(&[1, 1, 1, 2]) {
        let any = chance.place(units.len());
        let place = chance.pick(&[0, last / 2, last, any]);
        if unit_is_good(&units[place]) {
            make_bad(chance, &mut units[place]);
        }
    }
}

/// As many members bad as the percent rule still bears, or one more, over all or by region; now and then every member of a region.
pub fn spoil_members(chance: &mut Chance, percent: i128, units: &mut [Unit]) {
    let sizes = sizes_of(units);
    let starts: Vec<usize> =
        sizes.iter().scan(0, |at, size| Some(std::mem::replace(at, *at + size))).collect();
    let by_region = chance.one_in(2);
    let whole_region = chance.place(REGIONS + 3);
    for region in 0..if by_region { REGIONS } else { 1 } {
        let of = |member: &usize| !by_region || units[starts[*member]].region == region;
        let mut members: Vec<usize> = (0..sizes.len()).filter(of).collect();
        // The largest first, the smallest first or any: over records the rule would come out otherwise.
        let order = chance.place(3);
        members.sort_by_key(
            |&member| if order == 0 { sizes[member] } else { UNITS_LIMIT as usize - sizes[member] },
        );
        let borne = percent as usize * members.len() / 100 + chance.place(2);
        let bad = if by_region && region == whole_region { members.len() } else { borne };
        for _ in 0..bad.min(members.len()) {
            let place = if order == 2 { chance.place(members.len()) } else { 0 };
            let member = members.remove(place);
            make_member_bad(chance, &mut units[starts[member]..][..sizes[member]]);
        }
    }
}

/// A value as so many that add up to it, each within the limit of power.
fn parts(chance: &mut Chance, value: i128, count: usize, reach: i128) -> Vec<i128> {
    let mut left = value;
    let mut all = Vec::new();
    for more in (1..count as i128).rev() {
        // What is left may be one part's.
        let (lowest, highest) =
            ((left - POWER_LIMIT).max(-POWER_LIMIT), (left + POWER_LIMIT).min(POWER_LIMIT));
        let part = (left / (more + 1) + chance.between(-reach, reach)).clamp(lowest, highest);
        all.push(part);
        left -= part;
    }
    all.push(left);
    all
}

/// The other kind with every value turned round: the deviations are the same.
fn turn_round(unit: &mut Unit) {
    unit.load = !unit.load;
    unit.start = -unit.start;
    unit.end = -unit.end;
    unit.readings.iter_mut().for_each(|reading| *reading = -*reading);
}

/// A unit as so many whose deviations add up to its own, generators and loads; of a bad unit some of them are bad.
fn cut_unit(chance: &mut Chance, unit: &Unit, count: usize) -> Vec<Unit> {
    let reach = chance.pick(&REACHES);
    let starts = parts(chance, unit.start, count, reach);
    let ends = parts(chance, unit.end, count, reach);
    let mut all = vec![Unit { defaults: [0; 6], good: [true; POINTS], ..unit.clone() }; count];
    for place in 0..count {
        (all[place].start, all[place].end) = (starts[place], ends[place]);
    }
    for point in 0..POINTS {
        for (part, reading) in all.iter_mut().zip(parts(chance, unit.readings[point], count, reach)) {
            part.readings[point] = reading;
        }
    }
    for part in &mut all {
        if chance.one_in(2) {
            turn_round(part);
        }
    }
    all[0].defaults = unit.defaults;
    if unit.good != [true; POINTS] {
        make_member_bad(chance, &mut all);
    }
    all
}

/// How many units each of so many members is cut into, all together a total.
fn cut_sizes(chance: &mut Chance, members: usize, total: usize) -> Vec<usize> {
    let mut sizes = vec![1; members];
    let mut more = total - members;
    let favourites = [chance.place(members), chance.place(members), members - 1];
    while more > 0 {
        let any = chance.place(members);
        let member = chance.pick(&[any, favourites[0], favourites[1], favourites[2]]);
        let added = chance.pick(&[1, 1, 2, 5, 76, more]).min(more);
        sizes[member] += added;
        more -= added;
    }
    sizes
}

/// The book with its units, none of which is grouped, cut into groups, in all so many units; each group does as its unit did. With it the
/// book that was cut, its units numbered as the groups are: the two have one listing.
pub fn cut(chance: &mut Chance, book: &Book, total: usize) -> (Book, Book) {
    let (mut whole, mut after) = (book.clone(), book.clone());
    let members = book.units.len();
    if members == 0 {
        return (whole, after);
    }
    let sizes = cut_sizes(chance, members, total);
    let mut numbers = rising_numbers(chance, total).into_iter();
    let groups = group_numbers(chance, members);
    after.units.clear();
    for (place, unit) in whole.units.iter_mut().enumerate() {
        let mut units = cut_unit(chance, unit, sizes[place]);
        units.iter_mut().zip(&mut numbers).for_each(|(unit, number)| unit.number = number);
        unit.number = units[0].number;
        // A group of one is as good as none.
        if units.len() > 1 || chance.one_in(2) {
            join_these(&mut units, groups[place]);
        }
        after.units.extend(units);
    }
    (after, whole)
}

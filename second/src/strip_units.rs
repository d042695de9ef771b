//! Units for the trend strip (request R-2): whole ones of many shapes, whose deviations stand where they are wanted, bad ones,
//! and records with wrong fields, one or two at a time.

use crate::book::*;
use crate::chance::Chance;
use crate::limits::{self, keeps};
use crate::make::{make, CLASSES};
use crate::quantities::*;
use crate::strip::ONE_MW;
use crate::sweep::put;
use crate::write::{base_unit, put_unit};

/// The largest deviation either way.
pub const DEVIATION_LIMIT: i128 = 150 * POWER_LIMIT;
const LAST: usize = POINTS - 1;
const SMALL: [usize; 6] = [1, 2, 3, 5, 7, 13];

/// Deviations that are told apart by how a point is worked out, and those at the ends; their negatives are wanted too.
pub const SPECIMENS: [i128; 16] =
    [0, 1, 2, 3, 5, 7, 75, 100, 7_499, 7_500, 7_501, 15_000, 8_388_607, 14_992_500, 14_999_999, 15_000_000];

/// The record's bytes.
pub fn record_of(unit: &Unit) -> Vec<u8> {
    let mut record = Vec::new();
    put_unit(&mut record, unit);
    record
}

/// A unit of a made book of this class; in some classes it may be a bad one.
pub fn unit_of_class(chance: &mut Chance, class: &str) -> Unit {
    let roster = chance.pick(&SMALL);
    let book = make(chance.draw(), class, Some(roster)).expect("a class of the list");
    book.units[chance.place(roster)].clone()
}

pub fn made_unit(chance: &mut Chance) -> Unit {
    let (class, _) = chance.pick(&CLASSES);
    unit_of_class(chance, class)
}

fn any_power(chance: &mut Chance) -> i128 {
    chance.between(-POWER_LIMIT, POWER_LIMIT)
}

/// What says nothing of the strip: number, region, group, defaults. The kind is either.
fn any_header(chance: &mut Chance) -> Unit {
    let number = chance.between(0, 65_535);
    let region = chance.place(REGIONS);
    let mut unit = base_unit(chance.pick(&[number, number, 0, 65_535]), region);
    unit.load = chance.one_in(2);
    let group = chance.between(1, 65_535);
    unit.group = chance.pick(&[0, 0, 0, 1, 255, 256, 65_535, group]);
    for default in &mut unit.defaults {
        *default = chance.pick(&[0, 0, -1, UNIT_DEFAULT_LOWEST]);
    }
    unit
}

/// Start, end and readings anywhere.
fn anywhere(chance: &mut Chance) -> Unit {
    let mut unit = any_header(chance);
    (unit.start, unit.end) = (any_power(chance), any_power(chance));
    unit.readings.iter_mut().for_each(|reading| *reading = any_power(chance));
    unit
}

/// Start, end and readings at or next to their limits.
fn at_the_limits(chance: &mut Chance) -> Unit {
    let mut unit = any_header(chance);
    let edge = |chance: &mut Chance| {
        let inside = chance.pick(&[0, 0, 0, 1, 2]);
        chance.pick(&[-POWER_LIMIT + inside, POWER_LIMIT - inside])
    };
    (unit.start, unit.end) = (edge(chance), edge(chance));
    if chance.one_in(2) {
        unit.end = unit.start;
    }
    let far = -unit.start;
    let all_far = chance.one_in(3);
    for reading in &mut unit.readings {
        let near = edge(chance);
        *reading = if all_far { far } else { chance.pick(&[far, near, near, 0]) };
    }
    unit
}

/// A start and an end whose trajectory is a whole number of cMW at every t.
fn whole_steps(chance: &mut Chance, unit: &mut Unit) {
    let step: i128 = chance.pick(&[-1_300, -7, -1, 0, 0, 1, 5, 1_300]);
    let room = POWER_LIMIT - 75 * step.abs();
    unit.start = chance.between(-room, room);
    unit.end = unit.start + 75 * step;
}

/// The trajectory itself, where it is a whole number of cMW.
fn put_on_trajectory(unit: &mut Unit) {
    for (point, reading) in unit.readings.iter_mut().enumerate() {
        *reading = unit.start + (unit.end - unit.start) * (point as i128 + 1) / 75;
    }
}

/// A unit that sits on its set point: every deviation is 0, of a load too.
fn on_set_point(chance: &mut Chance) -> Unit {
    let mut unit = any_header(chance);
    whole_steps(chance, &mut unit);
    put_on_trajectory(&mut unit);
    unit
}

/// On the trajectory but at one t, by a little or a lot.
fn spike(chance: &mut Chance) -> Unit {
    let mut unit = on_set_point(chance);
    let any = chance.place(POINTS);
    let at = chance.pick(&[0, 1, LAST - 1, LAST, any, any, any]);
    let reading = unit.readings[at];
    let other = any_power(chance);
    let moved = chance.pick(&[reading - 1, reading + 1, reading + 100, reading - 100, other, other]);
    unit.readings[at] = moved.clamp(-POWER_LIMIT, POWER_LIMIT);
    unit
}

/// Away from the trajectory to one side at every t, by as little as a 75th of a cMW or by far.
fn one_sided(chance: &mut Chance) -> Unit {
    let mut unit = any_header(chance);
    unit.start = chance.between(-30_000, 30_000);
    unit.end = chance.between(-30_000, 30_000);
    put_on_trajectory(&mut unit);
    let side = chance.pick(&[-1, 1]);
    let reach = chance.pick(&[1, 3, 100, 700, 60_000]);
    for reading in &mut unit.readings {
        // The trajectory is cut to a whole cMW, less than one away: a step of one or more leads off it, whichever side.
        *reading += side * chance.between(1, reach);
    }
    unit
}

/// A unit whose deviation is the wanted one at one t. Its trajectory rises or falls by one cMW in all, so that the deviation is
/// 75 times a whole number and t besides: every whole number is met at just one t. A wanted one that the limits of a
/// reading leave no room for is passed over.
struct Steered {
    unit: Unit,
    fall: i128,
}

impl Steered {
    /// For deviations of one sign: of the farthest there is one t and one start.
    fn towards(chance: &mut Chance, sign: i128) -> Steered {
        let mut unit = any_header(chance);
        let fall = if unit.load { -sign } else { sign };
        let inside = chance.pick(&[0, 0, 0, 1, 50_000, 99_999, 199_998]);
        unit.start = fall * (1 - POWER_LIMIT + inside);
        unit.end = unit.start - fall;
        unit.readings = [unit.start; POINTS];
        Steered { unit, fall }
    }

    fn put(&mut self, wanted: i128) {
        let away = if self.unit.load { -wanted } else { wanted };
        let t = (self.fall * away - 1).rem_euclid(75) + 1;
        let reading = self.unit.start + (away - self.fall * t) / 75;
        if keeps(reading, limits::POWER) {
            self.unit.readings[t as usize - 1] = reading;
        }
    }
}

/// Deviations that are specimens, of one sign and of both.
fn of_specimens(chance: &mut Chance) -> Unit {
    let sign = chance.pick(&[-1, 1]);
    let mut steered = Steered::towards(chance, sign);
    for _ in 0..2 * SPECIMENS.len() {
        let wanted = chance.pick(&SPECIMENS);
        steered.put(chance.pick(&[sign, sign, sign, -sign]) * wanted);
    }
    steered.unit
}

/// Deviations of whole MW, at every t.
fn of_megawatts(chance: &mut Chance) -> Unit {
    let mut unit = on_set_point(chance);
    for reading in &mut unit.readings {
        let (down, up) = ((POWER_LIMIT + *reading) / 100, (POWER_LIMIT - *reading) / 100);
        *reading += 100 * chance.between(-down, up);
    }
    unit
}

/// Deviations next to whole MW.
fn beside_megawatts(chance: &mut Chance) -> Unit {
    let sign = chance.pick(&[-1, 1]);
    let mut steered = Steered::towards(chance, sign);
    for _ in 0..3 * POINTS {
        let whole = ONE_MW * chance.any_size(DEVIATION_LIMIT / ONE_MW);
        steered.put(sign * whole + chance.between(-37, 37));
    }
    steered.unit
}

/// Deviations of every size.
fn of_all_sizes(chance: &mut Chance) -> Unit {
    let sign = chance.pick(&[-1, 1]);
    let mut steered = Steered::towards(chance, sign);
    for _ in 0..2 * POINTS {
        let size = chance.any_size(DEVIATION_LIMIT);
        steered.put(sign * size);
    }
    steered.unit
}

type Shape = fn(&mut Chance) -> Unit;

/// Every sort of a whole unit that is made for the strip.
pub const SHAPES: [(&str, Shape); 9] = [
    ("anywhere", anywhere),
    ("at-the-limits", at_the_limits),
    ("on-set-point", on_set_point),
    ("spike", spike),
    ("one-sided", one_sided),
    ("specimens", of_specimens),
    ("megawatts", of_megawatts),
    ("beside-megawatts", beside_megawatts),
    ("all-sizes", of_all_sizes),
];

pub fn shaped_unit(chance: &mut Chance) -> Unit {
    let (_, shape) = chance.pick(&SHAPES);
    shape(chance)
}

fn make_bad_at(unit: &mut Unit, point: usize) {
    unit.good[point] = false;
    unit.readings[point] = 0;
}

/// Bad readings: the first, the last, one between, several, all, or all but one.
pub fn make_bad(chance: &mut Chance, unit: &mut Unit) {
    let any = chance.place(POINTS);
    match chance.place(7) {
        0 => make_bad_at(unit, 0),
        1 => make_bad_at(unit, LAST),
        2 | 3 => make_bad_at(unit, any),
        4 => (0..chance.pick(&[2, 3, 7, 37])).for_each(|_| make_bad_at(unit, chance.place(POINTS))),
        5 => (0..POINTS).for_each(|point| make_bad_at(unit, point)),
        _ => (0..POINTS).filter(|&point| point != any).for_each(|point| make_bad_at(unit, point)),
    }
}

/// Any unit that is not refused: of a made book or of a shape; one of four is bad.
pub fn any_unit(chance: &mut Chance) -> Unit {
    let mut unit = if chance.one_in(4) { made_unit(chance) } else { shaped_unit(chance) };
    if chance.one_in(4) {
        make_bad(chance, &mut unit);
    }
    unit
}

/// Where the fields of a unit record stand.
const REGION_AT: usize = 2;
const KIND_AT: usize = 3;
const START_AT: usize = 4;
const END_AT: usize = 8;
const DEFAULTS_AT: usize = 12;
const QUALITY_AT: usize = 60;
const GROUP_AT: usize = 70;
const READINGS_AT: usize = 72;

const POWERS: [i128; 12] = [
    -POWER_LIMIT - 1,
    -POWER_LIMIT,
    -POWER_LIMIT + 1,
    -1,
    0,
    1,
    POWER_LIMIT - 1,
    POWER_LIMIT,
    POWER_LIMIT + 1,
    i32::MIN as i128,
    i32::MAX as i128,
    1 << 24,
];
const DEFAULTS: [i128; 8] = [
    UNIT_DEFAULT_LOWEST - 1,
    UNIT_DEFAULT_LOWEST,
    UNIT_DEFAULT_LOWEST + 1,
    -1,
    0,
    1,
    i64::MIN as i128,
    i64::MAX as i128,
];

/// One field at or past its limit, or the number or group as anything.
pub fn set_field(chance: &mut Chance, record: &mut [u8]) {
    let any = chance.between(0, 65_535);
    match chance.place(10) {
        0 => put(record, 0, 2, chance.pick(&[0, 1, 65_535, any])),
        1 => put(record, REGION_AT, 1, chance.pick(&[0, 1, 2, 3, 4, 5, 6, 127, 128, 255])),
        2 => put(record, KIND_AT, 1, chance.pick(&[0, 1, 2, 3, 128, 254, 255])),
        3 => put(record, START_AT, 4, chance.pick(&POWERS)),
        4 => put(record, END_AT, 4, chance.pick(&POWERS)),
        5 | 6 => put(record, DEFAULTS_AT + 8 * chance.place(6), 8, chance.pick(&DEFAULTS)),
        7 => record[QUALITY_AT + 9] ^= 1 << chance.place(8),
        8 => put(record, GROUP_AT, 2, chance.pick(&[0, 1, 255, 256, 65_535, any])),
        _ => put(record, READINGS_AT + 4 * chance.place(POINTS), 4, chance.pick(&POWERS)),
    }
}

/// What can be wrong with a record, and a bad reading, which is no fault.
#[derive(Clone, Copy, Debug, PartialEq, Eq)]
pub enum Fault {
    Region,
    Kind,
    Start,
    End,
    Default,
    Spare,
    GoodReading,
    BadReading,
    Bad,
}

pub const FAULTS: [Fault; 9] = [
    Fault::Region,
    Fault::Kind,
    Fault::Start,
    Fault::End,
    Fault::Default,
    Fault::Spare,
    Fault::GoodReading,
    Fault::BadReading,
    Fault::Bad,
];

fn past_the_limit(chance: &mut Chance) -> i128 {
    let far = chance.between(POWER_LIMIT + 1, i32::MAX.into());
    let size = chance.pick(&[POWER_LIMIT + 1, POWER_LIMIT + 1, far]);
    chance.pick(&[-1, 1]) * size
}

/// Puts a fault into the record, one of a reading at this t.
pub fn put_fault(chance: &mut Chance, record: &mut [u8], fault: Fault, t: usize) {
    let (reading_at, mark_at, mark) =
        (READINGS_AT + 4 * (t - 1), QUALITY_AT + (t - 1) / 8, 1 << ((t - 1) % 8));
    let past = past_the_limit(chance);
    match fault {
        Fault::Region => record[REGION_AT] = chance.pick(&[5, 6, 255]),
        Fault::Kind => record[KIND_AT] = chance.pick(&[2, 3, 255]),
        Fault::Start => put(record, START_AT, 4, past),
        Fault::End => put(record, END_AT, 4, past),
        Fault::Default => {
            let value = chance.pick(&[1, UNIT_DEFAULT_LOWEST - 1, i64::MAX.into(), i64::MIN.into()]);
            put(record, DEFAULTS_AT + 8 * chance.place(6), 8, value);
        }
        Fault::Spare => record[QUALITY_AT + 9] |= 1 << (3 + chance.place(5)),
        Fault::GoodReading => {
            record[mark_at] |= mark;
            put(record, reading_at, 4, past);
        }
        Fault::BadReading => {
            record[mark_at] &= !mark;
            put(record, reading_at, 4, chance.pick(&[1, -1, POWER_LIMIT, past]));
        }
        Fault::Bad => {
            record[mark_at] &= !mark;
            put(record, reading_at, 4, 0);
        }
    }
}

/// A t: any, or next to an end or to a quality byte's.
pub fn draw_t(chance: &mut Chance) -> usize {
    let any = 1 + chance.place(POINTS);
    chance.pick(&[any, any, any, any, 1, 2, 8, 9, 74, 75])
}

//! Wrong values for the book writer (request R-4): every field of every record at and past its limits and its width,
//! points, quality and groups; and the bytes of values that break their rules, each cut to its field's width.

use crate::book::*;
use crate::chance::Chance;
use crate::damage::Kind;
use crate::limits::{self, Limits};
use crate::quantities::*;
use crate::write::{put, put_contents};
use crate::writer::*;

/// A field's limits and its width in bytes.
#[derive(Clone, Copy)]
struct Field {
    limits: Limits,
    width: usize,
    signed: bool,
}

const fn unsigned_field(limits: Limits, width: usize) -> Field {
    Field { limits, width, signed: false }
}

const fn signed_field(limits: Limits, width: usize) -> Field {
    Field { limits, width, signed: true }
}

const RESIDUAL_DEFAULT: Field = signed_field(limits::RESIDUAL_DEFAULT, 8);
const UNIT_DEFAULT: Field = signed_field(limits::UNIT_DEFAULT, 8);
const FREQUENCY_POINT: Field = unsigned_field(limits::FREQUENCY, 4);
const READING: Field = signed_field(limits::POWER, 4);
const AMOUNT: Field = unsigned_field(limits::AMOUNT, 4);

const SETTINGS_FIELDS: [Field; 4] = [
    unsigned_field(limits::SMOOTHING, 2),
    unsigned_field(limits::BAD_FREQUENCY_LIMIT, 1),
    unsigned_field(limits::BAD_UNIT_PERCENT, 1),
    unsigned_field(limits::INTERVAL, 4),
];
const REGION_FIELDS: [Field; REGION_ROW] = [
    unsigned_field(limits::SEPARATION, 1),
    signed_field(limits::MEASURE_BEFORE, 4),
    unsigned_field(limits::GENERATION, 4),
    RESIDUAL_DEFAULT,
    RESIDUAL_DEFAULT,
    RESIDUAL_DEFAULT,
    RESIDUAL_DEFAULT,
    RESIDUAL_DEFAULT,
    RESIDUAL_DEFAULT,
];
const UNIT_FIELDS: [Field; UNIT_ROW] = [
    unsigned_field(limits::UNIT_NUMBER, 2),
    unsigned_field(limits::UNIT_REGION, 1),
    unsigned_field(limits::UNIT_KIND, 1),
    signed_field(limits::POWER, 4),
    signed_field(limits::POWER, 4),
    unsigned_field(limits::GROUP, 2),
    UNIT_DEFAULT,
    UNIT_DEFAULT,
    UNIT_DEFAULT,
    UNIT_DEFAULT,
    UNIT_DEFAULT,
    UNIT_DEFAULT,
];
const REQUIREMENT_FIELDS: [Field; REQUIREMENT_ROW] = [
    unsigned_field(limits::REQUIREMENT_NUMBER, 2),
    unsigned_field(limits::REGION_SET, 1),
    unsigned_field(limits::DIRECTION, 1),
    unsigned_field(limits::PRICE, 4),
    unsigned_field(limits::COST, 8),
    AMOUNT,
    AMOUNT,
];

/// Where a unit's row has its number, region, group and first default.
const NUMBER: usize = 0;
const REGION: usize = 1;
const GROUP: usize = 5;
const DEFAULTS: usize = 6;

impl Field {
    /// The least and the greatest number of its width.
    fn span(self) -> (i128, i128) {
        let size = 1i128 << (8 * self.width);
        if self.signed {
            (-size / 2, size / 2 - 1)
        } else {
            (0, size - 1)
        }
    }

    /// Values at and past its limits and its width, some of which are alike to what stands there once they are cut.
    fn values(self, now: i128) -> Vec<i128> {
        let (lowest, highest) = self.limits;
        let (first, last) = self.span();
        let size = last - first + 1;
        let mut all = vec![lowest - 1, lowest, highest, highest + 1, first - 1, first, last, last + 1];
        all.extend([now + size, now - size, lowest + size, i64::MIN.into(), i64::MAX.into(), -1, 0, 1]);
        all
    }

    fn drawn(self, chance: &mut Chance, now: i128, allowed: Limits) -> i128 {
        let values: Vec<i128> =
            self.values(now).into_iter().filter(|&value| limits::keeps(value, allowed)).collect();
        chance.pick(&values)
    }
}

const I64: Limits = (i64::MIN as i128, i64::MAX as i128);

/// How wide points and readings may be: as the door takes them, or any whole number within i64 as in a text.
#[derive(Clone, Copy, PartialEq, Eq)]
pub enum Width {
    Door,
    Text,
}

/// A record of the values: its kind and its place in its body, 0 is the first.
#[derive(Clone, Copy)]
pub struct At {
    kind: Kind,
    place: usize,
}

fn records(given: &Given, kind: Kind) -> usize {
    match kind {
        Kind::Settings => 1,
        Kind::Frequency => REGIONS,
        Kind::Unit => given.units as usize,
        Kind::Requirement => given.requirements as usize,
    }
}

fn draw_place(chance: &mut Chance, count: usize) -> usize {
    let any = chance.place(count);
    chance.pick(&[any, any, any, 0, 1, count - 1]).min(count - 1)
}

pub fn draw_record(chance: &mut Chance, given: &Given) -> At {
    let kinds = [Kind::Frequency, Kind::Frequency, Kind::Unit, Kind::Unit, Kind::Unit, Kind::Requirement];
    let drawn = if chance.one_in(10) { Kind::Settings } else { chance.pick(&kinds) };
    let kind = if records(given, drawn) == 0 { Kind::Frequency } else { drawn };
    At { kind, place: draw_place(chance, records(given, kind)) }
}

/// One column of a row.
fn spoil_row(chance: &mut Chance, list: &mut Lent, fields: &[Field], place: usize) {
    let column = chance.place(fields.len());
    let at = fields.len() * place + column;
    list.numbers[at] = fields[column].drawn(chance, list.numbers[at], I64);
}

/// A number next to that of the row before, which it has to rise above; or any value of its field.
fn spoil_number(chance: &mut Chance, list: &mut Lent, fields: &[Field], place: usize) {
    let at = fields.len() * place + NUMBER;
    list.numbers[at] = if place > 0 && !chance.one_in(4) {
        list.numbers[at - fields.len()] + chance.pick(&[0, 0, -1, 1, 65_536])
    } else {
        fields[NUMBER].drawn(chance, list.numbers[at], I64)
    };
}

fn quality_bit(list: &mut Lent, place: usize, bit: usize, set: bool) {
    let byte = &mut list.numbers[QUALITY_BYTES * place + bit / 8];
    let mark = 1 << (bit % 8);
    *byte = if set { *byte | mark } else { *byte & !mark };
}

/// The lists of a record's quality and values, and the field that a value is.
fn series(kind: Kind) -> (usize, usize, Field) {
    match kind {
        Kind::Frequency => (REGION_QUALITY, FREQUENCY_POINTS, FREQUENCY_POINT),
        _ => (UNIT_QUALITY, READINGS, READING),
    }
}

/// One point or reading with another value, good, bad or as it was.
fn spoil_point(chance: &mut Chance, given: &mut Given, at: At, width: Width) {
    let (quality, values, field) = series(at.kind);
    let point = if chance.one_in(4) { chance.pick(&[0, 7, 8, 73, 74]) } else { chance.place(POINTS) };
    let allowed = if width == Width::Door { field.span() } else { I64 };
    let value = &mut given.lists[values].numbers[POINTS * at.place + point];
    if !chance.one_in(6) {
        *value = field.drawn(chance, *value, allowed);
    }
    match chance.place(4) {
        0 | 1 => quality_bit(&mut given.lists[quality], at.place, point, true),
        2 => quality_bit(&mut given.lists[quality], at.place, point, false),
        _ => (),
    }
}

pub fn spoil_spare(chance: &mut Chance, given: &mut Given, at: At) {
    let (quality, _, _) = series(at.kind);
    quality_bit(&mut given.lists[quality], at.place, POINTS + chance.place(5), true);
}

/// A unit that joins the group of the one before as it should, or but for its region or one default.
fn join_the_one_before(chance: &mut Chance, given: &mut Given, place: usize, wrong: bool) {
    let rows = &mut given.lists[UNIT_ROWS].numbers;
    let (before, at) = (UNIT_ROW * (place - 1), UNIT_ROW * place);
    if rows[before + GROUP] == 0 {
        rows[before + GROUP] = chance.between(40_000, 65_535);
    }
    rows[at + GROUP] = rows[before + GROUP];
    rows[at + REGION] = rows[before + REGION];
    rows[at + DEFAULTS..at + UNIT_ROW].fill(0);
    if wrong && chance.one_in(3) {
        rows[at + REGION] = (rows[before + REGION] + 1).rem_euclid(REGIONS as i128);
    } else if wrong {
        rows[at + DEFAULTS + chance.place(6)] = -1;
    }
}

/// A unit given the group of the one before or of an earlier one, taken out of its group, moved, or with a default.
pub fn spoil_group(chance: &mut Chance, given: &mut Given, place: usize) {
    if place == 0 {
        return;
    }
    if chance.one_in(4) {
        let wrong = !chance.one_in(4);
        return join_the_one_before(chance, given, place, wrong);
    }
    let rows = &mut given.lists[UNIT_ROWS].numbers;
    let at = |place: usize, column: usize| UNIT_ROW * place + column;
    let earlier = chance.place(place);
    match chance.place(12) {
        0 => rows[at(place, GROUP)] = rows[at(place - 1, GROUP)],
        1 | 2 => rows[at(place, GROUP)] = rows[at(earlier, GROUP)],
        3..=7 => {
            let group = chance.pick(&[1, 65_535, 7]);
            rows[at(earlier, GROUP)] = group;
            rows[at(place, GROUP)] = group;
        }
        8 => rows[at(place, GROUP)] = chance.pick(&[0, -1, 65_536, 65_537]),
        9 => rows[at(place, REGION)] = chance.between(0, 4),
        _ => rows[at(place, DEFAULTS + chance.place(6))] = chance.pick(&[-1, 0, UNIT_DEFAULT_LOWEST]),
    }
}

/// One fault, mostly, in a record.
pub fn spoil_value(chance: &mut Chance, given: &mut Given, at: At, width: Width) {
    let drawn = chance.place(14);
    match (at.kind, drawn) {
        (Kind::Settings, _) => {
            let column = chance.place(SETTINGS_FIELDS.len());
            given.settings[column] = SETTINGS_FIELDS[column].drawn(chance, given.settings[column], I64);
        }
        (Kind::Requirement, 0..=2) => {
            spoil_number(chance, &mut given.lists[REQUIREMENT_ROWS], &REQUIREMENT_FIELDS, at.place);
        }
        (Kind::Requirement, _) => {
            spoil_row(chance, &mut given.lists[REQUIREMENT_ROWS], &REQUIREMENT_FIELDS, at.place);
        }
        (_, 0..=4) => spoil_point(chance, given, at, width),
        (_, 5) => spoil_spare(chance, given, at),
        (Kind::Unit, 6 | 7) => spoil_group(chance, given, at.place),
        (Kind::Unit, 8 | 9) => spoil_number(chance, &mut given.lists[UNIT_ROWS], &UNIT_FIELDS, at.place),
        (Kind::Frequency, _) => spoil_row(chance, &mut given.lists[REGION_ROWS], &REGION_FIELDS, at.place),
        (Kind::Unit, _) => spoil_row(chance, &mut given.lists[UNIT_ROWS], &UNIT_FIELDS, at.place),
    }
}

/// A fault of a region's record, told by its sort; each is tested before the next, but for the two of 71.
fn region_fault(chance: &mut Chance, given: &mut Given, place: usize, sort: usize) {
    let row = REGION_ROW * place;
    let point = POINTS * place + chance.place(POINTS);
    match sort {
        0 => given.lists[REGION_ROWS].numbers[row] = chance.pick(&[2, -1, 256]),
        1 => spoil_spare(chance, given, At { kind: Kind::Frequency, place }),
        2 => given.lists[REGION_ROWS].numbers[row + 1] = chance.pick(&[5_000_001, 1 << 32]),
        3 => given.lists[REGION_ROWS].numbers[row + 2] = chance.pick(&[2_000_001, -1]),
        4 => given.lists[REGION_ROWS].numbers[row + 3 + chance.place(6)] = 1,
        _ => given.lists[FREQUENCY_POINTS].numbers[point] = chance.pick(&[1, FREQUENCY_HIGHEST + 1]),
    }
}

/// A fault of the record of a unit that has one before it, told by its sort, in the order of their tests.
fn unit_fault(chance: &mut Chance, given: &mut Given, place: usize, sort: usize) {
    let row = UNIT_ROW * place;
    let reading = POINTS * place + chance.place(POINTS);
    let before = given.lists[UNIT_ROWS].numbers[row - UNIT_ROW + NUMBER];
    match sort {
        0 => given.lists[UNIT_ROWS].numbers[row + 1 + chance.place(4)] = chance.pick(&[-100_001, 100_001]),
        1 => given.lists[UNIT_ROWS].numbers[row + DEFAULTS + chance.place(6)] = 1,
        2 => spoil_spare(chance, given, At { kind: Kind::Unit, place }),
        3 => given.lists[UNIT_ROWS].numbers[row + GROUP] = chance.pick(&[65_536, 65_537, -1]),
        4 => given.lists[READINGS].numbers[reading] = chance.pick(&[-100_001, 100_001]),
        5 => given.lists[UNIT_ROWS].numbers[row + NUMBER] = chance.pick(&[before, 65_536, 131_071, -1]),
        _ => join_the_one_before(chance, given, place, true),
    }
}

/// Two faults of different sorts in one record, a unit's where there are two.
pub fn two_faults(chance: &mut Chance, given: &mut Given) {
    let of_a_unit = given.units > 1 && !chance.one_in(3);
    let sorts = if of_a_unit { 7 } else { 6 };
    let one = chance.place(sorts);
    let other = (one + 1 + chance.place(sorts - 1)) % sorts;
    // Joining a group overwrites fields that the other fault is in.
    let place = if of_a_unit {
        1 + draw_place(chance, given.units as usize - 1)
    } else {
        draw_place(chance, REGIONS)
    };
    let fault = if of_a_unit { unit_fault } else { region_fault };
    for sort in [one.max(other), one.min(other)] {
        fault(chance, given, place, sort);
    }
}

/// One point or reading or a quality bit wrong, at any t.
pub fn spoil_series(chance: &mut Chance, given: &mut Given, width: Width) {
    let kind = if given.units > 0 && !chance.one_in(3) { Kind::Unit } else { Kind::Frequency };
    let at = At { kind, place: draw_place(chance, records(given, kind)) };
    if chance.one_in(6) {
        spoil_spare(chance, given, at);
    } else {
        spoil_point(chance, given, at, width);
    }
}

fn put_row(out: &mut Vec<u8>, row: &[i128], fields: &[Field]) {
    row.iter().zip(fields).for_each(|(&value, field)| put(out, value, field.width));
}

fn put_all<const N: usize>(out: &mut Vec<u8>, values: [i128; N], width: usize) {
    values.into_iter().for_each(|value| put(out, value, width));
}

/// The bytes that values would have, whether or not they keep their rules; each is cut to its field's width.
pub fn lay_out(given: &Given) -> Vec<u8> {
    let mut out = Vec::new();
    let lists = &given.lists;
    put_contents(&mut out, given.units as usize, given.requirements as usize);
    put_row(&mut out, &given.settings, &SETTINGS_FIELDS);
    for place in 0..REGIONS {
        let row: [i128; REGION_ROW] = lists[REGION_ROWS].row(place);
        put(&mut out, place as i128, 1);
        put_row(&mut out, &row[..1], &REGION_FIELDS);
        put_all::<QUALITY_BYTES>(&mut out, lists[REGION_QUALITY].row(place), 1);
        put_row(&mut out, &row[1..], &REGION_FIELDS[1..]);
        put_all::<POINTS>(&mut out, lists[FREQUENCY_POINTS].row(place), 4);
    }
    for place in 0..given.units as usize {
        let row: [i128; UNIT_ROW] = lists[UNIT_ROWS].row(place);
        put_row(&mut out, &row[..GROUP], &UNIT_FIELDS);
        put_row(&mut out, &row[DEFAULTS..], &UNIT_FIELDS[DEFAULTS..]);
        put_all::<QUALITY_BYTES>(&mut out, lists[UNIT_QUALITY].row(place), 1);
        put_row(&mut out, &row[GROUP..DEFAULTS], &UNIT_FIELDS[GROUP..]);
        put_all::<POINTS>(&mut out, lists[READINGS].row(place), 4);
    }
    for place in 0..given.requirements as usize {
        put_row(&mut out, &lists[REQUIREMENT_ROWS].row::<REQUIREMENT_ROW>(place), &REQUIREMENT_FIELDS);
    }
    out
}

/// Takes numbers off bytes, one after the other.
struct Taker<'a> {
    bytes: &'a [u8],
    at: usize,
}

impl Taker<'_> {
    fn number(&mut self, field: Field) -> i128 {
        self.at += field.width;
        let read = if field.signed { signed } else { unsigned };
        read(self.bytes, self.at - field.width, field.width)
    }

    fn row(&mut self, fields: &[Field]) -> Vec<i128> {
        fields.iter().map(|&field| self.number(field)).collect()
    }
}

/// The values in the bytes of a book whose table, length and region numbers are right, whatever else is wrong; None
/// where they are not, or where a value does not fit the door's type (a cost over i64).
pub fn values_in_bytes(bytes: &[u8]) -> Option<Given> {
    let Contents { units, requirements } = read_contents(bytes).ok()?;
    let region_at = |region: usize| FREQUENCIES_AT + FREQUENCY_SIZE * region;
    let whole = bytes.len() as i128 == book_size(units as i128, requirements as i128);
    if !whole || (0..REGIONS).any(|region| bytes[region_at(region)] != region as u8) {
        return None;
    }
    let byte = unsigned_field((0, 255), 1);
    let mut taker = Taker { bytes, at: CONTENTS_SIZE };
    let settings = taker.row(&SETTINGS_FIELDS);
    let mut lists: [Vec<i128>; LISTS] = Default::default();
    for _ in 0..REGIONS {
        taker.at += 1;
        lists[REGION_ROWS].push(taker.number(REGION_FIELDS[0]));
        lists[REGION_QUALITY].extend(taker.row(&[byte; QUALITY_BYTES]));
        lists[REGION_ROWS].extend(taker.row(&REGION_FIELDS[1..]));
        lists[FREQUENCY_POINTS].extend(taker.row(&[FREQUENCY_POINT; POINTS]));
    }
    for _ in 0..units {
        let header = taker.row(&UNIT_FIELDS[..GROUP]);
        let defaults = taker.row(&UNIT_FIELDS[DEFAULTS..]);
        lists[UNIT_QUALITY].extend(taker.row(&[byte; QUALITY_BYTES]));
        let group = taker.number(UNIT_FIELDS[GROUP]);
        lists[UNIT_ROWS].extend(header.into_iter().chain([group]).chain(defaults));
        lists[READINGS].extend(taker.row(&[READING; POINTS]));
    }
    for _ in 0..requirements {
        lists[REQUIREMENT_ROWS].extend(taker.row(&REQUIREMENT_FIELDS));
    }
    let fits = lists[REQUIREMENT_ROWS].iter().all(|&number| limits::keeps(number, I64));
    fits.then(|| in_exact_room(settings.try_into().expect("four numbers"), lists))
}

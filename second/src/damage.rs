//! `damage`: SEED and a book to a broken one. Sometimes the result is still a
//! valid book, which is as good a trial as a refusal. `spoil` puts a fault into one
//! record, in every field of every kind, so that every refusal comes at many places
//! and with many t.

use crate::book::*;
use crate::chance::Chance;
use crate::quantities::*;

/// A kind of record, as the calls name it.
#[derive(Clone, Copy, Debug, PartialEq, Eq)]
pub enum Kind {
    Settings,
    Frequency,
    Unit,
    Requirement,
}

impl Kind {
    pub const ALL: [Kind; 4] = [Kind::Settings, Kind::Frequency, Kind::Unit, Kind::Requirement];

    pub fn name(self) -> &'static str {
        match self {
            Kind::Settings => "settings",
            Kind::Frequency => "frequency",
            Kind::Unit => "unit",
            Kind::Requirement => "requirement",
        }
    }

    pub fn named(name: &str) -> Option<Kind> {
        Kind::ALL.into_iter().find(|kind| kind.name() == name)
    }

    pub fn size(self) -> usize {
        match self {
            Kind::Settings => SETTINGS_SIZE,
            Kind::Frequency => FREQUENCY_SIZE,
            Kind::Unit => UNIT_SIZE,
            Kind::Requirement => REQUIREMENT_SIZE,
        }
    }
}

/// Where the quality bytes and the 75 values of a record lie, and the limits of a good value.
struct Values {
    quality: usize,
    values: usize,
    lowest: i128,
    highest: i128,
}

const FREQUENCY_VALUES: Values =
    Values { quality: 2, values: 68, lowest: FREQUENCY_LOWEST, highest: FREQUENCY_HIGHEST };
const UNIT_VALUES: Values = Values { quality: 60, values: 72, lowest: -POWER_LIMIT, highest: POWER_LIMIT };

/// A value just past a limit, or far past it.
fn beyond(chance: &mut Chance, lowest: i128, highest: i128) -> i128 {
    let far = chance.any_size(1 << 20);
    chance.pick(&[lowest - 1, highest + 1, lowest - 1 - far, highest + 1 + far])
}

/// One of the five spare quality bits of a record.
fn spoil_spare(chance: &mut Chance, record: &mut [u8], quality: usize) {
    record[quality + 9] |= 1 << (3 + chance.place(5));
}

/// One wrong point: a good one that is out of range, or a bad one that holds a value.
fn spoil_point(chance: &mut Chance, record: &mut [u8], values: &Values, point: usize, good: bool) {
    let mark = 1u8 << (point % 8);
    let value = if good {
        record[values.quality + point / 8] |= mark;
        beyond(chance, values.lowest, values.highest)
    } else {
        record[values.quality + point / 8] &= !mark;
        let within = chance.between(values.lowest, values.highest);
        chance.pick(&[1, -1, values.lowest, values.highest, within, within])
    };
    // A bad 0 is no fault.
    let value = if value == 0 { 1 } else { value };
    put(record, values.values + 4 * point, 4, value);
}

/// One wrong point, any or next to an end or to a quality byte's; or several.
fn spoil_points(chance: &mut Chance, record: &mut [u8], values: &Values) {
    for _ in 0..chance.pick(&[1, 1, 1, 1, 1, 1, 1, 2, 3, 20]) {
        let any = chance.place(POINTS);
        let edge = chance.pick(&[0, 1, 7, 8, POINTS - 2, POINTS - 1]);
        let point = if chance.one_in(5) { edge } else { any };
        let good = chance.one_in(2);
        spoil_point(chance, record, values, point, good);
    }
}

/// The point or reading at t of a frequency or unit record wrong, as a good or as a bad one.
pub fn spoil_t(chance: &mut Chance, kind: Kind, record: &mut [u8], t: usize, good: bool) {
    let values = if kind == Kind::Frequency { &FREQUENCY_VALUES } else { &UNIT_VALUES };
    spoil_point(chance, record, values, t - 1, good);
}

fn spoil_settings(chance: &mut Chance, record: &mut [u8]) {
    match chance.place(3) {
        0 => put(record, 0, 2, chance.pick(&[0, 10_001, 65_535])),
        1 => put(record, 2, 1, chance.pick(&[76, 255])),
        _ => put(record, 3, 1, chance.pick(&[101, 255])),
    }
}

fn spoil_frequency(chance: &mut Chance, record: &mut [u8]) {
    match chance.place(18) {
        0 => record[0] = record[0].wrapping_add(chance.pick(&[1, 255, 128])),
        1 => record[1] = chance.pick(&[2, 3, 255]),
        2 | 3 => spoil_spare(chance, record, 2),
        4 => put(record, 12, 4, beyond(chance, -MEASURE_LIMIT, MEASURE_LIMIT)),
        5 => put(record, 16, 4, beyond(chance, 0, GENERATION_LIMIT)),
        6 | 7 => {
            let value = beyond(chance, RESIDUAL_DEFAULT_LOWEST, 0);
            put(record, 20 + 8 * chance.place(6), 8, value);
        }
        _ => spoil_points(chance, record, &FREQUENCY_VALUES),
    }
}

fn spoil_unit(chance: &mut Chance, record: &mut [u8]) {
    match chance.place(24) {
        0 => record[2] = chance.pick(&[5, 6, 255]),
        1 => record[3] = chance.pick(&[2, 3, 255]),
        2 => put(record, 4, 4, beyond(chance, -POWER_LIMIT, POWER_LIMIT)),
        3 => put(record, 8, 4, beyond(chance, -POWER_LIMIT, POWER_LIMIT)),
        4 | 5 => {
            let value = beyond(chance, UNIT_DEFAULT_LOWEST, 0);
            put(record, 12 + 8 * chance.place(6), 8, value);
        }
        6..=8 => spoil_spare(chance, record, 60),
        // A fault unless it is the first unit.
        9 | 10 => put(record, 0, 2, 0),
        // A fault only where the group stood before.
        11 => record[chance.pick(&[70, 71])] = chance.pick(&[0, 1, 2, 255]),
        _ => spoil_points(chance, record, &UNIT_VALUES),
    }
}

fn spoil_requirement(chance: &mut Chance, record: &mut [u8]) {
    match chance.place(7) {
        // A fault unless it is the first requirement.
        0 => put(record, 0, 2, 0),
        1 => record[2] = chance.pick(&[0, 32, 64, 255]),
        2 => record[3] = chance.pick(&[2, 3, 255]),
        3 => put(record, 4, 4, PRICE_LIMIT + 1 + chance.any_size(1 << 20)),
        4 => put(record, 8, 8, COST_LIMIT + 1 + chance.any_size(1 << 20)),
        5 => put(record, 16, 4, AMOUNT_LIMIT + 1 + chance.any_size(1 << 20)),
        _ => put(record, 20, 4, AMOUNT_LIMIT + 1 + chance.any_size(1 << 20)),
    }
}

/// A fault in a record that is there in full.
pub fn spoil(chance: &mut Chance, kind: Kind, record: &mut [u8]) {
    match kind {
        Kind::Settings => spoil_settings(chance, record),
        Kind::Frequency => spoil_frequency(chance, record),
        Kind::Unit => spoil_unit(chance, record),
        Kind::Requirement => spoil_requirement(chance, record),
    }
}

/// One fault, or two in the same record, whichever of them is tested first.
pub fn spoil_once_or_twice(chance: &mut Chance, kind: Kind, record: &mut [u8]) {
    for _ in 0..chance.pick(&[1, 1, 1, 2]) {
        spoil(chance, kind, record);
    }
}

/// Where the records of a book lie.
struct Layout {
    units: usize,
    requirements: usize,
}

impl Layout {
    fn unit(&self, place: usize) -> usize {
        UNITS_AT + place * UNIT_SIZE
    }

    fn requirement(&self, place: usize) -> usize {
        UNITS_AT + self.units * UNIT_SIZE + place * REQUIREMENT_SIZE
    }

    /// Where the record of a kind begins, and how many of them there are.
    fn body(&self, kind: Kind) -> (usize, usize) {
        match kind {
            Kind::Settings => (CONTENTS_SIZE, 1),
            Kind::Frequency => (FREQUENCIES_AT, REGIONS),
            Kind::Unit => (UNITS_AT, self.units),
            Kind::Requirement => (self.requirement(0), self.requirements),
        }
    }

    /// Every place where a record begins or the book ends.
    fn borders(&self) -> Vec<usize> {
        let mut all = vec![0, 8, CONTENTS_SIZE];
        all.extend((0..=REGIONS).map(|place| FREQUENCIES_AT + place * FREQUENCY_SIZE));
        all.extend((1..=self.units).map(|place| self.unit(place)));
        all.extend((1..=self.requirements).map(|place| self.requirement(place)));
        all
    }
}

/// A field with the values around its limits.
struct Field {
    at: usize,
    width: usize,
    values: Vec<i128>,
}

fn around(at: usize, width: usize, lowest: i128, highest: i128) -> Field {
    Field { at, width, values: vec![lowest - 1, lowest, lowest + 1, highest - 1, highest, highest + 1] }
}

fn put(bytes: &mut [u8], at: usize, width: usize, value: i128) {
    // A later damage can meet a book that an earlier one has cut.
    if at + width <= bytes.len() {
        bytes[at..at + width].copy_from_slice(&value.to_le_bytes()[..width]);
    }
}

fn contents_field(chance: &mut Chance, layout: &Layout) -> Field {
    let entry = chance.place(4);
    let at = 8 + 12 * entry;
    let (lowest, highest, size) = [
        (1, 1, SETTINGS_SIZE),
        (5, 5, FREQUENCY_SIZE),
        (0, UNITS_LIMIT, UNIT_SIZE),
        (1, REQUIREMENTS_LIMIT, REQUIREMENT_SIZE),
    ][entry];
    let items = [1, REGIONS, layout.units, layout.requirements][entry] as i128;
    let offset = [CONTENTS_SIZE, FREQUENCIES_AT, UNITS_AT, layout.requirement(0)][entry] as i128;
    let length = items * size as i128;
    match chance.place(8) {
        0 => Field { at: chance.place(4), width: 1, values: vec![0, 0x45, 0x46, 0x47, 0xFF] },
        1 => around(4, 2, 4, 4),
        2 => Field { at: 6, width: 2, values: vec![1, 256, 65_535] },
        3 => around(at, 2, entry as i128 + 1, entry as i128 + 1),
        4 => around(at + 2, 2, lowest, highest),
        5 => Field { at: at + 2, width: 2, values: vec![items - 1, items + 1, 0, 65_535] },
        6 => Field { at: at + 4, width: 4, values: vec![offset - 1, offset + 1, 0, offset + (1 << 16)] },
        _ => Field { at: at + 8, width: 4, values: vec![length - 1, length + 1, 0, length + (1 << 16)] },
    }
}

fn settings_field(chance: &mut Chance) -> Field {
    let at = CONTENTS_SIZE;
    match chance.place(3) {
        0 => around(at, 2, 1, 10_000),
        1 => around(at + 2, 1, 0, 75),
        _ => around(at + 3, 1, 0, 100),
    }
}

fn frequency_field(chance: &mut Chance) -> Field {
    let region = chance.place(REGIONS);
    let at = FREQUENCIES_AT + region * FREQUENCY_SIZE;
    match chance.place(6) {
        0 => around(at, 1, region as i128, region as i128),
        1 => around(at + 1, 1, 0, 1),
        2 => around(at + 12, 4, -MEASURE_LIMIT, MEASURE_LIMIT),
        3 => around(at + 16, 4, 0, GENERATION_LIMIT),
        4 => around(at + 20 + 8 * chance.place(6), 8, RESIDUAL_DEFAULT_LOWEST, 0),
        _ => {
            let mut field =
                around(at + 68 + 4 * chance.place(POINTS), 4, FREQUENCY_LOWEST, FREQUENCY_HIGHEST);
            field.values.push(0);
            field
        }
    }
}

fn unit_field(chance: &mut Chance, layout: &Layout) -> Field {
    let at = layout.unit(chance.place(layout.units));
    match chance.place(8) {
        0 => around(at, 2, 0, 65_535),
        1 => around(at + 2, 1, 0, 4),
        2 => around(at + 3, 1, 0, 1),
        3 => around(at + 4, 4, -POWER_LIMIT, POWER_LIMIT),
        4 => around(at + 8, 4, -POWER_LIMIT, POWER_LIMIT),
        5 => around(at + 12 + 8 * chance.place(6), 8, UNIT_DEFAULT_LOWEST, 0),
        6 => Field { at: at + 70, width: 2, values: vec![1, 2, 256, 65_535, 0] },
        _ => {
            let mut field = around(at + 72 + 4 * chance.place(POINTS), 4, -POWER_LIMIT, POWER_LIMIT);
            field.values.push(0);
            field
        }
    }
}

fn requirement_field(chance: &mut Chance, layout: &Layout) -> Field {
    let last = layout.requirements - 1;
    let any = chance.place(layout.requirements);
    let at = layout.requirement(chance.pick(&[any, last]));
    match chance.place(7) {
        0 => around(at, 2, 0, 65_535),
        1 => around(at + 2, 1, 1, 31),
        2 => around(at + 3, 1, 0, 1),
        3 => around(at + 4, 4, 0, PRICE_LIMIT),
        4 => around(at + 8, 8, 0, COST_LIMIT),
        5 => around(at + 16, 4, 0, AMOUNT_LIMIT),
        _ => around(at + 20, 4, 0, AMOUNT_LIMIT),
    }
}

fn set_field(chance: &mut Chance, bytes: &mut [u8], field: &Field) {
    let value = chance.pick(&field.values);
    put(bytes, field.at, field.width, value);
}

fn any_field(chance: &mut Chance, bytes: &mut [u8], layout: &Layout) {
    let field = match chance.place(5) {
        0 => contents_field(chance, layout),
        1 => settings_field(chance),
        2 => frequency_field(chance),
        3 if layout.units > 0 => unit_field(chance, layout),
        _ => requirement_field(chance, layout),
    };
    set_field(chance, bytes, &field);
}

fn flip_bit(chance: &mut Chance, bytes: &mut [u8], before: usize) {
    let reach = bytes.len().min(before);
    if reach > 0 {
        bytes[chance.place(reach)] ^= 1 << chance.place(8);
    }
}

fn cut_at_border(chance: &mut Chance, bytes: &mut Vec<u8>, layout: &Layout) {
    let border = chance.pick(&layout.borders()) as i128 + chance.between(-1, 1);
    bytes.truncate(border.max(0) as usize);
}

fn append(chance: &mut Chance, bytes: &mut Vec<u8>) {
    for _ in 0..chance.pick(&[1, 1, 2, 23, 24, 25, 372]) {
        let byte = chance.draw() as u8;
        bytes.push(chance.pick(&[0, byte]));
    }
}

/// Gives a numbered record the number of the next one, or swaps the two.
fn disturb_numbers(chance: &mut Chance, bytes: &mut [u8], first: usize, size: usize, count: usize) {
    if count < 2 {
        return;
    }
    let here = first + size * chance.place(count - 1);
    let next = here + size;
    if next + 2 > bytes.len() {
        return;
    }
    let (a, b) = ([bytes[here], bytes[here + 1]], [bytes[next], bytes[next + 1]]);
    bytes[here..here + 2].copy_from_slice(&b);
    if chance.one_in(2) {
        bytes[next..next + 2].copy_from_slice(&a);
    }
}

/// Another region than this; an earlier damage may have left any byte.
fn next_region(region: u8) -> u8 {
    (region % REGIONS as u8 + 1) % REGIONS as u8
}

/// A unit given the group of the one before or of an earlier one, taken out of its group, moved to another region, or with a default; many of
/// these are refused with 16, and both sides of that are met.
fn disturb_groups(chance: &mut Chance, bytes: &mut [u8], layout: &Layout) {
    if layout.units < 2 || layout.unit(layout.units) > bytes.len() {
        return;
    }
    let place = 1 + chance.place(layout.units - 1);
    let earlier = chance.place(place);
    let at = layout.unit(place);
    let group_at = |place: usize| layout.unit(place) + 70;
    match chance.place(10) {
        0..=2 => bytes.copy_within(group_at(place - 1)..group_at(place - 1) + 2, group_at(place)),
        3..=5 => bytes.copy_within(group_at(earlier)..group_at(earlier) + 2, group_at(place)),
        6 => put(bytes, group_at(place), 2, 0),
        7 => bytes[at + 2] = next_region(bytes[at + 2]),
        _ => {
            let value = chance.pick(&[-1, -1, UNIT_DEFAULT_LOWEST, 0]);
            put(bytes, at + 12 + 8 * chance.place(6), 8, value);
        }
    }
}

/// A fault of a group, and often one more in the same record, which is told first.
fn spoil_group(chance: &mut Chance, bytes: &mut [u8], layout: &Layout) {
    if layout.units < 2 || layout.unit(layout.units) > bytes.len() {
        return;
    }
    let place = 1 + chance.place(layout.units - 1);
    let at = layout.unit(place);
    let any = chance.between(1, 65_535);
    let group = chance.pick(&[1, 2, 255, 256, 65_535, any]);
    let before = if place > 1 && chance.one_in(2) { place - 2 } else { place - 1 };
    put(bytes, layout.unit(before) + 70, 2, group);
    put(bytes, at + 70, 2, group);
    if before + 1 == place && chance.one_in(2) {
        bytes[at + 2] = next_region(bytes[layout.unit(before) + 2]);
    } else if before + 1 == place {
        bytes[at + 2] = bytes[layout.unit(before) + 2];
        put(bytes, at + 12 + 8 * chance.place(6), 8, chance.pick(&[-1, UNIT_DEFAULT_LOWEST]));
    }
    if chance.one_in(3) {
        spoil_unit(chance, &mut bytes[at..at + UNIT_SIZE]);
    }
}

/// Where the quality bytes and the values of a frequency or unit record lie.
fn any_series(chance: &mut Chance, layout: &Layout) -> (usize, usize) {
    if layout.units > 0 && chance.one_in(2) {
        let at = layout.unit(chance.place(layout.units));
        (at + 60, at + 72)
    } else {
        let at = FREQUENCIES_AT + FREQUENCY_SIZE * chance.place(REGIONS);
        (at + 2, at + 68)
    }
}

fn disturb_quality(chance: &mut Chance, bytes: &mut [u8], layout: &Layout) {
    let (quality, values) = any_series(chance, layout);
    if values + 4 * POINTS > bytes.len() {
        return;
    }
    let any = chance.place(POINTS);
    let point = chance.pick(&[0, 7, 8, POINTS - 1, any, any]);
    match chance.place(5) {
        // One of the five spare bits.
        0 => bytes[quality + 9] |= 1 << (3 + chance.place(5)),
        // A mark turned, the value left.
        1 => bytes[quality + point / 8] ^= 1 << (point % 8),
        // A good point's value gone.
        2 => put(bytes, values + 4 * point, 4, 0),
        // A bad point that still holds a value.
        3 => {
            bytes[quality + point / 8] &= !(1 << (point % 8));
            put(bytes, values + 4 * point, 4, chance.pick(&[1, -1, 50_000_000]));
        }
        // A bad point as it should be.
        _ => {
            bytes[quality + point / 8] &= !(1 << (point % 8));
            put(bytes, values + 4 * point, 4, 0);
        }
    }
}

/// A whole record taken out or put in twice, the contents left as they were.
fn shift_records(chance: &mut Chance, bytes: &mut Vec<u8>, layout: &Layout) {
    let (at, size) = if layout.units > 0 && chance.one_in(2) {
        (layout.unit(chance.place(layout.units)), UNIT_SIZE)
    } else {
        (layout.requirement(chance.place(layout.requirements)), REQUIREMENT_SIZE)
    };
    if at + size > bytes.len() {
        return;
    }
    if chance.one_in(2) {
        bytes.drain(at..at + size);
    } else {
        let twice = bytes[at..at + size].to_vec();
        bytes.splice(at..at, twice);
    }
}

/// Faults in one record of the book: any, the first, the second, the fifth or the last of its body.
fn spoil_record(chance: &mut Chance, bytes: &mut [u8], layout: &Layout) {
    let kinds = [Kind::Frequency, Kind::Frequency, Kind::Unit, Kind::Unit, Kind::Unit, Kind::Requirement];
    let drawn = chance.pick(&kinds);
    let kind = if chance.one_in(12) { Kind::Settings } else { drawn };
    let (body, count) = layout.body(kind);
    if count == 0 {
        return;
    }
    let (any, last) = (chance.place(count), count - 1);
    let place = chance.pick(&[any, any, any, 0, 1, 4, last]).min(last);
    let at = body + kind.size() * place;
    // A later damage can meet a book that an earlier one has cut.
    if at + kind.size() <= bytes.len() {
        spoil_once_or_twice(chance, kind, &mut bytes[at..at + kind.size()]);
    }
}

/// Faults in two records, either of which may come first in the book.
fn spoil_two_records(chance: &mut Chance, bytes: &mut [u8], layout: &Layout) {
    spoil_record(chance, bytes, layout);
    spoil_record(chance, bytes, layout);
}

fn damage_once(chance: &mut Chance, bytes: &mut Vec<u8>, layout: &Layout) {
    match chance.place(36) {
        0 => flip_bit(chance, bytes, usize::MAX),
        1 => flip_bit(chance, bytes, FREQUENCIES_AT),
        2..=4 => any_field(chance, bytes, layout),
        5 => {
            let field = contents_field(chance, layout);
            set_field(chance, bytes, &field);
        }
        6 => cut_at_border(chance, bytes, layout),
        7 => {
            let length = chance.place(bytes.len() + 1);
            bytes.truncate(length);
        }
        8 => append(chance, bytes),
        9 => disturb_numbers(chance, bytes, UNITS_AT, UNIT_SIZE, layout.units),
        10 => disturb_numbers(chance, bytes, layout.requirement(0), REQUIREMENT_SIZE, layout.requirements),
        11 => disturb_quality(chance, bytes, layout),
        12 => shift_records(chance, bytes, layout),
        13..=27 => spoil_record(chance, bytes, layout),
        28 | 29 => disturb_groups(chance, bytes, layout),
        30 | 31 => spoil_group(chance, bytes, layout),
        _ => spoil_two_records(chance, bytes, layout),
    }
}

/// One damage, or two or three at once so that the order of the tests matters.
pub fn damage(seed: u64, book: &[u8]) -> Vec<u8> {
    let mut chance = Chance::new(seed);
    let mut bytes = book.to_vec();
    match read_contents(book) {
        Ok(Contents { units, requirements }) => {
            let layout = Layout { units, requirements };
            for _ in 0..chance.pick(&[1, 1, 1, 1, 2, 2, 2, 3]) {
                damage_once(&mut chance, &mut bytes, &layout);
            }
        }
        // Bytes without a table of contents can only be flipped or lengthened.
        Err(_) => {
            flip_bit(&mut chance, &mut bytes, usize::MAX);
            append(&mut chance, &mut bytes);
        }
    }
    bytes
}

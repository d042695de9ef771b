//! Books whose refusal is known beforehand from document 01 and request R-1, with its place and t: every field at and
//! beyond its limits, cuts at every record border, and wrong fields two at a time.

use crate::book::*;
use crate::quantities::*;
use crate::worked::listing_book;
use crate::write::to_bytes;

/// Units and requirements of the small book.
pub const UNITS: usize = 6;
pub const REQUIREMENTS: usize = 6;
const REQUIREMENTS_AT: usize = UNITS_AT + UNITS * UNIT_SIZE;
/// The units and requirements whose fields are tried: the first, the second, the fifth and the last.
pub const PLACES: [usize; 4] = [1, 2, 5, 6];
/// The points and readings that are tried, where not all are.
pub const TS: [usize; 6] = [1, 2, 8, 9, 74, 75];

/// Document 01's listing book with six units and six requirements, numbered from 1, so that there is a first, a second, a
/// fifth and a last record.
pub fn small_book() -> Book {
    let mut book = listing_book();
    for number in 3..=UNITS as i128 {
        book.units.push(Unit { number, ..book.units[1].clone() });
    }
    for number in 2..=REQUIREMENTS as i128 {
        book.requirements.push(Requirement { number, ..book.requirements[0].clone() });
    }
    book
}

/// Some bytes, and what they are refused with; None if they are settled.
pub struct Trial {
    pub name: String,
    pub bytes: Vec<u8>,
    pub refusal: Option<Refusal>,
}

pub fn put(bytes: &mut [u8], at: usize, width: usize, value: i128) {
    bytes[at..at + width].copy_from_slice(&value.to_le_bytes()[..width]);
}

/// Where the frequency record, the unit and the requirement of a place, from 1, begin in the small book.
pub fn frequency_at(place: usize) -> usize {
    FREQUENCIES_AT + FREQUENCY_SIZE * (place - 1)
}

pub fn unit_at(place: usize) -> usize {
    UNITS_AT + UNIT_SIZE * (place - 1)
}

pub fn requirement_at(place: usize) -> usize {
    REQUIREMENTS_AT + REQUIREMENT_SIZE * (place - 1)
}

fn refused(number: u8, place: usize) -> Refusal {
    Refusal { number, place, t: 0 }
}

/// A field of the small book with its limits, and the refusal under and over them.
struct Field {
    name: String,
    at: usize,
    width: usize,
    signed: bool,
    lowest: i128,
    highest: i128,
    under: Refusal,
    over: Refusal,
}

fn unsigned(name: &str, at: usize, width: usize, lowest: i128, highest: i128, refusal: Refusal) -> Field {
    let name = name.to_string();
    Field { name, at, width, signed: false, lowest, highest, under: refusal, over: refusal }
}

fn signed(name: &str, at: usize, width: usize, lowest: i128, highest: i128, refusal: Refusal) -> Field {
    Field { signed: true, ..unsigned(name, at, width, lowest, highest, refusal) }
}

/// The number of the unit or requirement of a place among so many that are numbered from 1: one that is too low is told at
/// its own record, one that is too high at the next.
fn number_field(name: &str, at: usize, number: u8, place: usize, last: usize) -> Field {
    let lowest = if place == 1 { 0 } else { place as i128 };
    let highest = if place == last { 65_535 } else { place as i128 };
    let field = unsigned(name, at, 2, lowest, highest, refused(number, place));
    Field { over: refused(number, place + 1), ..field }
}

fn contents_fields() -> Vec<Field> {
    let mut all: Vec<Field> = MARK
        .iter()
        .enumerate()
        .map(|(at, &byte)| unsigned("mark", at, 1, byte.into(), byte.into(), refused(2, 0)))
        .collect();
    all.push(unsigned("entries", 4, 2, 4, 4, refused(3, 0)));
    all.push(unsigned("zero", 6, 2, 0, 0, refused(3, 0)));
    let bodies = [(1, 56, 8), (2, 64, 1_840), (3, 1_904, 2_232), (4, 4_136, 144)];
    for (kind, offset, length) in bodies {
        let at = 8 + 12 * (kind as usize - 1);
        all.push(unsigned("kind", at, 2, kind, kind, refused(3, 0)));
        all.push(unsigned("offset", at + 4, 4, offset, offset, refused(3, 0)));
        all.push(unsigned("length", at + 8, 4, length, length, refused(3, 0)));
    }
    all.push(unsigned("settings items", 10, 2, 1, 1, refused(5, 0)));
    all.push(unsigned("frequency items", 22, 2, 5, 5, refused(5, 0)));
    all
}

fn settings_fields() -> Vec<Field> {
    vec![
        unsigned("a", 56, 2, 1, 10_000, refused(6, 1)),
        unsigned("limit", 58, 1, 0, 75, refused(6, 1)),
        unsigned("percent", 59, 1, 0, 100, refused(6, 1)),
        unsigned("interval", 60, 4, 0, 4_294_967_295, refused(6, 1)),
    ]
}

fn frequency_fields(ts: &[usize]) -> Vec<Field> {
    let mut all = Vec::new();
    for place in 1..=REGIONS {
        let at = frequency_at(place);
        let region = place as i128 - 1;
        all.push(unsigned("region", at, 1, region, region, refused(71, place)));
        all.push(unsigned("separation", at + 1, 1, 0, 1, refused(71, place)));
        all.push(signed("FM before", at + 12, 4, -5_000_000, 5_000_000, refused(71, place)));
        all.push(unsigned("generation", at + 16, 4, 0, 2_000_000, refused(71, place)));
        for nth in 0..6 {
            let at = at + 20 + 8 * nth;
            all.push(signed("residual default", at, 8, -50_000_000_000_000_000, 0, refused(72, place)));
        }
        for &t in ts {
            let refusal = refused(74, place).at_t(t);
            all.push(unsigned("frequency", at + 64 + 4 * t, 4, 45_000_000, 55_000_000, refusal));
        }
    }
    all
}

fn unit_fields(ts: &[usize]) -> Vec<Field> {
    let mut all = Vec::new();
    for place in PLACES {
        let at = unit_at(place);
        all.push(number_field("unit number", at, 9, place, UNITS));
        all.push(unsigned("unit region", at + 2, 1, 0, 4, refused(81, place)));
        all.push(unsigned("unit kind", at + 3, 1, 0, 1, refused(81, place)));
        all.push(signed("start", at + 4, 4, -100_000, 100_000, refused(81, place)));
        all.push(signed("end", at + 8, 4, -100_000, 100_000, refused(81, place)));
        for nth in 0..6 {
            let at = at + 12 + 8 * nth;
            all.push(signed("unit default", at, 8, -5_625_000_000_000_000, 0, refused(82, place)));
        }
        // Alone in its group a unit may have any number there.
        all.push(unsigned("group", at + 70, 2, 0, 65_535, refused(16, place)));
        all.push(unsigned("group's second byte", at + 71, 1, 0, 255, refused(16, place)));
        for &t in ts {
            let refusal = refused(84, place).at_t(t);
            all.push(signed("reading", at + 68 + 4 * t, 4, -100_000, 100_000, refusal));
        }
    }
    all
}

fn requirement_fields() -> Vec<Field> {
    let mut all = Vec::new();
    for place in PLACES {
        let at = requirement_at(place);
        let refusal = refused(10, place);
        all.push(number_field("requirement number", at, 10, place, REQUIREMENTS));
        all.push(unsigned("region set", at + 2, 1, 1, 31, refusal));
        all.push(unsigned("direction", at + 3, 1, 0, 1, refusal));
        all.push(unsigned("price", at + 4, 4, 0, 10_000_000, refusal));
        all.push(unsigned("cost", at + 8, 8, 0, 1_000_000_000_000, refusal));
        all.push(unsigned("enabled", at + 16, 4, 0, 2_000_000, refusal));
        all.push(unsigned("used", at + 20, 4, 0, 2_000_000, refusal));
    }
    all
}

/// The field's two limits, one beyond each, and the ends of its width.
fn values_around(field: &Field) -> Vec<(i128, Option<Refusal>)> {
    let span = 1i128 << (8 * field.width);
    let first = if field.signed { -span / 2 } else { 0 };
    let last = first + span - 1;
    let mut all = vec![(field.lowest, None), (field.highest, None)];
    if field.lowest > first {
        all.extend([(field.lowest - 1, Some(field.under)), (first, Some(field.under))]);
    }
    if field.highest < last {
        all.extend([(field.highest + 1, Some(field.over)), (last, Some(field.over))]);
    }
    all
}

/// Both sides of every field limit; points and readings at these t.
pub fn limit_trials(ts: &[usize]) -> Vec<Trial> {
    let mut fields = contents_fields();
    fields.extend(settings_fields());
    fields.extend(frequency_fields(ts));
    fields.extend(unit_fields(ts));
    fields.extend(requirement_fields());
    let whole = to_bytes(&small_book());
    let mut all = Vec::new();
    for field in fields {
        for (value, refusal) in values_around(&field) {
            let mut bytes = whole.clone();
            put(&mut bytes, field.at, field.width, value);
            all.push(Trial { name: format!("{} at {} is {value}", field.name, field.at), bytes, refusal });
        }
    }
    all
}

/// The quality bytes and values of a record, with the refusals of its spare bits and of its values.
struct Series {
    quality: usize,
    values: usize,
    spare: Refusal,
    wrong: Refusal,
    /// What a good value of 0 is refused with.
    zero: Option<Refusal>,
}

fn series() -> Vec<Series> {
    let frequency = |place| {
        let at = frequency_at(place);
        let wrong = refused(74, place);
        Series { quality: at + 2, values: at + 68, spare: refused(73, place), wrong, zero: Some(wrong) }
    };
    let unit = |place| {
        let at = unit_at(place);
        let wrong = refused(84, place);
        Series { quality: at + 60, values: at + 72, spare: refused(83, place), wrong, zero: None }
    };
    (1..=REGIONS).map(frequency).chain(PLACES.map(unit)).collect()
}

/// Spare quality bits, values at bad points, and 0 at good ones; at these t.
pub fn quality_trials(ts: &[usize]) -> Vec<Trial> {
    let whole = to_bytes(&small_book());
    let mut all = Vec::new();
    let mut push =
        |name: String, bytes: &[u8], refusal| all.push(Trial { name, bytes: bytes.to_vec(), refusal });
    for Series { quality, values, spare, wrong, zero } in series() {
        for bit in POINTS..80 {
            let mut bytes = whole.clone();
            bytes[quality + bit / 8] |= 1 << (bit % 8);
            push(format!("spare bit {bit} at {quality}"), &bytes, Some(spare));
        }
        for &t in ts {
            let point = t - 1;
            let mut bytes = whole.clone();
            put(&mut bytes, values + 4 * point, 4, 0);
            push(format!("good 0 at t {t} of {values}"), &bytes, zero.map(|refusal| refusal.at_t(t)));
            bytes[quality + point / 8] &= !(1 << (point % 8));
            push(format!("bad 0 at t {t} of {values}"), &bytes, None);
            for value in [1, -1, 50_000_000] {
                put(&mut bytes, values + 4 * point, 4, value);
                push(format!("bad {value} at t {t} of {values}"), &bytes, Some(wrong.at_t(t)));
            }
        }
    }
    all
}

fn sized(units: usize, requirements: usize) -> Vec<u8> {
    let mut book = small_book();
    let (unit, requirement) = (book.units[0].clone(), book.requirements[0].clone());
    book.units = (0..units).map(|place| Unit { number: place as i128, ..unit.clone() }).collect();
    book.requirements =
        (0..requirements).map(|place| Requirement { number: place as i128, ..requirement.clone() }).collect();
    to_bytes(&book)
}

/// Whole books with so many records, and counts that do not fit their lengths.
pub fn count_trials() -> Vec<Trial> {
    let sizes = [
        (0, 1, None),
        (1, 32, None),
        (477, 1, None),
        (511, 31, None),
        (512, 32, None),
        (513, 32, Some(refused(5, 0))),
        (0, 0, Some(refused(5, 0))),
        (512, 0, Some(refused(5, 0))),
        (0, 33, Some(refused(5, 0))),
    ];
    let mut all: Vec<Trial> = sizes
        .into_iter()
        .map(|(units, requirements, refusal)| Trial {
            name: format!("{units} units, {requirements} requirements"),
            bytes: sized(units, requirements),
            refusal,
        })
        .collect();
    // At a count field 5 precedes 3; within its limits it is the length that is wrong.
    let counts = [(2, 513, 5), (2, 65_535, 5), (3, 0, 5), (3, 33, 5), (3, 65_535, 5)];
    let lengths = [(2, 0, 3), (2, 5, 3), (2, 7, 3), (2, 512, 3), (3, 1, 3), (3, 5, 3), (3, 7, 3), (3, 32, 3)];
    for (entry, count, number) in counts.into_iter().chain(lengths) {
        let mut bytes = to_bytes(&small_book());
        put(&mut bytes, 8 + 12 * entry + 2, 2, count);
        let refusal = Some(refused(number, 0));
        all.push(Trial { name: format!("entry {entry} has {count} items"), bytes, refusal });
    }
    all
}

/// The largest book, with one thing wrong at its last places: places past one byte, in the middle of a large body too.
pub fn far_trials() -> Vec<Trial> {
    let (units, requirements) = (512, 32);
    let whole = sized(units, requirements);
    let first_requirement = unit_at(units + 1);
    let mut all = Vec::new();
    let mut push =
        |name: String, bytes: Vec<u8>, refusal| all.push(Trial { name, bytes, refusal: Some(refusal) });
    for place in [1, 2, 5, 255, 256, 257, 477, 511, 512] {
        let at = unit_at(place);
        let mut fields = vec![
            (at + 2, 1, 5, refused(81, place)),
            (at + 52, 8, 1, refused(82, place)),
            (at + 69, 1, 0x87, refused(83, place)),
            (at + 72, 4, 100_001, refused(84, place).at_t(1)),
            (at + 368, 4, -100_001, refused(84, place).at_t(75)),
        ];
        if place > 1 {
            fields.push((at, 2, 0, refused(9, place)));
        }
        for (at, width, value, refusal) in fields {
            let mut bytes = whole.clone();
            put(&mut bytes, at, width, value);
            push(format!("wrong at {at} of the largest book"), bytes, refusal);
        }
        push(format!("the largest book without unit {place}"), resized(&whole, at), refused(1, place));
    }
    for place in [1, 2, 5, 31, 32] {
        let at = first_requirement + REQUIREMENT_SIZE * (place - 1);
        let mut bytes = whole.clone();
        put(&mut bytes, at + 2, 1, 32);
        push(format!("wrong at {at} of the largest book"), bytes, refused(10, place));
        push(format!("the largest book without requirement {place}"), resized(&whole, at), refused(1, place));
    }
    push(
        "a byte after the largest book".to_string(),
        resized(&whole, whole.len() + 1),
        refused(4, requirements),
    );
    all
}

/// The small book's units in these groups, without defaults but for the first.
fn in_groups(groups: [i128; UNITS]) -> Book {
    let mut book = small_book();
    for (unit, group) in book.units.iter_mut().zip(groups) {
        unit.group = group;
    }
    book.units[1..].iter_mut().for_each(|unit| unit.defaults = [0; 6]);
    book
}

/// Both sides of each case of refusal 16: groups that return and such that do not, regions and defaults of every unit of a group.
pub fn group_trials() -> Vec<Trial> {
    let mut all = Vec::new();
    let mut push = |name: String, book: &Book, place: usize| {
        let refusal = (place > 0).then(|| refused(16, place));
        all.push(Trial { name, bytes: to_bytes(book), refusal });
    };
    let rosters = [
        ([7, 7, 7, 7, 7, 7], 0),
        ([7, 7, 0, 9, 9, 9], 0),
        ([7, 7, 8, 8, 9, 9], 0),
        ([9, 8, 7, 6, 5, 4], 0),
        ([0, 0, 0, 0, 65_535, 65_535], 0),
        ([1, 256, 257, 512, 2, 0], 0),
        ([7, 0, 7, 0, 0, 0], 3),
        ([7, 9, 7, 0, 0, 0], 3),
        ([7, 7, 0, 0, 0, 7], 6),
        ([0, 7, 9, 9, 9, 7], 6),
        ([7, 9, 0, 9, 7, 0], 4),
        ([65_535, 1, 1, 1, 65_535, 1], 5),
    ];
    for (groups, place) in rosters {
        push(format!("groups {groups:?}"), &in_groups(groups), place);
    }
    let groups = [0, 7, 7, 7, 9, 9];
    for place in 2..=UNITS {
        let is_primary = groups[place - 1] != groups[place - 2];
        let mut book = in_groups(groups);
        book.units[place - 1].region = 3;
        // Behind a primary in another region the next one is wrong.
        push(
            format!("another region at unit {place} of groups"),
            &book,
            if is_primary { place + 1 } else { place },
        );
        for default in 0..6 {
            let mut book = in_groups(groups);
            book.units[place - 1].defaults[default] = -1;
            push(
                format!("default {default} at unit {place} of groups"),
                &book,
                if is_primary { 0 } else { place },
            );
        }
    }
    for (group, place) in [(0, 0), (1, 512), (255, 512), (256, 0), (512, 0)] {
        let mut book = in_groups([0; UNITS]);
        let unit = book.units[1].clone();
        let group_of = |number: usize| if number == 512 { group } else { number.div_ceil(2) as i128 };
        book.units = (1..=512)
            .map(|number| Unit { number: number as i128, group: group_of(number), ..unit.clone() })
            .collect();
        push(format!("the last of 512 units in group {group}"), &book, place);
    }
    all
}

/// What is written over a record so that it is refused: place in the bytes, width and value of each.
struct Wrong {
    puts: Vec<(usize, usize, i128)>,
    refusal: Refusal,
}

impl Wrong {
    fn at(&self) -> usize {
        self.puts[0].0
    }

    fn spoil(&self, bytes: &mut [u8]) {
        for &(at, width, value) in &self.puts {
            put(bytes, at, width, value);
        }
    }
}

fn wrong(at: usize, width: usize, value: i128, refusal: Refusal) -> Wrong {
    Wrong { puts: vec![(at, width, value)], refusal }
}

fn wrong_contents() -> Vec<Wrong> {
    let mut all = vec![
        wrong(0, 1, 0, refused(2, 0)),
        wrong(3, 1, 0x32, refused(2, 0)),
        wrong(4, 2, 5, refused(3, 0)),
        wrong(6, 2, 1, refused(3, 0)),
    ];
    for (entry, count) in [(0, 2), (1, 6), (2, 513), (3, 33)] {
        let at = 8 + 12 * entry;
        all.push(wrong(at, 2, 9, refused(3, 0)));
        all.push(wrong(at + 2, 2, count, refused(5, 0)));
        all.push(wrong(at + 4, 4, 1, refused(3, 0)));
        all.push(wrong(at + 8, 4, 1, refused(3, 0)));
    }
    all
}

fn wrong_settings() -> Vec<Wrong> {
    [(56, 2, 0), (58, 1, 76), (59, 1, 101)]
        .map(|(at, width, value)| wrong(at, width, value, refused(6, 1)))
        .into()
}

/// Points that are wrong in a record whose points are all good, in rising t: good ones out of range, and at t 2 and t 9,
/// the second of one quality byte and the first of another, bad ones that hold a value.
fn wrong_points(quality: usize, values: usize, good_but: i128, refusal: Refusal) -> Vec<Wrong> {
    let value_at = |t: usize| values + 4 * (t - 1);
    TS.into_iter()
        .map(|t| match t {
            2 => Wrong { puts: vec![(quality, 1, 0xFD), (value_at(2), 4, 1)], refusal: refusal.at_t(2) },
            9 => Wrong { puts: vec![(quality + 1, 1, 0xFE), (value_at(9), 4, 1)], refusal: refusal.at_t(9) },
            t => wrong(value_at(t), 4, good_but, refusal.at_t(t)),
        })
        .collect()
}

fn wrong_frequency(place: usize) -> Vec<Wrong> {
    let at = frequency_at(place);
    let mut all = vec![
        wrong(at, 1, place as i128, refused(71, place)),
        wrong(at + 1, 1, 2, refused(71, place)),
        wrong(at + 11, 1, 0x0F, refused(73, place)),
        wrong(at + 12, 4, 5_000_001, refused(71, place)),
        wrong(at + 16, 4, 2_000_001, refused(71, place)),
        wrong(at + 20, 8, 1, refused(72, place)),
        wrong(at + 60, 8, 1, refused(72, place)),
    ];
    all.extend(wrong_points(at + 2, at + 68, 55_000_001, refused(74, place)));
    all
}

fn wrong_unit(place: usize) -> Vec<Wrong> {
    let at = unit_at(place);
    let mut all = vec![
        wrong(at + 2, 1, 5, refused(81, place)),
        wrong(at + 3, 1, 2, refused(81, place)),
        wrong(at + 4, 4, 100_001, refused(81, place)),
        wrong(at + 8, 4, -100_001, refused(81, place)),
        wrong(at + 12, 8, 1, refused(82, place)),
        wrong(at + 52, 8, 1, refused(82, place)),
        wrong(at + 69, 1, 0x0F, refused(83, place)),
        wrong(at + 69, 1, 0x87, refused(83, place)),
    ];
    all.extend(wrong_points(at + 60, at + 72, 100_001, refused(84, place)));
    if place > 1 {
        // Number 0 does not rise: first in the record, tested after all of it.
        all.push(wrong(at, 2, 0, refused(9, place)));
        all.extend(wrong_group(place));
    }
    all
}

/// What makes a unit's group wrong, tested last of all: it joins the group of the unit before with a default or in another
/// region, or returns to a group that was left.
fn wrong_group(place: usize) -> Vec<Wrong> {
    // None of the small book's units has a group; those of two faults are different ones.
    let (joined, left) = (512 + place as i128, 768 + place as i128);
    let group_of = |place: usize, group: i128| (unit_at(place) + 70, 2, group);
    let of = |group: i128, more: Vec<(usize, usize, i128)>| {
        let puts = [vec![group_of(place, group)], more].concat();
        Wrong { puts, refusal: refused(16, place) }
    };
    // The units of the small book hold a default; without it the region of the unit before is wrong alone.
    let no_default = (unit_at(place) + 28, 8, 0);
    let mut all = vec![
        of(joined, vec![group_of(place - 1, joined), no_default, (unit_at(place - 1) + 2, 1, 4)]),
        of(joined, vec![group_of(place - 1, joined)]),
    ];
    if place > 2 {
        all.push(of(left, vec![group_of(place - 2, left)]));
    }
    all
}

fn wrong_requirement(place: usize) -> Vec<Wrong> {
    let at = requirement_at(place);
    let mut fields = vec![
        (at + 2, 1, 0),
        (at + 3, 1, 2),
        (at + 4, 4, 10_000_001),
        (at + 8, 8, 1_000_000_000_001),
        (at + 16, 4, 2_000_001),
        (at + 20, 4, 2_000_001),
    ];
    if place > 1 {
        fields.push((at, 2, 0));
    }
    fields.into_iter().map(|(at, width, value)| wrong(at, width, value, refused(10, place))).collect()
}

/// The wrong fields of each record, in the order in which they are tested.
fn wrongs() -> Vec<Vec<Wrong>> {
    let mut all = vec![wrong_contents(), wrong_settings()];
    all.extend((1..=REGIONS).map(wrong_frequency));
    all.extend(PLACES.map(wrong_unit));
    all.extend(PLACES.map(wrong_requirement));
    all
}

/// Of each record after the settings the first and the last that is tested.
fn few_wrongs() -> Vec<Wrong> {
    let mut few = Vec::new();
    for (nth, mut record) in wrongs().into_iter().enumerate() {
        if nth > 1 {
            record.drain(1..record.len() - 1);
        }
        few.extend(record);
    }
    few
}

/// Of two wrong fields the one that is tested earlier is named.
fn pairs(wrongs: &[Wrong]) -> Vec<Trial> {
    let whole = to_bytes(&small_book());
    let mut all = Vec::new();
    for (nth, earlier) in wrongs.iter().enumerate() {
        for later in &wrongs[nth + 1..] {
            let mut bytes = whole.clone();
            earlier.spoil(&mut bytes);
            later.spoil(&mut bytes);
            let name = format!("wrong at {} and at {}", earlier.at(), later.at());
            all.push(Trial { name, bytes, refusal: Some(earlier.refusal) });
        }
    }
    all
}

/// Every two wrong fields of one record, and fields of every two records.
pub fn order_trials() -> Vec<Trial> {
    let mut all = pairs(&few_wrongs());
    for record in wrongs().into_iter().skip(2) {
        all.extend(pairs(&record));
    }
    all
}

/// Where each of the small book's records ends, and the place of the record; the table of contents first, which has none.
fn record_ends() -> Vec<(usize, usize)> {
    let mut ends = vec![(CONTENTS_SIZE, 0), (FREQUENCIES_AT, 1)];
    ends.extend((1..=REGIONS).map(|place| (frequency_at(place + 1), place)));
    ends.extend((1..=UNITS).map(|place| (unit_at(place + 1), place)));
    ends.extend((1..=REQUIREMENTS).map(|place| (requirement_at(place + 1), place)));
    ends
}

/// What the small book of this length is refused with, if nothing else is wrong: the first record that does not end
/// within it, or bytes after the last.
pub fn cut_refusal(length: usize) -> Option<Refusal> {
    let ends = record_ends();
    let &(last, _) = ends.last().expect("a last record");
    match ends.into_iter().find(|&(end, _)| end > length) {
        Some((_, place)) => Some(refused(1, place)),
        None if length > last => Some(refused(4, REQUIREMENTS)),
        None => None,
    }
}

/// The bytes cut or lengthened to a length.
fn resized(bytes: &[u8], length: usize) -> Vec<u8> {
    let mut bytes = bytes.to_vec();
    bytes.resize(length, 0);
    bytes
}

/// Cuts at and around every record border; alone each is 1, or 4 past the end.
pub fn cut_trials() -> Vec<Trial> {
    let whole = to_bytes(&small_book());
    let mut lengths = vec![0, 1, 7, 8, 9];
    lengths.extend(record_ends().iter().flat_map(|&(end, _)| [end - 1, end, end + 1]));
    lengths.extend([whole.len() + 24, whole.len() + 372, whole.len() + 5_000]);
    lengths
        .into_iter()
        .map(|length| Trial {
            name: format!("length {length}"),
            bytes: resized(&whole, length),
            refusal: cut_refusal(length),
        })
        .collect()
}

/// A record cut short is 1 whatever its visible bytes; a wrong field of a record
/// that is there in full is named before a later cut, and before bytes that follow.
fn cut_and_wrong(wrongs: &[Wrong], every_border: bool) -> Vec<Trial> {
    let ends: Vec<usize> = record_ends().into_iter().map(|(end, _)| end).collect();
    let last = *ends.last().expect("a last record");
    let mut all = Vec::new();
    for wrong in wrongs {
        let at = wrong.at();
        let mut whole = to_bytes(&small_book());
        wrong.spoil(&mut whole);
        let end = *ends.iter().find(|&&end| at < end).expect("a record that holds the field");
        let borders = if every_border { ends.clone() } else { vec![end, last] };
        for length in borders.into_iter().flat_map(|border| [border - 1, border, border + 1]) {
            let refusal = if length < end { cut_refusal(length) } else { Some(wrong.refusal) };
            all.push(Trial {
                name: format!("wrong at {at}, length {length}"),
                bytes: resized(&whole, length),
                refusal,
            });
        }
    }
    all
}

/// Every wrong field, with a cut at every border.
pub fn cut_and_wrong_trials() -> Vec<Trial> {
    wrongs().iter().flat_map(|record| cut_and_wrong(record, true)).collect()
}

/// Everything, with the series at a few points and the cuts at a few borders only.
pub fn all() -> Vec<Trial> {
    let mut all = limit_trials(&TS);
    all.extend(quality_trials(&TS));
    all.extend(count_trials());
    all.extend(far_trials());
    all.extend(group_trials());
    all.extend(order_trials());
    all.extend(cut_trials());
    all.extend(cut_and_wrong(&few_wrongs(), false));
    all
}

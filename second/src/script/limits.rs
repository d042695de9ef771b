//! Every limit once, on a book that is taken honestly, so that a call differs from an honest one in just the
//! one thing: each list a number short, exact and longer; each lent number on both sides of its limits; each
//! region's interval number wrong alone; each record with faults of every sort in its fields, at every t.

use std::io::Write;

use super::{span, ungrouped, Made, Script};
use crate::book::CONTENTS_SIZE;
use crate::boundary::*;
use crate::damage::{spoil_once_or_twice, spoil_t, Kind};
use crate::make::make;
use crate::quantities::*;

const UNITS: usize = 5;
const REQUIREMENT: usize = 1 + REGIONS + UNITS;
/// Faults that are drawn for each record.
const FAULTS: usize = 30;
/// The five frequency records and the five units have so many t each, all 75 together.
const TS_OF_A_RECORD: usize = POINTS / REGIONS;

/// A call, and the bytes that it would take.
pub(super) struct Honest {
    pub(super) kind: &'static str,
    pub(super) part: Vec<u8>,
}

/// A lent number that is another for one call.
pub(super) type Off = (&'static str, usize, i128);

fn interval_off(region: usize, number: i128) -> Off {
    ("figures", FIGURES_OF_A_REGION * region, number)
}

impl<W: Write> Script<W> {
    /// All that is lent as it was, the lengths too.
    fn restore(&mut self, before: &Lent) {
        for (name, ..) in NAMES {
            let (was, is) = (before.list(name), self.caller.lent.list(name).clone());
            let differs = |place: &usize| was.numbers[*place] != is.numbers[*place];
            if let Some(first) = (0..was.numbers.len()).find(differs) {
                let last = (0..was.numbers.len()).rfind(differs).unwrap_or(first);
                self.put(name, first, &was.numbers[first..=last]);
            }
            if was.lent != is.lent {
                self.say(format!("lend {name} {}", was.lent));
            }
        }
    }

    /// One call with some lent numbers off and so many bytes, and everything as it was before.
    pub(super) fn cut_trial(&mut self, honest: &Honest, what: &str, off: &[Off], bytes: usize) {
        let before = self.caller.lent.clone();
        for &(name, place, number) in off {
            self.put(name, place, &[number]);
        }
        let reply = self.call(honest.kind, &honest.part[..bytes.min(honest.part.len())]);
        self.meet(format!("{}: {what}", honest.kind), reply);
        self.restore(&before);
    }

    pub(super) fn trial(&mut self, honest: &Honest, what: &str, off: &[Off]) {
        self.cut_trial(honest, what, off, honest.part.len());
    }

    /// Both limits of a lent number, one past each, and the ends of its type.
    pub(super) fn around(
        &mut self,
        honest: &Honest,
        what: &str,
        at: (&'static str, usize),
        limits: (i128, i128),
    ) {
        let (name, place) = at;
        let (lowest, highest) = limits;
        let (first, last) = span(name);
        for number in [lowest, highest] {
            self.trial(honest, &format!("{what} at a limit"), &[(name, place, number)]);
        }
        for number in [lowest - 1, highest + 1, first, last] {
            if (first..=last).contains(&number) && !(lowest..=highest).contains(&number) {
                self.trial(honest, &format!("{what} past a limit"), &[(name, place, number)]);
            }
        }
    }

    /// A lent measure: its limits, and the highest of a kept point and the lowest of a dropped one, between which no
    /// number is missing.
    fn around_measure(&mut self, honest: &Honest, place: usize) {
        self.around(honest, "a measure", ("measures", place), (-MEASURE_LIMIT, LENT_MEASURE_HIGHEST));
        let inner = [
            ("the highest kept", MEASURE_LIMIT),
            ("the lowest dropped", MEASURE_LIMIT + 1),
            ("a dropped 0", DROPPED),
            ("a dropped 1", DROPPED + 1),
            ("a dropped -1", DROPPED - 1),
        ];
        for (what, number) in inner {
            self.trial(honest, &format!("a measure, {what}"), &[("measures", place, number)]);
        }
    }

    /// A lent number that the call has nothing to do with may be any.
    pub(super) fn unread(&mut self, honest: &Honest, what: &str, name: &'static str, place: usize) {
        let (first, last) = span(name);
        for number in [first, last] {
            self.trial(honest, &format!("{what} of any size"), &[(name, place, number)]);
        }
    }

    pub(super) fn lengths(&mut self, honest: &Honest) {
        let tally = Tally::from_words(&self.tally_words());
        for &name in lists_of(honest.kind) {
            let least = length_for(honest.kind, name, &tally);
            let before = self.caller.lent.clone();
            for (what, length) in [("one short", least - 1), ("exact", least), ("one longer", least + 1)] {
                self.say(format!("lend {name} {length}"));
                self.trial(honest, &format!("{name} {what}"), &[]);
            }
            // A lent number out of range, and a part that ends early, are told of only where all lists are long.
            self.say(format!("lend {name} {}", least - 1));
            self.trial(honest, &format!("{name} short and a number off"), &[interval_off(0, -1)]);
            if honest.kind != "member" {
                self.cut_trial(honest, &format!("{name} short and no bytes"), &[], 0);
            }
            self.restore(&before);
        }
    }

    /// The interval number of each region alone, wrong in every way, and all five with the tally's own.
    fn intervals(&mut self, honest: &Honest) {
        let interval = self.tally_words()[7];
        let width = 1 << 32;
        for region in 0..REGIONS {
            let wrong = [
                ("0", 0),
                ("the last", width - 1),
                ("one less", interval - 1),
                ("one more", interval + 1),
                ("-1", -1),
                ("negative", -interval),
                ("over 32 bits", interval + width),
                ("under 0 by 32 bits", interval - width),
                ("the lowest of 64 bits", i64::MIN as i128),
                ("the highest of 64 bits", i64::MAX as i128),
            ];
            for (what, number) in wrong {
                let what = format!("interval number {what} in region {region}");
                self.trial(honest, &what, &[interval_off(region, number)]);
            }
            if honest.kind != "member" {
                for bytes in [0, 2, honest.part.len() - 1] {
                    let what = format!("interval number wrong in region {region}, part cut");
                    self.cut_trial(honest, &what, &[interval_off(region, interval + width)], bytes);
                }
            }
        }
        self.intervals_of_all(honest, interval);
    }

    fn intervals_of_all(&mut self, honest: &Honest, interval: i128) {
        let width = 1 << 32;
        let all = |number: i128| (0..REGIONS).map(move |region| interval_off(region, number));
        for (what, number) in [("0", 0), ("the last", width - 1), ("one more", interval + 1)] {
            let off: Vec<Off> = all(number).chain([("tally", 7, number)]).collect();
            self.trial(honest, &format!("interval number {what} in the tally and all regions"), &off);
            self.trial(honest, &format!("interval number {what} in the tally alone"), &off[REGIONS..]);
            self.trial(honest, &format!("interval number {what} in all regions"), &off[..REGIONS]);
        }
        for number in [interval + width, interval - width] {
            let off: Vec<Off> = all(number).collect();
            self.trial(honest, "interval number past 32 bits in all regions", &off);
        }
    }

    /// A frequency record reads no lent number.
    fn frequency_limits(&mut self, honest: &Honest) {
        self.lengths(honest);
        for region in 0..REGIONS {
            self.unread(honest, "interval number", "figures", FIGURES_OF_A_REGION * region);
        }
        let (measure, sum) = (self.chance.place(SERIES), self.chance.place(SUMS_OF_A_REGION * REGIONS));
        self.unread(honest, "a measure", "measures", measure);
        self.unread(honest, "a sum", "sums", sum);
    }

    /// A unit reads the interval numbers, and the measures and sums of its region.
    fn unit_limits(&mut self, honest: &Honest, taken: usize) {
        self.lengths(honest);
        self.intervals(honest);
        let region = usize::from(honest.part[2]);
        let other = (region + 1 + self.chance.place(REGIONS - 1)) % REGIONS;
        let limit = DEVIATION_LIMIT * taken as i128;
        for point in [0, self.chance.place(POINTS), POINTS - 1] {
            let measure = POINTS * region + point;
            self.around_measure(honest, measure);
            self.unread(honest, "a measure elsewhere", "measures", POINTS * other + point);
            for (what, half) in [("above", 0), ("below", POINTS)] {
                let sum = SUMS_OF_A_REGION * region + half + point;
                self.around(honest, &format!("a sum {what}"), ("sums", sum), (-limit, limit));
                self.unread(honest, "a sum elsewhere", "sums", SUMS_OF_A_REGION * other + half + point);
            }
        }
        // Without its third byte a part names no region; a region that there is not has no numbers.
        let off = [("measures", POINTS * region, LENT_MEASURE_HIGHEST + 1)];
        self.cut_trial(honest, "a measure off, two bytes", &off, 2);
        self.cut_trial(honest, "a measure off, three bytes", &off, 3);
        let mut nowhere = Honest { kind: honest.kind, part: honest.part.clone() };
        nowhere.part[2] = self.chance.between(5, 255) as u8;
        self.trial(&nowhere, "a measure off, no such region", &off);
        self.trial(&nowhere, "an interval number off, no such region", &[interval_off(other, -1)]);
        for field in 1..FIGURES_OF_A_REGION {
            self.unread(honest, "a figure", "figures", FIGURES_OF_A_REGION * region + field);
        }
        let lists = [
            ("numbers", UNITS),
            ("homes", UNITS),
            ("rows", NUMBERS_OF_A_ROW * UNITS),
            ("groups", UNITS),
            ("deviations", POINTS),
        ];
        for (name, places) in lists {
            let place = self.chance.place(places);
            self.unread(honest, name, name, place);
        }
    }

    /// An answer reads all of measures, sums and figures, and the homes and rows of the units that there are.
    fn answer_limits(&mut self, honest: &Honest) {
        self.lengths(honest);
        self.intervals(honest);
        for region in 0..REGIONS {
            self.answer_limits_of_a_region(honest, region);
        }
        for row in [0, UNITS - 1] {
            self.around(honest, "a home", ("homes", row), (0, PASSED_OVER));
            for field in 0..NUMBERS_OF_A_ROW {
                let (what, limits) = match field {
                    0 | 1 => ("a performance", (-PERFORMANCE_LIMIT, PERFORMANCE_LIMIT)),
                    _ => ("a default", (UNIT_DEFAULT_LOWEST, 0)),
                };
                self.around(honest, what, ("rows", NUMBERS_OF_A_ROW * row + field), limits);
            }
        }
        self.unread(honest, "a home past the last unit", "homes", UNITS);
        self.unread(honest, "a row past the last unit", "rows", NUMBERS_OF_A_ROW * UNITS);
        let off = [("measures", SERIES - 1, LENT_MEASURE_HIGHEST + 1)];
        self.cut_trial(honest, "a measure off, no bytes", &off, 0);
    }

    fn answer_limits_of_a_region(&mut self, honest: &Honest, region: usize) {
        let limit = DEVIATION_LIMIT * UNITS as i128;
        for point in [0, POINTS - 1] {
            let measure = POINTS * region + point;
            self.around_measure(honest, measure);
            for (what, half) in [("above", 0), ("below", POINTS)] {
                let sum = SUMS_OF_A_REGION * region + half + point;
                let left = limit - self.other_sums(sum);
                self.around(honest, &format!("a sum {what}"), ("sums", sum), (-left, left));
            }
        }
        for field in 1..FIGURES_OF_A_REGION {
            let (what, limits) = match field {
                1 => ("a generation", (0, GENERATION_LIMIT)),
                2 => ("raise reliable", (0, 1)),
                3 => ("lower reliable", (0, 1)),
                _ => ("a residual's default", (RESIDUAL_DEFAULT_LOWEST, 0)),
            };
            self.around(honest, what, ("figures", FIGURES_OF_A_REGION * region + field), limits);
        }
    }

    /// A row's member: the interval numbers, the row's home, and the home's reliability in the direction asked.
    fn member_limits(&mut self, row: usize, direction: usize) {
        let words = [row as u32, direction as u32, 31];
        let honest = &Honest { kind: "member", part: words.map(u32::to_le_bytes).concat() };
        self.lengths(honest);
        self.intervals(honest);
        let region = self.caller.lent.list("homes").numbers[row] as usize / 2;
        let other = (region + 1 + self.chance.place(REGIONS - 1)) % REGIONS;
        let own = FIGURES_OF_A_REGION * region;
        self.around(honest, "its home", ("homes", row), (0, PASSED_OVER));
        self.unread(honest, "another home", "homes", (row + 1) % UNITS);
        self.around(honest, "its reliability", ("figures", own + 2 + direction), (0, 1));
        self.unread(honest, "reliability the other way", "figures", own + 3 - direction);
        self.unread(honest, "reliability elsewhere", "figures", FIGURES_OF_A_REGION * other + 2 + direction);
        for field in [1, 4, 5, 6, 7, 8, 9] {
            self.unread(honest, "another figure", "figures", own + field);
        }
        self.unread(honest, "a number", "numbers", row);
    }

    /// The record whose turn it is with a fault or two, with no bytes at all, and with the number 0 where it has a number;
    /// then each of its share of the 75 points wrong alone, a good one and a bad one.
    fn faults(&mut self, honest: &Honest, place: usize) {
        let kind = Kind::named(honest.kind).expect("a record");
        for _ in 0..FAULTS {
            let mut part = honest.part.clone();
            spoil_once_or_twice(&mut self.chance, kind, &mut part);
            self.trial(&Honest { kind: honest.kind, part }, "a fault", &[]);
        }
        self.cut_trial(honest, "no bytes", &[], 0);
        if kind == Kind::Unit || kind == Kind::Requirement {
            let part = [&[0, 0], &honest.part[2..]].concat();
            self.trial(&Honest { kind: honest.kind, part }, "number 0", &[]);
        }
        if kind == Kind::Frequency || kind == Kind::Unit {
            for t in (1..=POINTS).filter(|t| (t - 1) / TS_OF_A_RECORD == place - 1) {
                for good in [true, false] {
                    let mut part = honest.part.clone();
                    spoil_t(&mut self.chance, kind, &mut part, t, good);
                    self.trial(&Honest { kind: honest.kind, part }, "a point", &[]);
                }
            }
        }
    }

    pub(super) fn limits(&mut self) {
        let class = self.chance.pick(&ungrouped());
        let mut book = make(self.chance.draw(), class, Some(UNITS)).expect("a class of the list");
        // So far from both ends that every wrong number is another one.
        book.settings.interval = self.chance.between(2, u32::MAX as i128 - 2);
        let made = Made::of(&book);
        self.lend_all(UNITS, &[1, 5]);
        self.call("contents", &made.bytes[..CONTENTS_SIZE]);
        let frequency = 1 + self.chance.place(REGIONS);
        let taken = 1 + self.chance.place(UNITS - 1);
        for records in 0..REQUIREMENT {
            let (start, size, kind) = made.record(records);
            let honest = Honest { kind, part: made.bytes[start..start + size].to_vec() };
            let place = Tally::from_words(&self.tally_words()).place_of_next(kind);
            self.faults(&honest, place);
            if records == frequency {
                self.frequency_limits(&honest);
            } else if records == 1 + REGIONS + taken {
                self.unit_limits(&honest, taken);
            }
            self.call(kind, &honest.part);
        }
        if self.answers {
            let (start, size, _) = made.record(REQUIREMENT);
            let part = made.bytes[start..start + size].to_vec();
            self.answer_limits(&Honest { kind: "answer", part });
            for direction in [0, 1] {
                let row = self.chance.place(UNITS);
                self.member_limits(row, direction);
            }
        }
        for records in REQUIREMENT..made.records() {
            let (start, size, kind) = made.record(records);
            let honest = Honest { kind, part: made.bytes[start..start + size].to_vec() };
            let place = Tally::from_words(&self.tally_words()).place_of_next(kind);
            self.faults(&honest, place);
            let longer = [&honest.part[..], &[0]].concat();
            self.trial(&Honest { kind, part: longer }, "a byte behind", &[]);
            self.call(kind, &honest.part);
        }
    }
}

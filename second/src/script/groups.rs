//! Groups in a script: every limit of the lent numbers that a unit reads when it joins a group, each fault within a group, and runs
//! that are refused at every place of a book of groups.

use std::io::Write;

use super::limits::{Honest, Off};
use super::{ungrouped, Made, Script};
use crate::book::*;
use crate::boundary::*;
use crate::chance::Chance;
use crate::groups::{join, Spread};
use crate::make::make;
use crate::quantities::*;
use crate::sweep::put;

/// The units of the small book: one alone in its group, a group of four, an ungrouped one, one alone in its group.
const GROUPS: [i128; 7] = [300, 7, 7, 7, 7, 0, 9];
/// The rows that join the group of four.
const JOINING: [usize; 3] = [2, 3, 4];
/// The region of the group: its home is the highest that there is.
const REGION: usize = REGIONS - 1;

/// What is wrong with a unit that joins: at, width and value of a field, and what it is refused with.
const WRONG: [(&str, usize, usize, i128, u8); 8] = [
    ("no such region", 2, 1, 5, 81),
    ("a start out of range", 4, 4, 100_001, 81),
    ("a default above 0", 12, 8, 1, 82),
    ("a spare bit", 69, 1, 0x0F, 83),
    ("a reading out of range", 368, 4, 100_001, 84),
    ("a number that does not rise", 0, 2, 0, 9),
    ("another region", 2, 1, 1, 16),
    ("a default", 52, 8, -1, 16),
];

pub(super) fn group_of(record: &[u8]) -> i128 {
    i128::from(record[70]) + 256 * i128::from(record[71])
}

fn spoilt(honest: &Honest, at: usize, width: usize, value: i128) -> Honest {
    let mut part = honest.part.clone();
    put(&mut part, at, width, value);
    Honest { kind: honest.kind, part }
}

/// The book of `GROUPS`; the first two of the group are good, the third is bad every second time.
fn book_of_groups(chance: &mut Chance) -> Book {
    let class = chance.pick(&ungrouped());
    let mut book = make(chance.draw(), class, Some(GROUPS.len())).expect("a class of the list");
    book.settings.interval = chance.between(2, u32::MAX as i128 - 2);
    for (unit, group) in book.units.iter_mut().zip(GROUPS) {
        unit.group = group;
    }
    for row in 1..=4 {
        book.units[row].region = REGION;
        book.units[row].good = [true; POINTS];
    }
    for row in JOINING {
        book.units[row].defaults = [0; 6];
    }
    if chance.one_in(2) {
        let point = chance.place(POINTS);
        (book.units[3].good[point], book.units[3].readings[point]) = (false, 0);
    }
    book
}

impl<W: Write> Script<W> {
    /// The home before a unit that joins: its own region's, good or bad; another region's; none.
    fn homes_before(&mut self, honest: &Honest, before: usize) {
        for home in 0..=255 {
            let what = match home / 2 {
                region if region == REGION as i128 => "its own",
                region if region < REGION as i128 => "another region's",
                _ if [10, 11, 12, 127, 128, 254, 255].contains(&home) => "none",
                _ => continue,
            };
            self.trial(honest, &format!("joining, the home before is {what}"), &[("homes", before, home)]);
        }
    }

    /// Every lent number that a unit reads when it joins, on both sides of its limits, and those that it does not read.
    fn joining_limits(&mut self, honest: &Honest, taken: usize) {
        let before = taken - 1;
        let row = NUMBERS_OF_A_ROW * before;
        self.homes_before(honest, before);
        let most = PERFORMANCE_LIMIT * taken as i128;
        for field in 0..NUMBERS_OF_A_ROW {
            let (what, limits) = match field {
                0 | 1 => ("joining, a performance before", (-most, most)),
                _ => ("joining, a default before", (UNIT_DEFAULT_LOWEST, 0)),
            };
            self.around(honest, what, ("rows", row + field), limits);
        }
        let most = DEVIATION_LIMIT * taken as i128;
        for point in [0, self.chance.place(POINTS), POINTS - 1] {
            self.around(honest, "joining, a deviation", ("deviations", point), (-most, most));
        }
        self.unread(honest, "joining, a number before", "numbers", before);
        self.unread(honest, "joining, a home further before", "homes", before - 1);
        self.unread(honest, "joining, a row further before", "rows", row - 1);
        self.unread(honest, "joining, the first group", "groups", 0);
        self.unread(honest, "joining, its own home", "homes", taken);
        self.unread(honest, "joining, its own group", "groups", taken);
    }

    /// A record that names the group of the unit before is held to the group's numbers whatever else is wrong with it.
    fn wrong_and_joining(&mut self, honest: &Honest, taken: usize) {
        let off: [Off; 4] = [
            ("homes", taken - 1, PASSED_OVER),
            ("rows", NUMBERS_OF_A_ROW * (taken - 1), PERFORMANCE_LIMIT * taken as i128 + 1),
            ("rows", NUMBERS_OF_A_ROW * taken - 1, 1),
            ("deviations", POINTS - 1, -DEVIATION_LIMIT * taken as i128 - 1),
        ];
        for (what, at, width, value, _) in WRONG {
            let wrong = spoilt(honest, at, width, value);
            self.trial(&wrong, &format!("joining with {what}"), &[]);
            for number in off {
                self.trial(&wrong, "joining wrongly, a number off", &[number]);
            }
        }
        if honest.kind == "unit" {
            self.cut_trial(honest, "joining, a number off, 71 bytes", &off[..1], 71);
            self.cut_trial(honest, "joining, a number off, 72 bytes", &off[..1], 72);
            self.cut_trial(honest, "joining, 72 bytes", &[], 72);
        }
        // One that begins a group, or is in none, reads none of these.
        for (what, group) in [("a new group", 8), ("no group", 0), ("a group that was left", 300)] {
            self.trial(&spoilt(honest, 70, 2, group), &format!("{what} behind a group"), &off);
        }
    }

    /// Group numbers behind a group that was left: with an ungrouped unit between, and without.
    fn behind_a_group(&mut self, honest: &Honest) {
        for (what, group) in [("a new group", 8), ("a new group", 65_535), ("no group", 0)] {
            self.trial(&spoilt(honest, 70, 2, group), &format!("{what}, others were left"), &[]);
        }
        for group in [300, 7] {
            self.trial(&spoilt(honest, 70, 2, group), "a group that was left, others were too", &[]);
        }
    }

    /// What an answer asks of the rows of a group: so much for each unit up to the row. A row that is passed over is nobody's.
    fn group_answers(&mut self, made: &Made) {
        let (start, size, _) = made.record(1 + REGIONS + GROUPS.len());
        let honest = Honest { kind: "answer", part: made.bytes[start..start + size].to_vec() };
        for (row, units) in [(0, 1), (1, 1), (2, 2), (3, 3), (4, 4), (5, 1), (6, 1)] {
            let most = PERFORMANCE_LIMIT * units;
            for side in [0, 1] {
                let at = ("rows", NUMBERS_OF_A_ROW * row + side);
                self.around(&honest, "a performance of a group", at, (-most, most));
            }
            self.around(
                &honest,
                "a default of a group",
                ("rows", NUMBERS_OF_A_ROW * row + 7),
                (UNIT_DEFAULT_LOWEST, 0),
            );
            for home in [0, 9, PASSED_OVER] {
                self.trial(&honest, "a home of a group, any", &[("homes", row, home)]);
            }
        }
        for row in 0..GROUPS.len() {
            for set in [31, 1 << REGION, 1] {
                let part = [row as u32, 0, set].map(u32::to_le_bytes).concat();
                self.trial(&Honest { kind: "member", part }, "a row of a group", &[]);
            }
        }
    }

    /// A book of groups taken honestly, every limit tried on the way.
    pub(super) fn group_limits(&mut self) {
        let book = book_of_groups(&mut self.chance);
        let made = Made::of(&book);
        self.lend_all(GROUPS.len(), &[1, 5]);
        self.begin(&made);
        for row in 0..GROUPS.len() {
            let (start, size, _) = made.record(1 + REGIONS + row);
            for kind in ["unit", "units"] {
                let honest = Honest { kind, part: made.bytes[start..start + size].to_vec() };
                if JOINING.contains(&row) {
                    self.joining_limits(&honest, row);
                    self.wrong_and_joining(&honest, row);
                } else if row == 6 {
                    self.behind_a_group(&honest);
                }
                if row > 0 {
                    self.lengths(&honest);
                }
            }
            // Refused in every way and then taken: the group's sums and the groups seen are as they were.
            for (_, at, width, value, _) in WRONG {
                let mut wrong = made.bytes[start..start + size].to_vec();
                put(&mut wrong, at, width, value);
                if JOINING.contains(&row) {
                    self.call("unit", &wrong);
                }
            }
            self.call("unit", &made.bytes[start..start + size]);
        }
        if self.answers {
            self.group_answers(&made);
            self.ask(&made);
        }
    }
}

/// One fault in the group of the record at a place, from 1, of a book whose first unit is in a group; one record, that is left out, counts for
/// nothing. None where no such fault is at hand.
pub(super) fn spoil_for_16(
    chance: &mut Chance,
    made: &Made,
    place: usize,
    left_out: usize,
    record: &mut [u8],
) -> bool {
    let before = |place: usize| made.run(REGIONS + place, 1);
    let joined = group_of(before(place - 1));
    let taken: Vec<usize> = (1..place).filter(|&one| one != left_out).collect();
    let left: Vec<i128> = taken
        .iter()
        .map(|&one| group_of(before(one)))
        .filter(|&group| group != 0 && group != joined)
        .collect();
    let joins = joined != 0 && place - 1 != left_out;
    if !joins && left.is_empty() {
        return false;
    }
    if !joins || (!left.is_empty() && chance.one_in(3)) {
        put(record, 70, 2, chance.pick(&left));
        return true;
    }
    let region = before(place - 1)[2];
    put(record, 70, 2, joined);
    if chance.one_in(2) {
        record[2] = region;
        put(record, 12 + 8 * chance.place(6), 8, chance.pick(&[-1, UNIT_DEFAULT_LOWEST]));
    } else {
        record[2] = (region + 1) % REGIONS as u8;
    }
    true
}

/// Units of the longest roster joined to groups, the first of them too.
pub(super) fn join_all(chance: &mut Chance, units: &mut [Unit]) {
    let spread = chance.pick(&[Spread::Among, Spread::SideBySide]);
    let most = units.len();
    join(chance, units, spread, most);
    if units[0].group == 0 {
        let is_free = |number: &i128| units.iter().all(|unit| unit.group != *number);
        units[0].group = (1..).find(is_free).expect("a number that no group has");
    }
}

//! Runs of unit records in a book of the longest roster: of every length from 0 to 512, and refused at every place from
//! 1 to 512 by a wrong record, a list that ends in mid-run, a lent number or the last announced unit. Each run starts from
//! what the five frequency records left, which is stored, and takes its bytes from those that are kept, so that the
//! script stays small.

use std::io::Write;

use super::groups::{group_of, join_all, spoil_for_16};
use super::{hex, ungrouped, Made, Script};
use crate::book::*;
use crate::boundary::*;
use crate::chance::Chance;
use crate::damage::{spoil_t, Kind};
use crate::make::make;
use crate::quantities::*;
use crate::sweep::put;

const UNITS: usize = 512;
/// Records that are kept behind the book's last.
const MORE: usize = 8;
/// No unit of the book names it, so that its lent numbers are read by the one record that is made to.
const SPARE_REGION: usize = REGIONS - 1;
/// How many records a run has after the refused one, where there are so many.
const AFTER: [usize; 9] = [0, 1, 2, 5, 7, 13, 13, 76, 511];
/// A run that is tried over every kind of tally and list.
const SHORT_RUN: usize = 5;
const PIECES: [usize; 10] = [0, 1, 1, 2, 3, 5, 7, 13, 76, 101];

/// What a unit record can be refused with.
const FAULTS: [u8; 5] = [81, 82, 83, 84, 9];

/// One fault in a record, and the refusal that it is meant for; 9 by a number that stands before it, or by 0.
fn spoil_for(chance: &mut Chance, number: u8, record: &mut [u8], before: i128) -> Refusal {
    let (beyond, t) = (POWER_LIMIT + 1, 1 + chance.place(POINTS));
    let header =
        [(2, 1, 5), (2, 1, 255), (3, 1, 2), (4, 4, beyond), (4, 4, -beyond), (8, 4, beyond), (8, 4, -beyond)];
    let default = chance.pick(&[1, i64::MAX as i128, UNIT_DEFAULT_LOWEST - 1, i64::MIN as i128]);
    let spare_bit = i128::from(record[69] | 1 << (3 + chance.place(5)));
    let (at, width, value) = match number {
        81 => chance.pick(&header),
        82 => (12 + 8 * chance.place(6), 8, default),
        83 => (69, 1, spare_bit),
        84 => {
            let good = chance.one_in(2);
            spoil_t(chance, Kind::Unit, record, t, good);
            return Refusal::of(84).at_t(t);
        }
        _ => (0, 2, chance.pick(&[0, before])),
    };
    put(record, at, width, value);
    Refusal::of(number)
}

impl<W: Write> Script<W> {
    fn keep(&mut self, place: usize, bytes: &[u8]) {
        self.say(format!("keep {place} {}", hex(bytes)));
    }

    /// A book with its frequency records taken, stored; its unit records are kept, and some that it does not announce.
    fn store_a_book(&mut self, with_groups: bool) -> Made {
        let class = self.chance.pick(&ungrouped());
        let mut book = make(self.chance.draw(), class, Some(UNITS)).expect("a class of the list");
        book.units.iter_mut().for_each(|unit| unit.region %= SPARE_REGION);
        if with_groups {
            join_all(&mut self.chance, &mut book.units);
        }
        book.requirements.truncate(1);
        let made = Made::of(&book);
        self.lend_all(UNITS, &[0, 1, 5]);
        self.begin(&made);
        self.store();
        let units = made.run(1 + REGIONS, UNITS);
        self.keep(0, &[units, &units[..UNIT_SIZE * MORE]].concat());
        made
    }

    /// A run of so many kept bytes, from a record on, and what it is meant to reply.
    fn run_bytes(&mut self, from: usize, bytes: usize, meant: Step) {
        let reply = self.call_kept("units", UNIT_SIZE * from, bytes);
        self.meant.push((meant, reply));
    }

    fn run(&mut self, from: usize, records: usize, meant: Step) {
        self.run_bytes(from, UNIT_SIZE * records, meant);
    }

    fn every_length(&mut self) {
        for records in 0..=UNITS {
            self.recall();
            self.run(0, records, Ok(()));
        }
    }

    /// Runs of more units than are announced: all of those are taken before the next is out of turn.
    fn past_every_length(&mut self) {
        for more in [1, 2, MORE] {
            self.recall();
            self.run(0, UNITS + more, Err(Refusal::of(11).at_place(UNITS + 1)));
        }
    }

    /// Ragged runs of every length, and an empty one, over the same tally and lists: with too few words, with words that are no
    /// tally, with no list at all, and over the book's own.
    fn every_ragged_length(&mut self) {
        for records in 0..=UNITS {
            self.recall();
            match records % 4 {
                0 => self.say(format!("lend tally {}", records / 4 % TALLY_WORDS)),
                1 => self.put("tally", records / 4 % TALLY_WORDS, &[u32::MAX as i128]),
                2 => lists_of("units").iter().for_each(|name| self.say(format!("lend {name} 0"))),
                _ => {}
            }
            let any = self.chance.between(1, UNIT_SIZE as i128 - 1) as usize;
            let bytes = self.chance.pick(&[1, UNIT_SIZE - 1, any]);
            self.run_bytes(0, UNIT_SIZE * records + bytes, Err(Refusal::of(1)));
            self.run(records, 0, Ok(()));
        }
    }

    /// A run's length, at least to this place.
    fn length_from(&mut self, place: usize) -> usize {
        (place + self.chance.pick(&AFTER)).min(UNITS)
    }

    /// The kept record at this place with a fault, and the refusal that it is meant for; where no fault of its group is at hand, another.
    /// One record of the run may be left out.
    fn keep_spoilt(&mut self, made: &Made, place: usize, number: u8, left_out: usize) -> Refusal {
        let mut record = made.run(REGIONS + place, 1).to_vec();
        if number == 16 && spoil_for_16(&mut self.chance, made, place, left_out, &mut record) {
            self.keep(UNIT_SIZE * (place - 1), &record);
            return Refusal::of(16);
        }
        let number = if number == 16 { 83 } else { number };
        let before = if place > 1 { &made.run(REGIONS + place - 1, 1)[..2] } else { &[0; 2][..] };
        let before = i128::from(u16::from_le_bytes(before.try_into().expect("two bytes")));
        let refusal = spoil_for(&mut self.chance, number, &mut record, before);
        self.keep(UNIT_SIZE * (place - 1), &record);
        refusal
    }

    fn keep_honest(&mut self, made: &Made, place: usize) {
        let record = made.run(REGIONS + place, 1).to_vec();
        self.keep(UNIT_SIZE * (place - 1), &record);
    }

    /// Two wrong records in a run, where there is room for the second: the first alone is told, and behind it the run is
    /// resumed, to be refused at the second, and resumed again.
    fn refused_by_a_record(&mut self, made: &Made, place: usize, number: u8) {
        // The first unit may have any number, and any group.
        if place == 1 && [9, 16].contains(&number) {
            return;
        }
        let length = self.length_from(place);
        self.recall();
        let first = self.keep_spoilt(made, place, number, 0);
        let mut left = place;
        if place + 2 <= length {
            let second = place + 2 + self.chance.place(length - place - 1);
            let number = self.chance.pick(if number == 16 { &[16, 16, 9, 84] } else { &FAULTS[..] });
            let refusal = self.keep_spoilt(made, second, number, place);
            self.run(0, length, Err(first.at_place(place)));
            self.run(place, length - place, Err(refusal.at_place(second - place)));
            self.keep_honest(made, second);
            left = second;
        } else {
            self.run(0, length, Err(first.at_place(place)));
        }
        self.run(left, length - left, Ok(()));
        self.keep_honest(made, place);
    }

    /// A list that is long enough for the records before this place, and then long enough for all; every second time the
    /// record is wrong besides, which is told later than 12.
    fn refused_by_a_list(&mut self, made: &Made, place: usize, name: &str) {
        let length = self.length_from(place);
        let lent = self.caller.lent.list(name).lent;
        let short =
            if name == "rows" { NUMBERS_OF_A_ROW * place - 1 - self.chance.place(8) } else { place - 1 };
        self.recall();
        self.say(format!("lend {name} {short}"));
        if self.chance.one_in(2) {
            let number = self.chance.pick(&[81, 82, 83, 84]);
            self.keep_spoilt(made, place, number, 0);
        }
        self.run(0, length, Err(Refusal::of(12).at_place(place)));
        self.keep_honest(made, place);
        self.say(format!("lend {name} {lent}"));
        self.run(place - 1, length - place + 1, Ok(()));
    }

    /// Fewer units announced than the run has, with lists that end there too, which is told later than 11; then as many as
    /// there are.
    fn refused_past_the_last(&mut self, place: usize) {
        let length = self.length_from(place);
        let lent = self.caller.lent.list("homes").lent;
        self.recall();
        self.put("tally", 0, &[place as i128 - 1]);
        self.say(format!("lend homes {}", place - 1));
        self.run(0, length, Err(Refusal::of(11).at_place(place)));
        self.put("tally", 0, &[UNITS as i128]);
        self.say(format!("lend homes {lent}"));
        self.run(place - 1, length - place + 1, Ok(()));
    }

    /// A lent number of the spare region past its limit, and the record at this place the first to read it; then at its limit.
    fn refused_by_a_number(&mut self, made: &Made, place: usize, name: &str) {
        let length = self.length_from(place);
        let most = DEVIATION_LIMIT * (place as i128 - 1);
        let sign = self.chance.pick(&[1, -1]);
        let (of_a_region, past, at) = match (name, sign) {
            ("sums", _) => (SUMS_OF_A_REGION, sign * (most + 1), sign * most),
            (_, 1) => (POINTS, LENT_MEASURE_HIGHEST + 1, LENT_MEASURE_HIGHEST),
            _ => (POINTS, -MEASURE_LIMIT - 1, -MEASURE_LIMIT),
        };
        let spot = of_a_region * SPARE_REGION + self.chance.place(of_a_region);
        self.recall();
        self.keep(UNIT_SIZE * (place - 1) + 2, &[SPARE_REGION as u8]);
        self.put(name, spot, &[past]);
        self.run(0, length, Err(Refusal::of(11).at_place(place)));
        self.put(name, spot, &[at]);
        self.run(place - 1, length - place + 1, Ok(()));
        self.keep_honest(made, place);
    }

    /// Every refusal that a record can meet in mid-run, at every place.
    fn every_place(&mut self, made: &Made) {
        for place in 1..=UNITS {
            FAULTS.iter().for_each(|&number| self.refused_by_a_record(made, place, number));
            self.refused_by_a_list(made, place, ["numbers", "homes", "rows", "groups"][place % 4]);
            self.refused_by_a_number(made, place, ["measures", "sums"][place % 2]);
            self.refused_past_the_last(place);
        }
    }

    /// A run up to this place; then the next with a wrong group, refused at its first record, and as it should be.
    fn refused_at_its_first(&mut self, made: &Made, place: usize) {
        let length = self.length_from(place);
        self.recall();
        self.run(0, place - 1, Ok(()));
        let refusal = self.keep_spoilt(made, place, 16, 0);
        self.run(place - 1, length - place + 1, Err(refusal.at_place(1)));
        self.keep_honest(made, place);
        self.run(place - 1, length - place + 1, Ok(()));
    }

    /// A run up to this place, whose record joins a group; then a lent number of the group one past its limit, and at it.
    fn refused_by_a_group(&mut self, made: &Made, place: usize) {
        let groups = [place - 1, place].map(|place| group_of(made.run(REGIONS + place, 1)));
        if groups[0] != groups[1] || groups[1] == 0 {
            return;
        }
        let length = self.length_from(place);
        let (taken, row) = (place as i128 - 1, NUMBERS_OF_A_ROW * (place - 2));
        let (performance, deviation) = (PERFORMANCE_LIMIT * taken, DEVIATION_LIMIT * taken);
        let (side, default, point) =
            (self.chance.place(2), 2 + self.chance.place(6), self.chance.place(POINTS));
        let choices = [
            ("rows", row + side, performance + 1, performance),
            ("rows", row + side, -performance - 1, -performance),
            ("rows", row + default, 1, 0),
            ("rows", row + default, UNIT_DEFAULT_LOWEST - 1, UNIT_DEFAULT_LOWEST),
            ("deviations", point, deviation + 1, deviation),
            ("deviations", point, -deviation - 1, -deviation),
        ];
        let (name, at, past, last) = self.chance.pick(&choices);
        self.recall();
        self.run(0, place - 1, Ok(()));
        self.put(name, at, &[past]);
        self.run(place - 1, length - place + 1, Err(Refusal::of(11).at_place(1)));
        self.put(name, at, &[last]);
        // The one record: the numbers that are too large for its group would be told at the next.
        self.run(place - 1, 1, Ok(()));
    }

    /// The same for a book of groups: a wrong group at every place, and any other fault.
    fn every_place_of_groups(&mut self, made: &Made) {
        for place in 2..=UNITS {
            let any = self.chance.pick(&FAULTS);
            self.refused_by_a_record(made, place, 16);
            self.refused_by_a_record(made, place, any);
            self.refused_by_a_group(made, place);
            match place % 3 {
                0 => self.refused_at_its_first(made, place),
                1 => self.refused_by_a_list(made, place, ["groups", "homes"][place % 2]),
                _ => self.refused_past_the_last(place),
            }
        }
    }

    /// A short run, an empty one and a ragged one over what is lent now.
    fn three_runs(&mut self, number: u8) {
        self.run(0, SHORT_RUN, Err(Refusal::of(number).at_place(1)));
        self.run(0, 0, Ok(()));
        self.run_bytes(0, UNIT_SIZE * SHORT_RUN - 1, Err(Refusal::of(1)));
        self.recall();
    }

    /// Each list one short for the first record, the tally's words too.
    fn short_at_the_first(&mut self) {
        let tally = Tally::from_words(&self.tally_words());
        for &name in lists_of("units") {
            self.say(format!("lend {name} {}", length_for("units", name, &tally) - 1));
            self.three_runs(12);
        }
    }

    /// Figures of another interval in one region.
    fn another_interval(&mut self) {
        let interval = self.tally_words()[7];
        for region in 0..REGIONS {
            self.put("figures", FIGURES_OF_A_REGION * region, &[interval + (1 << 32)]);
            self.three_runs(11);
        }
    }

    /// No turn for a unit, a word past its limit, and a least number that no record reaches.
    fn words_off(&mut self) {
        let end = Tally::from_words(&self.tally_words()).units_end();
        let out_of_turn = [0, 1, 5, end, end + 1, end + 2].map(|records| (2, records));
        let past = [(0, 513), (1, 0), (1, 33), (3, 65_537), (4, 0), (4, 10_001), (5, 76), (6, 101)];
        for (word, number) in out_of_turn.into_iter().chain(past) {
            self.put("tally", word, &[number]);
            self.three_runs(11);
        }
        self.put("tally", 3, &[65_536]);
        self.three_runs(9);
    }

    /// The whole book in pieces, runs and singles, and what follows its units.
    fn by_pieces(&mut self, made: &Made) {
        self.recall();
        let mut taken = 0;
        while taken < UNITS {
            let piece = self.chance.pick(&PIECES).min(UNITS - taken);
            if piece == 1 && self.chance.one_in(2) {
                let reply = self.call_kept("unit", UNIT_SIZE * taken, UNIT_SIZE);
                self.meant.push((Ok(()), reply));
            } else {
                self.run(taken, piece, Ok(()));
            }
            taken += piece;
        }
        let (start, size, kind) = made.record(1 + REGIONS + UNITS);
        self.call(kind, &made.bytes[start..start + size]);
        self.ask(made);
    }

    /// Every length and every place once.
    pub fn runs(&mut self) {
        let made = self.store_a_book(false);
        self.short_at_the_first();
        self.another_interval();
        self.words_off();
        self.every_length();
        self.past_every_length();
        self.every_ragged_length();
        self.by_pieces(&made);
        let made = self.store_a_book(false);
        self.every_place(&made);
        self.by_pieces(&made);
        self.by_pieces(&made);
        let made = self.store_a_book(true);
        self.every_place_of_groups(&made);
        self.by_pieces(&made);
        self.by_pieces(&made);
    }
}

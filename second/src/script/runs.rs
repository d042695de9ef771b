//! Runs of unit records among the random calls: whole and ragged, with wrong records in them, over lists that are long
//! enough for some of the records only, past the last announced unit, and between the single calls of a book.

use std::io::Write;

use super::groups::group_of;
use super::{part, Made, Script, EXACT_OR_MORE};
use crate::book::{UNITS_AT, UNIT_SIZE};
use crate::boundary::*;
use crate::damage::{spoil_once_or_twice, Kind};
use crate::quantities::*;
use crate::sweep::put;

const RUN_LENGTHS: [usize; 11] = [0, 1, 1, 2, 3, 5, 5, 7, 13, 13, 76];
const ROSTERS: [usize; 6] = [3, 5, 7, 13, 13, 26];

impl Made {
    /// So many unit records from the one on that comes after so many other records, or as many as there are.
    pub(super) fn run(&self, records: usize, count: usize) -> &[u8] {
        let (start, ..) = self.record(records);
        let units_end = UNITS_AT + UNIT_SIZE * self.units;
        part(&self.bytes[..units_end], start, UNIT_SIZE * count)
    }
}

fn records_of(run: &[u8]) -> usize {
    run.len() / UNIT_SIZE
}

impl<W: Write> Script<W> {
    /// A run from this unit on, one in eight with records after the book's last.
    pub(super) fn drawn_run(&mut self, made: &Made, records: usize) -> Vec<u8> {
        let count = self.chance.pick(&RUN_LENGTHS);
        let mut run = made.run(records, count).to_vec();
        if self.chance.one_in(8) {
            let more = self.chance.pick(&[1, 1, 2, 3]);
            run = [made.run(records, made.units), &vec![0; UNIT_SIZE * more]].concat();
        }
        run
    }

    /// The run with one wrong record, or with two.
    fn broken_run(&mut self, run: &[u8]) -> Vec<u8> {
        let mut broken = run.to_vec();
        if run.is_empty() {
            return broken;
        }
        for _ in 0..self.chance.pick(&[1, 1, 2]) {
            let start = UNIT_SIZE * self.chance.place(records_of(run));
            let record = &mut broken[start..start + UNIT_SIZE];
            if self.chance.one_in(8) {
                record.fill_with(|| self.chance.draw() as u8);
            } else {
                spoil_once_or_twice(&mut self.chance, Kind::Unit, record);
            }
        }
        if self.chance.one_in(3) {
            broken.copy_from_slice(run);
            self.spoil_a_group(&mut broken);
        }
        broken
    }

    /// A record that joins the one before it in the run with a default or in another region, or returns to the group of an earlier one.
    fn spoil_a_group(&mut self, run: &mut [u8]) {
        if records_of(run) < 2 {
            return;
        }
        let place = 1 + self.chance.place(records_of(run) - 1);
        let earlier = self.chance.place(place);
        let other = self.chance.pick(&[place - 1, place - 1, earlier]);
        let (at, before) = (UNIT_SIZE * place, UNIT_SIZE * other);
        let drawn = self.chance.between(1, 65_535);
        let stands = group_of(&run[before..before + UNIT_SIZE]);
        let group = if stands == 0 { drawn } else { stands };
        put(run, before + 70, 2, group);
        put(run, at + 70, 2, group);
        match self.chance.place(3) {
            0 => run[at + 2] = (run[before + 2] % REGIONS as u8 + 1) % REGIONS as u8,
            1 => put(run, at + 12 + 8 * self.chance.place(6), 8, -1),
            _ => {}
        }
    }

    /// A run that is no whole number of records: a few bytes more or fewer.
    fn ragged_run(&mut self, run: &[u8]) -> Vec<u8> {
        let few = self.chance.pick(&[1, 1, 2, 3, 4, 16, UNIT_SIZE / 2, UNIT_SIZE - 1]);
        let longer = [run, &vec![0; few]].concat();
        let shorter = run[..run.len().saturating_sub(few)].to_vec();
        if self.chance.one_in(2) || shorter.is_empty() {
            longer
        } else {
            shorter
        }
    }

    /// A run with a wrong record in it, and then the rest as it should be, from the refused record on.
    fn resumed_run(&mut self, run: &[u8]) -> u8 {
        let broken = self.broken_run(run);
        let before = self.tally_words()[2];
        let refused = self.call("units", &broken);
        if refused == 0 {
            return 0;
        }
        let added = (self.tally_words()[2] - before) as usize;
        self.call("units", &run[UNIT_SIZE * added..])
    }

    /// The next units of a book by a run, in one call or in two; answers how many they are, and the last reply.
    pub(super) fn take_by_run(&mut self, made: &Made, records: usize) -> (usize, u8) {
        let count = self.chance.pick(&RUN_LENGTHS);
        let run = made.run(records, count).to_vec();
        let reply = if self.chance.one_in(3) { self.resumed_run(&run) } else { self.call("units", &run) };
        (records_of(&run), reply)
    }

    /// One run that goes, or may go, wrong. What it has added is taken back, as nothing else would count it.
    pub(super) fn disturb_with_a_run(&mut self, made: &Made, records: usize) {
        let run = self.drawn_run(made, records);
        self.store();
        match self.chance.place(12) {
            0..=2 => {
                let broken = self.broken_run(&run);
                self.call("units", &broken);
            }
            3 => {
                let ragged = self.ragged_run(&run);
                self.call("units", &ragged);
            }
            4 => {
                let ragged = self.ragged_run(&run);
                self.call_with_a_word_off("units", &ragged);
            }
            5 | 6 => self.call_with_a_short_list("units", &run),
            7 => self.call_with_a_word_off("units", &run),
            8 => self.call_with_a_number_off("units", &run),
            9 => self.run_with_a_number_off(&run),
            10 => self.call_with_an_interval_off("units", &run),
            _ => self.run_past_the_last(&run),
        }
        self.recall();
    }

    /// A book whose units come by runs and singly, with runs and single calls that go wrong between them; what those add
    /// is taken back.
    pub(super) fn by_runs(&mut self) {
        let made = self.book_of(&ROSTERS);
        self.lend_all(made.units, &EXACT_OR_MORE);
        self.begin(&made);
        let units_end = 1 + REGIONS + made.units;
        let mut records = 1 + REGIONS;
        while records < units_end {
            self.disturb_with_a_run(&made, records);
            self.store();
            self.disturb(&made, records);
            self.recall();
            match self.chance.place(4) {
                0 => records += self.take_by_run(&made, records).0,
                1 => records += self.step(&made, records).0,
                _ => {}
            }
        }
        self.take(&made, units_end);
        self.ask(&made);
    }

    /// Fewer units announced, so that the run goes past the last of them, or just up to it.
    fn run_past_the_last(&mut self, run: &[u8]) {
        let taken = Tally::from_words(&self.tally_words()).units_taken();
        let more = self.chance.place(records_of(run) + 1);
        self.put("tally", 0, &[taken + more as i128]);
        self.call("units", run);
    }

    /// A measure or a sum at its limit, or one past it, for the first record that names its region.
    fn run_with_a_number_off(&mut self, run: &[u8]) {
        if run.is_empty() {
            return;
        }
        let regions: Vec<usize> = run.chunks(UNIT_SIZE).map(|record| usize::from(record[2])).collect();
        let region = self.chance.pick(&regions).min(REGIONS - 1);
        let before = regions.iter().position(|&named| named == region).unwrap_or(0);
        let taken = Tally::from_words(&self.tally_words()).units_taken() + before as i128;
        let most = DEVIATION_LIMIT * taken + self.chance.pick(&[0, 1]);
        let sum = self.chance.pick(&[most, -most]);
        let measure = self.measure_off();
        if self.chance.one_in(3) {
            let place = POINTS * region + self.chance.place(POINTS);
            self.put("measures", place, &[measure]);
        } else {
            let place = SUMS_OF_A_REGION * region + self.chance.place(SUMS_OF_A_REGION);
            self.put("sums", place, &[sum]);
        }
        self.call("units", run);
    }
}

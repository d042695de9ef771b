//! Tallies that were stored, handed in again over lists that the next book has begun to fill. A region's
//! figures keep their book's interval number: from the first frequency record of a book with another number
//! on, a stored tally is refused. Only a book sent again under the same number stays untold.

use std::io::Write;

use super::{Made, Script, EXACT_OR_MORE, SMALL_ROSTERS};
use crate::book::CONTENTS_SIZE;
use crate::make::make;
use crate::quantities::REGIONS;

/// How far a book is, in words.
fn stage(made: &Made, records: usize) -> &'static str {
    let units_from = 1 + REGIONS;
    let units_end = units_from + made.units;
    match records {
        0 => "the contents",
        1 => "the settings",
        2 => "the first frequency record",
        _ if records < units_from => "some frequency records",
        _ if records > units_end => "a requirement",
        _ if records == units_end => "the last unit",
        6 => "the last frequency record",
        _ => "some units",
    }
}

/// A book that was taken, with the tally as it was after so many records.
struct Taken {
    made: Made,
    tallies: Vec<Vec<i128>>,
}

impl<W: Write> Script<W> {
    /// The book after another: of another number, of the next, or sent again under the same, changed or not.
    fn book_after(&mut self, first: &Made) -> Made {
        if self.chance.one_in(5) {
            return first.clone();
        }
        let class = self.any_class();
        let roster = self.chance.pick(&SMALL_ROSTERS);
        let mut book = make(self.chance.draw(), class, Some(roster)).expect("a class of the list");
        book.requirements.truncate(2);
        let same = first.interval;
        let next = (same + 1) % (1 << 32);
        let any = self.interval_number();
        book.settings.interval = self.chance.pick(&[next, next, next, any, any, same, same, same]);
        Made::of(&book)
    }

    /// The next record of a book, as it is.
    pub(super) fn take(&mut self, made: &Made, records: usize) -> u8 {
        let bytes = self.honest_part(made, records);
        self.call(made.record(records).2, &bytes)
    }

    /// A whole book, its tally stored after each record.
    fn take_and_store(&mut self, made: Made) -> Taken {
        self.call("contents", &made.bytes[..CONTENTS_SIZE]);
        let mut tallies = vec![self.tally_words()];
        for records in 0..made.records() {
            self.take(&made, records);
            tallies.push(self.tally_words());
        }
        Taken { made, tallies }
    }

    /// A call that the stored book could make, with the tally that it has for it.
    fn stored_call(&mut self, first: &Taken, kind: &str) -> (Vec<i128>, Vec<u8>) {
        let made = &first.made;
        let all_units = 1 + REGIONS + made.units;
        let asked = all_units + self.chance.place(made.requirements + 1);
        if kind == "member" {
            let row = self.chance.place(made.units) as u32;
            let set = self.chance.between(1, 31) as u32;
            let direction = self.chance.between(0, 1) as u32;
            return (first.tallies[asked].clone(), [row, direction, set].map(u32::to_le_bytes).concat());
        }
        let record_kind = match kind {
            "answer" => "requirement",
            "units" => "unit",
            _ => kind,
        };
        let place = made.any_of(&mut self.chance, record_kind).expect("a record of this kind");
        let tally = if kind == "answer" { asked } else { place };
        if kind == "units" {
            let count = self.chance.pick(&[1, 2, 3, 5, 13]);
            return (first.tallies[place].clone(), made.run(place, count).to_vec());
        }
        let mut bytes = self.honest_part(made, place);
        if self.chance.one_in(5) {
            bytes.truncate(bytes.len() / 2);
        }
        (first.tallies[tally].clone(), bytes)
    }

    /// The stored tally over the lists as they are now, for one call; the next book's tally is put back.
    /// Answers whether the lists are still those of the next book.
    fn hand_in(&mut self, first: &Taken, next: &Made, told: bool) -> bool {
        let now = self.tally_words();
        let kinds: &[&str] = match (first.made.units, self.answers) {
            (0, true) => &["answer"],
            (0, false) => &["requirement"],
            (_, true) => &["unit", "units", "member", "answer"],
            (_, false) => &["unit", "units"],
        };
        let seldom = self.chance.pick(&["frequency", "requirement"]);
        let often = self.chance.pick(kinds);
        let kind = if self.chance.one_in(15) { seldom } else { often };
        let (tally, bytes) = self.stored_call(first, kind);
        self.store();
        self.put("tally", 0, &tally);
        let reply = self.call(kind, &bytes);
        // A run can add more to the sums than the next book's units leave room for.
        if kind == "units" {
            self.recall();
        }
        self.put("tally", 0, &now);
        if told {
            let number = if first.made.interval == next.interval { "the same" } else { "another" };
            let after = stage(next, now[2] as usize);
            self.meet(format!("stored {kind}, after {after} of {number} number"), reply);
        }
        told && (kind != "frequency" || reply != 0)
    }

    /// A book stored at every step, and the next one taken over its lists.
    pub(super) fn stored(&mut self) {
        let first = self.made_book();
        let next = self.book_after(&first);
        self.lend_all(first.units.max(next.units), &EXACT_OR_MORE);
        let first = self.take_and_store(first);
        self.call("contents", &next.bytes[..CONTENTS_SIZE]);
        let mut told = true;
        let mut refused = 0;
        for records in 0..next.records() {
            for _ in 0..self.chance.between(1, 3) {
                told = self.hand_in(&first, &next, told);
            }
            refused += i32::from(self.take(&next, records) != 0);
            if refused > 3 {
                return;
            }
        }
        self.hand_in(&first, &next, told);
        self.ask(&next);
    }
}

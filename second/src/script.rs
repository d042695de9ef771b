//! Scripts of random calls for the model in `boundary` and for the library's own boundary: chains over
//! made books that are disturbed on the way, their units one at a time and by runs (`runs`), tallies and lent numbers of
//! any kind, tallies that were stored while the next book was begun over their lists (`stored`), once every limit
//! (`limits`) and those of groups (`groups`), and runs of every length, refused at every place (`places`).

mod groups;
mod limits;
mod places;
mod runs;
mod stored;

use std::collections::{BTreeMap, BTreeSet};
use std::io::Write;

use crate::book::*;
use crate::boundary::*;
use crate::chance::Chance;
use crate::damage::{damage, spoil_once_or_twice, Kind};
use crate::make::{make, ungrouped, CLASSES, GROUPED};
use crate::quantities::*;
use crate::write::to_bytes;

const RECORD_CALLS: [&str; 5] = ["settings", "frequency", "unit", "units", "requirement"];
const SMALL_ROSTERS: [usize; 9] = [0, 1, 1, 2, 2, 3, 5, 7, 13];
/// Lists are mostly exactly as long as they have to be.
const EXACT_OR_MORE: [usize; 5] = [0, 0, 0, 1, 5];

/// The bytes of a made book, its interval number, and how many units and requirements it has.
#[derive(Clone)]
struct Made {
    bytes: Vec<u8>,
    interval: i128,
    units: usize,
    requirements: usize,
}

impl Made {
    fn of(book: &Book) -> Made {
        Made {
            bytes: to_bytes(book),
            interval: book.settings.interval,
            units: book.units.len(),
            requirements: book.requirements.len(),
        }
    }

    /// Where the record that comes after so many others starts, its size and its call.
    fn record(&self, records: usize) -> (usize, usize, &'static str) {
        let units_from = 1 + REGIONS;
        let requirements_from = units_from + self.units;
        if records == 0 {
            (CONTENTS_SIZE, SETTINGS_SIZE, "settings")
        } else if records < units_from {
            (FREQUENCIES_AT + FREQUENCY_SIZE * (records - 1), FREQUENCY_SIZE, "frequency")
        } else if records < requirements_from {
            (UNITS_AT + UNIT_SIZE * (records - units_from), UNIT_SIZE, "unit")
        } else {
            let body = UNITS_AT + UNIT_SIZE * self.units;
            (body + REQUIREMENT_SIZE * (records - requirements_from), REQUIREMENT_SIZE, "requirement")
        }
    }

    fn records(&self) -> usize {
        1 + REGIONS + self.units + self.requirements
    }

    /// Any record that this call takes; None where the book has no unit.
    fn any_of(&self, chance: &mut Chance, kind: &str) -> Option<usize> {
        let first = (0..self.records()).find(|&place| self.record(place).2 == kind)?;
        let count = (0..self.records()).filter(|&place| self.record(place).2 == kind).count();
        Some(first + chance.place(count))
    }
}

/// The bytes from a place on, as many as there are.
fn part(bytes: &[u8], start: usize, length: usize) -> &[u8] {
    let start = start.min(bytes.len());
    &bytes[start..(start + length).min(bytes.len())]
}

fn hex(bytes: &[u8]) -> String {
    if bytes.is_empty() {
        return "-".to_string();
    }
    bytes.iter().map(|byte| format!("{byte:02x}")).collect()
}

fn words(numbers: &[i128]) -> String {
    numbers.iter().map(|number| number.to_string()).collect::<Vec<_>>().join(" ")
}

/// The numbers that the list's type can hold.
fn span(name: &str) -> (i128, i128) {
    let &(_, lowest, highest) = NAMES.iter().find(|(known, ..)| *known == name).expect("a list");
    (lowest, highest)
}

/// A tally with so many units, all taken: what a list of it needs, every call can do with.
fn all_taken(units: usize) -> Tally {
    Tally::from_words(&[units as i128, 1, 6 + units as i128, 0, 1, 0, 0, 0])
}

/// A script on its way out, with the model run along so that the next line can fit.
pub struct Script<W: Write> {
    chance: Chance,
    caller: Caller,
    out: W,
    answers: bool,
    pub calls: usize,
    /// What calls replied in the situations that `limits` and `stored` bring about.
    pub met: BTreeMap<String, BTreeSet<u8>>,
    /// What the runs of `places` are meant to reply, and what they did.
    pub meant: Vec<(Step, Step)>,
}

impl<W: Write> Script<W> {
    pub fn new(seed: u64, answers: bool, out: W) -> Script<W> {
        let (chance, caller) = (Chance::new(seed), Caller::default());
        Script { chance, caller, out, answers, calls: 0, met: BTreeMap::new(), meant: Vec::new() }
    }

    fn say(&mut self, line: String) {
        self.caller.line(&line);
        writeln!(self.out, "{line}").expect("a script that can be written");
    }

    fn store(&mut self) {
        self.say("store".to_string());
    }

    fn recall(&mut self) {
        self.say("recall".to_string());
    }

    /// One call, and the number of its reply.
    fn call(&mut self, kind: &str, part: &[u8]) -> u8 {
        writeln!(self.out, "call {kind} {}", hex(part)).expect("a script that can be written");
        self.calls += 1;
        number_of(self.caller.lent.call(kind, part))
    }

    /// One call with so many of the kept bytes, and its reply.
    fn call_kept(&mut self, kind: &str, from: usize, count: usize) -> Step {
        let word = format!("{from}:{count}");
        writeln!(self.out, "call {kind} {word}").expect("a script that can be written");
        self.calls += 1;
        let bytes = self.caller.bytes_of(&word).expect("bytes that are kept");
        self.caller.lent.call(kind, &bytes)
    }

    fn put(&mut self, name: &str, place: usize, numbers: &[i128]) {
        if !numbers.is_empty() {
            self.say(format!("put {name} {place} {}", words(numbers)));
        }
    }

    fn meet(&mut self, situation: String, reply: u8) {
        self.met.entry(situation).or_default().insert(reply);
    }

    /// Any number that the list's type can hold, or one next to nothing.
    fn any_number(&mut self, name: &str) -> i128 {
        let (lowest, highest) = span(name);
        let drawn = self.chance.between(lowest, highest);
        let small = self.chance.any_size(highest);
        self.chance.pick(&[lowest, highest, drawn, drawn, small, small, 0, 1])
    }

    /// An interval number, its ends too.
    fn interval_number(&mut self) -> i128 {
        let last = u32::MAX as i128;
        let drawn = self.chance.between(0, last);
        self.chance.pick(&[0, 1, last - 1, last, drawn, drawn, drawn, drawn])
    }

    fn made_book(&mut self) -> Made {
        let large = self.chance.pick(&[40, 76, 512]);
        let small = self.chance.pick(&SMALL_ROSTERS);
        let roster = if self.chance.one_in(150) { large } else { small };
        self.book_of(&[roster])
    }

    /// Any class, one in three times one with groups.
    fn any_class(&mut self) -> &'static str {
        let (any, _) = self.chance.pick(&CLASSES);
        let grouped = self.chance.pick(&GROUPED);
        self.chance.pick(&[any, any, grouped])
    }

    /// A book of any class with one of these rosters.
    fn book_of(&mut self, rosters: &[usize]) -> Made {
        let class = self.any_class();
        let roster = self.chance.pick(rosters);
        let mut book = make(self.chance.draw(), class, Some(roster)).expect("a class of the list");
        let most = self.chance.pick(&[1, 1, 2, 3, 32]);
        book.requirements.truncate(most);
        book.settings.interval = self.interval_number();
        Made::of(&book)
    }

    /// Every list lent anew for so many units, with one of these numbers of places more, all of one number.
    fn lend_all(&mut self, units: usize, more: &[usize]) {
        for (name, ..) in NAMES {
            let more = self.chance.pick(more);
            let number = self.any_number(name);
            let length = length_for("answer", name, &all_taken(units)) + more;
            self.say(format!("list {name} {length} {number}"));
        }
    }

    fn tally_words(&self) -> Vec<i128> {
        self.caller.lent.list("tally").numbers[..TALLY_WORDS].to_vec()
    }

    /// A book up to its units: the table of contents, the settings and the five frequency records.
    fn begin(&mut self, made: &Made) {
        self.call("contents", &made.bytes[..CONTENTS_SIZE]);
        for records in 0..1 + REGIONS {
            let (start, size, kind) = made.record(records);
            self.call(kind, &made.bytes[start..start + size]);
        }
    }

    /// The record with nothing after it, or with some of what follows; the last one alone.
    fn honest_part(&mut self, made: &Made, records: usize) -> Vec<u8> {
        let (start, size, _) = made.record(records);
        let more = self.chance.pick(&[0, 0, 0, 1, 24, 400]);
        part(&made.bytes, start, size + more).to_vec()
    }

    /// A whole book in turn, disturbed before each record.
    fn chain(&mut self) {
        let made = self.made_book();
        self.lend_all(made.units, &EXACT_OR_MORE);
        self.call("contents", part(&made.bytes, 0, CONTENTS_SIZE));
        let disturbed_one_in = if made.units > 20 { 20 } else { 2 };
        // A wrong unit that is taken after all spoils the sums and the group: in half of the chains it is taken back.
        let kept_clean = self.chance.one_in(2);
        let mut refused = 0;
        let mut records = 0;
        while records < made.records() {
            while self.chance.one_in(disturbed_one_in) {
                self.disturb_and_take_back(&made, records, kept_clean);
            }
            let (taken, reply) = self.step(&made, records);
            records += taken;
            refused += i32::from(reply != 0);
            if refused > 3 {
                return;
            }
        }
        for _ in 0..self.chance.between(0, 4) {
            self.disturb(&made, made.records() - 1);
        }
        self.ask(&made);
    }

    fn disturb_and_take_back(&mut self, made: &Made, records: usize, take_back: bool) {
        if !take_back {
            return self.disturb(made, records);
        }
        self.store();
        self.disturb(made, records);
        self.recall();
    }

    /// The next record as it is, or one in four times several units by a run; answers how many records these are, and the
    /// reply.
    fn step(&mut self, made: &Made, records: usize) -> (usize, u8) {
        let (_, _, turn) = made.record(records);
        if turn == "unit" && self.chance.one_in(4) {
            return self.take_by_run(made, records);
        }
        let honest = self.honest_part(made, records);
        (1, self.call(turn, &honest))
    }

    /// The bytes of any record that this call takes, or of a run; None where the book has no unit.
    fn any_part(&mut self, made: &Made, kind: &str) -> Option<Vec<u8>> {
        if kind == "units" {
            let first = made.any_of(&mut self.chance, "unit")?;
            return Some(self.drawn_run(made, first));
        }
        let place = made.any_of(&mut self.chance, kind)?;
        Some(self.honest_part(made, place))
    }

    /// An answer, mostly to a requirement of the book.
    fn ask(&mut self, made: &Made) {
        if !self.answers {
            return;
        }
        for _ in 0..self.chance.between(1, 3) {
            let place = made.any_of(&mut self.chance, "requirement").expect("a requirement");
            let bytes = self.honest_part(made, place);
            self.call("answer", &bytes);
        }
        for _ in 0..self.chance.between(0, 4) {
            self.ask_member(made);
        }
    }

    /// Who stands in a row, mostly one that there is, for a direction and a region set.
    fn ask_member(&mut self, made: &Made) {
        let row = self.chance.place(made.units.max(1)) as u32;
        let row = self.chance.pick(&[row, row, row, row, made.units as u32, 65_535, 65_536]);
        let direction = self.chance.pick(&[0, 0, 0, 1, 1, 1, 2, 256]);
        let drawn = self.chance.between(1, 31) as u32;
        let set = self.chance.pick(&[drawn, drawn, drawn, 31, 31, 0, 32, 255, 256, u32::MAX]);
        let bytes = [row, direction, set].map(u32::to_le_bytes).concat();
        match self.chance.place(8) {
            0 => self.call_with_a_short_list("member", &bytes),
            1 => self.call_with_a_word_off("member", &bytes),
            2 => self.call_with_a_number_off("member", &bytes),
            3 => self.call_with_an_interval_off("member", &bytes),
            _ => {
                self.call("member", &bytes);
            }
        }
    }

    /// One call that goes, or may go, wrong: of the record whose turn it is, or for an answer.
    fn disturb(&mut self, made: &Made, records: usize) {
        let asked = self.answers && records >= 1 + REGIONS + made.units && self.chance.one_in(2);
        let (start, size, turn) = made.record(records);
        if turn == "unit" && self.chance.one_in(4) {
            return self.disturb_with_a_run(made, records);
        }
        let kind = if asked { "answer" } else { turn };
        let honest = self.honest_part(made, records);
        if self.chance.one_in(10) {
            self.call_with_an_interval_off(kind, &honest);
        }
        match self.chance.place(13) {
            0 | 1 | 10..=12 => {
                let broken = self.broken(made, start, size, turn);
                let before = self.tally_words();
                self.call(kind, &broken);
                self.put("tally", 0, &before);
            }
            2 => {
                let length = self.chance.place(size);
                self.call(kind, &honest[..length.min(honest.len())]);
            }
            3 => self.call_with_another_record(made, kind),
            4 => self.call_out_of_turn(made, kind, &honest),
            5 => self.call_with_a_short_list(kind, &honest),
            6 => self.call_with_a_word_off(kind, &honest),
            7 => self.call_with_a_number_off(kind, &honest),
            8 => {
                let before = self.tally_words();
                self.call(kind, &[part(&made.bytes, start, size), &[0]].concat());
                self.put("tally", 0, &before);
            }
            // Before the last unit an answer is out of turn, which need not be tried often.
            _ if asked || self.chance.one_in(8) => self.ask(made),
            _ => {}
        }
    }

    /// The record with a fault or two in it, or out of a damaged book.
    fn broken(&mut self, made: &Made, start: usize, size: usize, kind: &str) -> Vec<u8> {
        let whole = part(&made.bytes, start, size);
        if let (Some(kind), true) = (Kind::named(kind), self.chance.one_in(2)) {
            let mut record = whole.to_vec();
            spoil_once_or_twice(&mut self.chance, kind, &mut record);
            return record;
        }
        for _ in 0..30 {
            let bytes = damage(self.chance.draw(), &made.bytes);
            let broken = part(&bytes, start, size);
            if broken.len() == size && broken != whole {
                return broken.to_vec();
            }
        }
        whole.to_vec()
    }

    fn call_with_another_record(&mut self, made: &Made, kind: &str) {
        let other = self.chance.pick(&RECORD_CALLS);
        let length = self.chance.place(400);
        let bytes = match self.any_part(made, other) {
            Some(bytes) if other != kind => bytes,
            _ => (0..length).map(|_| self.chance.draw() as u8).collect(),
        };
        let before = self.tally_words();
        self.call(kind, &bytes);
        self.put("tally", 0, &before);
    }

    fn call_out_of_turn(&mut self, made: &Made, kind: &str, honest: &[u8]) {
        let other = self.chance.pick(&RECORD_CALLS);
        let same_turn = other == kind || (kind == "unit" && other == "units");
        if same_turn {
            // The table of contents begins a new chain, if its bytes are a table.
            let length = self.chance.pick(&[0, 8, CONTENTS_SIZE - 1, CONTENTS_SIZE, CONTENTS_SIZE + 1]);
            let damaged = damage(self.chance.draw(), &made.bytes);
            let broken = self.broken(made, 0, CONTENTS_SIZE, "contents");
            let before = self.tally_words();
            self.call("contents", part(&damaged, 0, length));
            self.call("contents", &broken);
            self.put("tally", 0, &before);
            return;
        }
        let own = self.any_part(made, other);
        let bytes = if self.chance.one_in(3) { None } else { own };
        self.call(other, &bytes.unwrap_or(honest.to_vec()));
    }

    /// How long this list has to be for the call, of a run for any of its records, if the tally is one that it takes;
    /// else as it is lent.
    fn length_here(&mut self, kind: &str, name: &str, honest: &[u8]) -> usize {
        let mut tally = Tally::from_words(&self.tally_words());
        let lent = self.caller.lent.list(name).lent;
        if tally.in_range() && tally.has_turn(kind) {
            if kind == "units" {
                tally.records += self.chance.place(1 + honest.len() / UNIT_SIZE) as i128;
            }
            length_for(kind, name, &tally).min(lent)
        } else {
            lent
        }
    }

    fn call_with_a_short_list(&mut self, kind: &str, honest: &[u8]) {
        let mut name = self.chance.pick(lists_of(kind));
        // In mid-run a list ends that has something of every unit.
        if kind == "units" && self.chance.one_in(2) {
            name = self.chance.pick(&["numbers", "homes", "rows", "groups"]);
        }
        let lent = self.caller.lent.list(name).lent;
        if lent == 0 {
            return;
        }
        let any = self.chance.place(lent);
        let least = self.length_here(kind, name, honest);
        let one_short = least.saturating_sub(1);
        let longer = (least + 1).min(lent);
        let length = self.chance.pick(&[one_short, one_short, one_short, one_short, least, longer, any, any]);
        let before = self.tally_words();
        self.say(format!("lend {name} {length}"));
        let cut = if self.chance.one_in(4) { honest.len() / 2 } else { honest.len() };
        // 12 comes before 11 for lent numbers.
        if self.chance.one_in(4) {
            self.call_with_an_interval_off(kind, &honest[..cut]);
        } else {
            self.call(kind, &honest[..cut]);
        }
        self.say(format!("lend {name} {lent}"));
        self.put("tally", 0, &before);
    }

    fn call_with_a_word_off(&mut self, kind: &str, honest: &[u8]) {
        let before = self.tally_words();
        for _ in 0..self.chance.pick(&[1, 1, 1, 2]) {
            let place = self.chance.place(TALLY_WORDS);
            let word = self.word(place, before[place]);
            self.put("tally", place, &[word]);
        }
        let cut = if self.chance.one_in(4) { honest.len() / 2 } else { honest.len() };
        self.call(kind, &honest[..cut]);
        self.put("tally", 0, &before);
    }

    /// A word of the tally around its limit, its width, or what it was.
    fn word(&mut self, place: usize, before: i128) -> i128 {
        let limit = [512, 32, before, 65_536, 10_000, 75, 100, 0][place];
        let width = [16, 16, 16, 32, 16, 8, 8, 32][place];
        let drawn = self.chance.between(0, u32::MAX as i128);
        let field = 1i128 << width;
        let near = [before - 1, before + 1, limit - 1, limit, limit + 1, 0, 1];
        let wide = [before + field, field - 1, field, drawn, u32::MAX as i128];
        let near = self.chance.pick(&near);
        let wide = self.chance.pick(&wide);
        self.chance.pick(&[near, near, wide]).clamp(0, u32::MAX as i128)
    }

    /// What an answer finds in the other regions at the point of this sum, above zero or below.
    fn other_sums(&self, place: usize) -> i128 {
        let sums = &self.caller.lent.list("sums").numbers;
        let others = (0..REGIONS).filter(|region| *region != place / SUMS_OF_A_REGION);
        others.map(|region| sums[SUMS_OF_A_REGION * region + place % SUMS_OF_A_REGION].abs()).sum()
    }

    /// A measure at or next to a limit: of FM, and of dropped points.
    fn measure_off(&mut self) -> i128 {
        let limits = [-MEASURE_LIMIT, MEASURE_LIMIT, LENT_MEASURE_HIGHEST, DROPPED];
        self.chance.pick(&limits) + self.chance.between(-1, 1)
    }

    /// The largest size that a lent number may have.
    fn limit_of(&mut self, name: &str, place: usize) -> i128 {
        let tally = Tally::from_words(&self.tally_words());
        match name {
            "measures" => MEASURE_LIMIT,
            "sums" => {
                let limit = DEVIATION_LIMIT * tally.units_taken().clamp(0, tally.units.min(UNITS_LIMIT));
                let together = if place < SUMS_OF_A_REGION * REGIONS { self.other_sums(place) } else { 0 };
                self.chance.pick(&[limit, limit - together])
            }
            "homes" => self.chance.pick(&[9, PASSED_OVER]),
            // A unit that joins a group is held to so much a unit taken, a row of an answer to so much a unit of its own.
            "rows" if place % NUMBERS_OF_A_ROW < 2 => {
                let taken = tally.units_taken().clamp(1, UNITS_LIMIT);
                PERFORMANCE_LIMIT * self.chance.pick(&[1, 2, taken, taken])
            }
            "deviations" => DEVIATION_LIMIT * tally.units_taken().clamp(0, UNITS_LIMIT),
            "groups" => i128::from(u16::MAX),
            "rows" => -UNIT_DEFAULT_LOWEST,
            "figures" => match place % FIGURES_OF_A_REGION {
                0 => tally.interval,
                1 => GENERATION_LIMIT,
                2 | 3 => 1,
                _ => -RESIDUAL_DEFAULT_LOWEST,
            },
            _ => 0,
        }
    }

    /// A number at its limit, one over it, or of any kind.
    fn number_off(&mut self, name: &str, place: usize) -> i128 {
        if name == "measures" && !self.chance.one_in(4) {
            return self.measure_off();
        }
        let limit = self.limit_of(name, place);
        let any = self.any_number(name);
        let off = self.chance.pick(&[limit, -limit, limit + 1, -limit - 1, any, 1, -1]);
        let (lowest, highest) = span(name);
        lowest + (off - lowest).rem_euclid(highest - lowest + 1)
    }

    fn call_with_a_number_off(&mut self, kind: &str, honest: &[u8]) {
        let name = self.chance.pick(lists_of(kind));
        let lent = self.caller.lent.list(name).lent;
        if name == "tally" || lent == 0 {
            return;
        }
        // Among the numbers of the region that the record names, every second time.
        let region = usize::from(honest.get(2).copied().unwrap_or(0)).min(REGIONS - 1);
        let of_a_region = match name {
            "measures" => POINTS,
            "sums" => SUMS_OF_A_REGION,
            "figures" => FIGURES_OF_A_REGION,
            _ => lent,
        };
        let any = self.chance.place(lent);
        let in_region = of_a_region * region + self.chance.place(of_a_region);
        let place = if in_region < lent && self.chance.one_in(2) { in_region } else { any };
        let before = self.caller.lent.list(name).numbers[place];
        let tally = self.tally_words();
        let off = self.number_off(name, place);
        self.put(name, place, &[off]);
        let cut = self.chance.pick(&[honest.len(), honest.len(), honest.len() / 2, 2, 0]);
        self.call(kind, &honest[..cut.min(honest.len())]);
        self.put(name, place, &[before]);
        self.put("tally", 0, &tally);
    }

    /// An interval number of another book, or of none: next to this, at an end of its width, the same but for
    /// bits past its width.
    fn interval_off(&mut self, interval: i128) -> i128 {
        let width = 1i128 << 32;
        let any = self.any_number("figures");
        let near = self.chance.pick(&[interval - 1, interval + 1, 0, width - 1]);
        let (first, last) = span("figures");
        let past = [interval + width, interval - width, -1, -interval, width, first, last];
        let past = self.chance.pick(&past);
        self.chance.pick(&[near, past, past, any])
    }

    /// The figures of one region, or of all five, with another interval number than the tally's.
    fn call_with_an_interval_off(&mut self, kind: &str, honest: &[u8]) {
        let tally = self.tally_words();
        let before: Vec<i128> = self.caller.lent.list("figures").numbers.clone();
        let off = self.interval_off(tally[7]);
        let one = self.chance.place(REGIONS);
        let regions = if self.chance.one_in(5) { 0..REGIONS } else { one..one + 1 };
        for region in regions.clone() {
            self.put("figures", FIGURES_OF_A_REGION * region, &[off]);
        }
        // All five of the tally's book again, if it is a number that a tally can have.
        if regions.len() == REGIONS && (0..=u32::MAX as i128).contains(&off) && self.chance.one_in(2) {
            self.put("tally", 7, &[off]);
        }
        let cut = self.chance.pick(&[honest.len(), honest.len(), honest.len() / 2, 2, 0]);
        self.call(kind, &honest[..cut.min(honest.len())]);
        for region in regions {
            let place = FIGURES_OF_A_REGION * region;
            self.put("figures", place, &[before[place]]);
        }
        self.put("tally", 0, &tally);
    }

    /// A tally that could come from a chain over a book like this, at any place in it.
    fn likely_tally(&mut self, made: &Made) -> Vec<i128> {
        let records = self.chance.place(made.records() + 1);
        let drawn = self.chance.between(0, 65_536);
        let smoothing = self.chance.between(1, 10_000);
        vec![
            made.units as i128,
            made.requirements as i128,
            records as i128,
            self.chance.pick(&[0, 0, 0, 0, 1, 65_535, 65_536, drawn]),
            self.chance.pick(&[1, 2_222, 5_000, 10_000, smoothing]),
            self.chance.pick(&[0, 10, 75]),
            self.chance.pick(&[0, 20, 50, 100]),
            self.interval_number(),
        ]
    }

    /// Lent numbers within their limits, in every list that a call reads.
    fn likely_numbers(&mut self, made: &Made, tally: &Tally) {
        let measure_reach = self.chance.pick(&[20_000, 20_000, MEASURE_LIMIT]);
        let dropped_one_in = self.chance.pick(&[1, 2, 5, 20, 1_000]);
        let measures: Vec<i128> = (0..SERIES)
            .map(|_| {
                let measure = self.chance.between(-measure_reach, measure_reach);
                lent_measure(measure, self.chance.one_in(dropped_one_in))
            })
            .collect();
        self.put("measures", 0, &measures);
        let mut most = [0; 2];
        for side in &mut most {
            let parts = self.chance.pick(&[1, REGIONS as i128, 5_000]);
            *side = DEVIATION_LIMIT * tally.units_taken().max(0) / parts;
        }
        for place in 0..2 * REGIONS {
            let (most, sign) = [(most[0], 1), (most[1], -1)][place % 2];
            let sums: Vec<i128> = (0..POINTS).map(|_| sign * self.chance.any_size(most)).collect();
            self.put("sums", POINTS * place, &sums);
        }
        for region in 0..REGIONS {
            let mut figures = vec![tally.interval, self.chance.any_size(GENERATION_LIMIT)];
            figures.extend((0..2).map(|_| i128::from(!self.chance.one_in(8))));
            figures.extend((0..6).map(|_| -self.chance.any_size(-RESIDUAL_DEFAULT_LOWEST)));
            self.put("figures", FIGURES_OF_A_REGION * region, &figures);
        }
        self.likely_rows(made.units);
        self.likely_groups(made, tally);
    }

    /// Rows of units and of groups, the largest of them within what so many units can have.
    fn likely_rows(&mut self, units: usize) {
        let bad_one_in = self.chance.pick(&[3, 10, 100]);
        let passed_one_in = self.chance.pick(&[2, 3, 10, 1_000]);
        let (mut homes, mut rows) = (Vec::new(), Vec::new());
        let mut of_units = 1;
        for _ in 0..units {
            let home = 2 * self.chance.between(0, 4) + i128::from(!self.chance.one_in(bad_one_in));
            let is_passed_over = self.chance.one_in(passed_one_in);
            homes.push(if is_passed_over { PASSED_OVER } else { home });
            let most = PERFORMANCE_LIMIT * of_units;
            for _ in 0..2 {
                let size = self.chance.any_size(most);
                rows.push(self.chance.pick(&[1, -1]) * self.chance.pick(&[size, size, size, most]));
            }
            rows.extend((0..6).map(|_| -self.chance.any_size(-UNIT_DEFAULT_LOWEST)));
            of_units = if is_passed_over { of_units + 1 } else { 1 };
        }
        self.put("homes", 0, &homes);
        self.put("rows", 0, &rows);
    }

    /// The group numbers of the book, mostly, and summed deviations within what so many units can have; the home before a unit
    /// that joins is mostly one of its region.
    fn likely_groups(&mut self, made: &Made, tally: &Tally) {
        let records: Vec<Vec<u8>> =
            made.run(1 + REGIONS, made.units).chunks(UNIT_SIZE).map(<[u8]>::to_vec).collect();
        let mut groups: Vec<i128> =
            records.iter().map(|record| i128::from(record[70]) + 256 * i128::from(record[71])).collect();
        for _ in 0..self.chance.pick(&[0, 0, 0, 1, 3]).min(groups.len()) {
            let (one, other) = (self.chance.place(groups.len()), self.chance.place(groups.len()));
            groups[one] = self.chance.pick(&[groups[other], 0, 1, 65_535]);
        }
        self.put("groups", 0, &groups);
        let taken = tally.units_taken().clamp(0, made.units as i128);
        let most = DEVIATION_LIMIT * taken;
        let deviations: Vec<i128> =
            (0..POINTS).map(|_| self.chance.pick(&[1, -1]) * self.chance.any_size(most)).collect();
        self.put("deviations", 0, &deviations);
        let taken = taken as usize;
        if taken > 0 && taken < made.units && self.chance.one_in(2) {
            let home = 2 * i128::from(records[taken][2]) + self.chance.between(0, 1);
            self.put("homes", taken - 1, &[home]);
        }
    }

    /// Only the interval numbers as the tally has them, over lists as they are.
    fn likely_intervals(&mut self, tally: &Tally) {
        for region in 0..REGIONS {
            self.put("figures", FIGURES_OF_A_REGION * region, &[tally.interval]);
        }
    }

    /// Tallies and lent numbers that no chain has left.
    fn arbitrary(&mut self) {
        let made = self.made_book();
        self.lend_all(made.units, &EXACT_OR_MORE);
        for _ in 0..self.chance.between(3, 8) {
            let tally = self.likely_tally(&made);
            let records = tally[2] as usize;
            self.put("tally", 0, &tally);
            match self.chance.place(15) {
                0 => {}
                1 | 2 => self.likely_intervals(&Tally::from_words(&tally)),
                _ => self.likely_numbers(&made, &Tally::from_words(&tally)),
            }
            let turn = records.min(made.records() - 1);
            for _ in 0..self.chance.between(1, 4) {
                self.disturb(&made, turn);
                self.step(&made, turn);
                if turn >= 1 + REGIONS + made.units {
                    self.ask(&made);
                }
            }
            if self.chance.one_in(4) {
                let any: Vec<i128> = (0..TALLY_WORDS).map(|_| self.any_number("tally")).collect();
                self.put("tally", 0, &any);
                let kind = self.chance.pick(&RECORD_CALLS);
                let honest = if kind == "units" { self.any_part(&made, kind) } else { None };
                let honest = honest.unwrap_or_else(|| self.honest_part(&made, turn));
                self.call(kind, &honest);
            }
        }
    }

    /// The most that may be kept of a full roster, and sums of the wrong sign that no chain leaves: the
    /// weights of an answer come up to their limit or pass it.
    fn heaviest(&mut self) {
        let units = UNITS_LIMIT as usize;
        let mut book = make(self.chance.draw(), "heavy", Some(1)).expect("a class of the list");
        book.requirements.iter_mut().for_each(|requirement| requirement.region_set |= 16 + 8 + 4 + 2);
        let made = Made::of(&book);
        self.lend_all(units, &EXACT_OR_MORE);
        let interval = self.interval_number();
        let records = 6 + UNITS_LIMIT + self.chance.between(0, 1);
        self.put("tally", 0, &[UNITS_LIMIT, 1, records, 0, 10_000, 75, 100, interval]);
        let measure = self.chance.pick(&[MEASURE_LIMIT, -MEASURE_LIMIT]);
        let measure = lent_measure(measure, self.chance.one_in(3));
        self.say(format!("list measures {SERIES} {measure}"));
        let both = self.chance.pick(&[1, -1]);
        let most = DEVIATION_LIMIT * UNITS_LIMIT / REGIONS as i128;
        let sides = [0; 2].map(|_| self.chance.pick(&[both, both, both, -both, 0]) * most);
        let sums = sides.map(|sum| [sum; POINTS]).concat().repeat(REGIONS);
        self.put("sums", 0, &sums);
        let figures = [&[interval, GENERATION_LIMIT, 1, 1][..], &[RESIDUAL_DEFAULT_LOWEST; 6]].concat();
        self.put("figures", 0, &figures.repeat(REGIONS));
        let home = self.chance.between(0, 9);
        self.say(format!("list homes {units} {home}"));
        let sizes = [0; 2].map(|_| self.chance.pick(&[PERFORMANCE_LIMIT, -PERFORMANCE_LIMIT]));
        let row = [&sizes[..], &[UNIT_DEFAULT_LOWEST; 6]].concat();
        self.put("rows", 0, &row.repeat(units));
        if self.chance.one_in(2) {
            self.heaviest_groups(units, sizes);
        }
        self.ask(&made);
    }

    /// The same as groups of so many units, each as heavy as its units together; the last row is passed over where they do not end with it.
    fn heaviest_groups(&mut self, units: usize, sizes: [i128; 2]) {
        let of = self.chance.pick(&[2, 5, 7, 13, 76, 511, units]);
        for row in 0..units {
            let in_group = row % of;
            let [raise, lower] = sizes.map(|size| size * (in_group as i128 + 1));
            self.put("rows", NUMBERS_OF_A_ROW * row, &[raise, lower]);
            if in_group + 1 < of {
                self.put("homes", row, &[PASSED_OVER]);
            }
        }
    }

    /// Every limit once, then sequences until so many calls are made, with stored tallies and units by
    /// runs between them besides.
    pub fn write(&mut self, calls: usize) {
        self.limits();
        self.group_limits();
        let mut made = 0;
        while made < calls {
            let before = self.calls;
            if self.answers && self.chance.one_in(10) {
                self.heaviest();
            } else if self.chance.one_in(2) {
                self.chain();
            } else {
                self.arbitrary();
            }
            made += self.calls - before;
            if self.chance.one_in(2) {
                self.stored();
            }
            if !self.chance.one_in(4) {
                self.by_runs();
            }
        }
    }
}

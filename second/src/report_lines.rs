//! The lines of `reports`: calls of the three doors of the performance report (request R-11), and
//! what each of them replies and leaves. The lines are described in README.md.

use crate::book::*;
use crate::boundary::{length_for, Lent, Tally, NAMES};
use crate::quantities::*;
use crate::records::hex_bytes;
use crate::report_door::*;

/// What a text holds before a call, over and over: bytes that no row has.
pub const TEXT_BEFORE: &[u8; 13] = b"!#$&()*+<=>?@";
/// What the first of the numbers holds before a call; each one after it holds 1 more.
pub const NUMBER_BEFORE: i128 = 7_777_777_777;
/// Bytes or numbers behind what is lent, which are not lent.
pub const BEHIND: usize = 3;
/// The lists that a taken book's report is lent.
pub const REPORT_LISTS: [&str; 5] = ["tally", "figures", "numbers", "homes", "rows"];
/// What the lists hold before a book is taken.
const LIST_BEFORE: i128 = 99;

/// What is changed for one call alone: a list is lent shorter or longer, or one of its numbers is
/// another.
#[derive(Clone, Debug, PartialEq, Eq)]
pub enum Change {
    Lend(&'static str, usize),
    Put(&'static str, usize, i128),
}

#[derive(Clone, Debug, PartialEq, Eq)]
pub enum Line {
    /// A row from its numbers, into a text of so many bytes.
    Row(RowCall, usize),
    /// A row read back into so many numbers.
    Read(usize, Vec<u8>),
    /// A book of which so many records are taken.
    Book(usize, Vec<u8>),
    /// A row of the book taken last: place, version, bytes of the text.
    Report(i128, i128, usize, Vec<Change>),
}

/// A text in one line: what is no plain character, and the backslash, as `\` and two hexadecimal
/// digits.
pub fn escaped(bytes: &[u8]) -> String {
    let mut out = String::new();
    for &byte in bytes {
        match byte {
            b' '..=b'~' if byte != b'\\' => out.push(byte as char),
            _ => out += &format!("\\{byte:02x}"),
        }
    }
    out
}

pub fn unescaped(text: &str) -> Option<Vec<u8>> {
    let mut bytes = Vec::new();
    let mut rest = text;
    while let Some(first) = rest.chars().next() {
        if first == '\\' {
            bytes.push(u8::from_str_radix(rest.get(1..3)?, 16).ok()?);
            rest = &rest[3..];
        } else {
            bytes.push(u8::try_from(first).ok()?);
            rest = &rest[first.len_utf8()..];
        }
    }
    Some(bytes)
}

fn hex(bytes: &[u8]) -> String {
    bytes.iter().map(|byte| format!("{byte:02x}")).collect()
}

fn change_in_words(change: &Change) -> String {
    match change {
        Change::Lend(name, length) => format!(" lend {name} {length}"),
        Change::Put(name, place, number) => format!(" put {name} {place} {number}"),
    }
}

pub fn line_of(line: &Line) -> String {
    match line {
        Line::Row(call, bytes) => {
            let RowCall { interval, residual, number, raise, raise_type, lower, lower_type, version } = call;
            let lower = format!("{lower} {lower_type}");
            format!("row {interval} {residual} {number} {raise} {raise_type} {lower} {version} {bytes}")
        }
        Line::Read(numbers, bytes) => format!("read {numbers} {}", escaped(bytes)),
        Line::Book(records, bytes) => format!("book {records} {}", hex(bytes)),
        Line::Report(place, version, bytes, changes) => {
            let changes: String = changes.iter().map(change_in_words).collect();
            format!("report {place} {version} {bytes}{changes}")
        }
    }
}

fn list_named(word: &str) -> Option<&'static str> {
    NAMES.iter().map(|&(name, ..)| name).find(|name| *name == word)
}

fn changes_in(words: &[&str]) -> Option<Vec<Change>> {
    match words {
        [] => Some(Vec::new()),
        ["lend", name, length, rest @ ..] => {
            let change = Change::Lend(list_named(name)?, length.parse().ok()?);
            Some([vec![change], changes_in(rest)?].concat())
        }
        ["put", name, place, number, rest @ ..] => {
            let change = Change::Put(list_named(name)?, place.parse().ok()?, number.parse().ok()?);
            Some([vec![change], changes_in(rest)?].concat())
        }
        _ => None,
    }
}

fn row_in(words: &[&str]) -> Option<Line> {
    let numbers: Vec<i128> = words.iter().map(|word| word.parse().ok()).collect::<Option<_>>()?;
    let &[interval, residual, number, raise, raise_type, lower, lower_type, version, bytes] = &numbers[..]
    else {
        return None;
    };
    let call = RowCall { interval, residual, number, raise, raise_type, lower, lower_type, version };
    Some(Line::Row(call, bytes as usize))
}

/// The call that a line says.
pub fn line_in(text: &str) -> Option<Line> {
    let (kind, rest) = text.split_once(' ')?;
    if kind == "read" {
        let (numbers, row) = rest.split_once(' ')?;
        return Some(Line::Read(numbers.parse().ok()?, unescaped(row)?));
    }
    let words: Vec<&str> = rest.split(' ').collect();
    match (kind, &words[..]) {
        ("row", words) => row_in(words),
        ("book", [records, bytes]) => Some(Line::Book(records.parse().ok()?, hex_bytes(bytes)?)),
        ("report", [place, version, bytes, changes @ ..]) => Some(Line::Report(
            place.parse().ok()?,
            version.parse().ok()?,
            bytes.parse().ok()?,
            changes_in(changes)?,
        )),
        _ => None,
    }
}

/// A text after a call, with the bytes behind it.
fn text_after(written: &str, bytes: usize) -> Vec<u8> {
    let mut text: Vec<u8> = TEXT_BEFORE.iter().copied().cycle().take(bytes + BEHIND).collect();
    text[..written.len()].copy_from_slice(written.as_bytes());
    text
}

/// The reply's number, the 32 bits above it, and the text.
fn text_answer(kind: &str, written: Result<String, Refusal>, bytes: usize) -> String {
    let (number, length, text) = match &written {
        Ok(text) => (0, text.len(), text.as_str()),
        Err(refusal) => (refusal.number, 0, ""),
    };
    format!("{kind} {number} {length} text {}", escaped(&text_after(text, bytes)))
}

fn read_answer(bytes: &[u8], count: usize) -> String {
    let mut numbers: Vec<i128> = (0..count + BEHIND).map(|place| NUMBER_BEFORE + place as i128).collect();
    let reply = match read_reply(bytes, count) {
        Ok(read) => {
            numbers[..ROW_NUMBERS].copy_from_slice(&read);
            "0 0 0".to_string()
        }
        Err(refusal) => refusal.to_string(),
    };
    let words: String = numbers.iter().map(|number| format!(" {number}")).collect();
    format!("read {reply} numbers{words}")
}

/// The parts of a book in the order of the calls that take them.
fn parts(bytes: &[u8]) -> Vec<(&'static str, &[u8])> {
    let contents = read_contents(bytes).unwrap_or(Contents { units: 0, requirements: 0 });
    let mut kinds = vec![("settings", SETTINGS_SIZE)];
    kinds.extend([("frequency", FREQUENCY_SIZE); REGIONS]);
    kinds.extend(vec![("unit", UNIT_SIZE); contents.units]);
    kinds.extend(vec![("requirement", REQUIREMENT_SIZE); contents.requirements]);
    let mut at = CONTENTS_SIZE;
    let mut parts = Vec::new();
    for (kind, size) in kinds {
        parts.push((kind, bytes.get(at..).unwrap_or(&[])));
        at += size;
    }
    parts
}

/// Who calls the doors of a script, one line after the other: the lists of the book taken last
/// stay.
#[derive(Clone, Debug, Default)]
pub struct ReportDoors {
    pub lent: Lent,
}

impl ReportDoors {
    /// Every list just as long as a book of so many units needs it.
    fn lend_anew(&mut self, units: usize) {
        let words = [units as i128, 1, 6 + units as i128, 0, 1, 0, 0, 0];
        let tally = Tally::from_words(&words);
        for (name, ..) in NAMES {
            self.lent.fill(name, length_for("answer", name, &tally), LIST_BEFORE);
        }
    }

    fn take(&mut self, records: usize, bytes: &[u8]) -> Result<(), Refusal> {
        let units = read_contents(bytes).map_or(0, |contents| contents.units);
        self.lend_anew(units);
        self.lent.call("contents", bytes)?;
        for (kind, part) in parts(bytes).into_iter().take(records) {
            self.lent.call(kind, part)?;
        }
        Ok(())
    }

    fn changed(&self, changes: &[Change]) -> Lent {
        let mut lent = self.lent.clone();
        for change in changes {
            match *change {
                Change::Lend(name, length) => lent.list_mut(name).lent = length,
                Change::Put(name, place, number) => lent.put(name, place, &[number]),
            }
        }
        lent
    }

    /// One call, and what is said of it.
    pub fn answer(&mut self, line: &Line) -> String {
        match line {
            Line::Row(call, bytes) => text_answer("row", row_reply(call, *bytes), *bytes),
            Line::Read(numbers, bytes) => read_answer(bytes, *numbers),
            Line::Book(records, bytes) => {
                let reply = self.take(*records, bytes);
                format!("book {}", reply.map_or_else(|refusal| refusal.to_string(), |()| "0 0 0".to_string()))
            }
            Line::Report(place, version, bytes, changes) => {
                let reply = report_reply(&self.changed(changes), *place, *version, *bytes);
                text_answer("report", reply, *bytes)
            }
        }
    }

    pub fn answer_line(&mut self, text: &str) -> String {
        line_in(text).map_or_else(|| "bad line".to_string(), |line| self.answer(&line))
    }
}

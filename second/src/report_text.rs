//! What the programs `report` and `report_rows` print (request R-11).

use crate::book::{read_book, Refusal};
use crate::report::*;
use crate::report_read::{read_row, ReadRow};

pub const WRONG_VERSION: &str = "report: the one argument is a version, 0 to 65535";
const VERSION_NOT_GIVEN: i128 = 1;
const LONGEST_VERSION: usize = 20;

/// The version that the arguments say; None where they say none. Leading zeros are let in.
pub fn version_of(words: &[String]) -> Option<i128> {
    let [word] = words else {
        return words.is_empty().then_some(VERSION_NOT_GIVEN);
    };
    let digits = !word.is_empty() && word.bytes().all(|byte| byte.is_ascii_digit());
    if !digits || word.len() > LONGEST_VERSION {
        return None;
    }
    word.parse().ok().filter(|&version| version <= VERSION_LIMIT)
}

fn report_or_refusal(bytes: &[u8], version: i128) -> Result<String, Refusal> {
    report_of(&read_book(bytes)?, version)
}

/// All that `report` prints for these bytes.
pub fn report_printed(bytes: &[u8], version: i128) -> String {
    match report_or_refusal(bytes, version) {
        Ok(rows) => rows,
        Err(refusal) => format!("refused {refusal}\n"),
    }
}

fn in_words(row: &ReadRow) -> String {
    let who = match row.who {
        Who::Unit(number) => format!("unit {number}"),
        Who::Residual(region) => format!("residual {}", REGION_NAMES[region]),
    };
    let ReadRow { interval, raise, lower, version, .. } = row;
    let (raise_type, lower_type) = (row.raise_type.word(), row.lower_type.word());
    format!("{interval} {who} {raise} {raise_type} {lower} {lower_type} {version}\n")
}

/// All that `report_rows` prints for these bytes. A row ends with its line feed, the last one
/// perhaps without; rows before the first refused one are told.
pub fn rows_printed(bytes: &[u8]) -> String {
    let mut out = String::new();
    for (place, row) in bytes.split_inclusive(|&byte| byte == b'\n').enumerate() {
        match read_row(row) {
            Ok(row) => out += &in_words(&row),
            Err(refusal) => {
                return out + &format!("refused {} {} {}\n", refusal.number, place + 1, refusal.t)
            }
        }
    }
    out
}

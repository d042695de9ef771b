//! Reading a row of the performance report back (request R-11): its numbers, or 18 with the first
//! wrong column.

use crate::book::Refusal;
use crate::calendar::{days_before, Date, LAST_YEAR};
use crate::report::*;

pub const COLUMNS: usize = 7;
const DECIMALS: usize = 9;

/// A row as it is read: the performances are in billionths.
#[derive(Clone, Copy, Debug, PartialEq, Eq)]
pub struct ReadRow {
    pub interval: i128,
    pub who: Who,
    pub raise: i128,
    pub raise_type: Type,
    pub lower: i128,
    pub lower_type: Type,
    pub version: i128,
}

fn all_digits(text: &str) -> bool {
    !text.is_empty() && text.bytes().all(|byte| byte.is_ascii_digit())
}

/// A whole number without a sign and without a leading zero.
fn whole_number(text: &str) -> Option<i128> {
    if !all_digits(text) || (text.len() > 1 && text.starts_with('0')) {
        return None;
    }
    // What does not fit an i128 is past every limit.
    text.parse().ok()
}

fn whole_number_to(limit: i128, text: &str) -> Option<i128> {
    whole_number(text).filter(|&number| number <= limit)
}

/// The number that stands in so many digits from a place on; leading zeros belong to it.
fn digits_at(text: &str, at: usize, count: usize) -> Option<u32> {
    let digits = text.get(at..at + count)?;
    if !all_digits(digits) {
        return None;
    }
    digits.parse().ok()
}

/// The interval that ends at `DD/MM/YYYY HH:MM:SS`.
pub fn interval_at(text: &str) -> Option<i128> {
    let marks = [(2, '/'), (5, '/'), (10, ' '), (13, ':'), (16, ':')];
    let marked = |(at, mark): (usize, char)| text.as_bytes().get(at) == Some(&(mark as u8));
    if text.len() != 19 || !marks.into_iter().all(marked) {
        return None;
    }
    let date =
        Date { day: digits_at(text, 0, 2)?, month: digits_at(text, 3, 2)?, year: digits_at(text, 6, 4)? };
    let [hour, minute, second] = [digits_at(text, 11, 2)?, digits_at(text, 14, 2)?, digits_at(text, 17, 2)?];
    if date.year > LAST_YEAR || hour > 23 || minute > 59 || minute % 5 != 0 || second != 0 {
        return None;
    }
    let days = i128::from(days_before(date)?);
    Some(INTERVALS_OF_A_DAY * days + i128::from(12 * hour + minute / 5))
}

pub fn who_in(text: &str) -> Option<Who> {
    let Some(name) = text.strip_prefix(RESIDUAL) else {
        return whole_number_to(UNIT_NUMBER_LIMIT, text).map(Who::Unit);
    };
    REGION_NAMES.iter().position(|&region| region == name).map(Who::Residual)
}

/// The billionths of a number with nine decimals; there is no minus zero.
pub fn billionths_in(text: &str) -> Option<i128> {
    let size = text.strip_prefix('-').unwrap_or(text);
    let (whole, decimals) = size.split_once('.')?;
    if decimals.len() != DECIMALS || !all_digits(decimals) {
        return None;
    }
    let whole = whole_number_to(MOST_BILLIONTHS, whole)?;
    let size = 1_000_000_000 * whole + decimals.parse::<i128>().ok()?;
    let is_negative = text.starts_with('-');
    if size > MOST_BILLIONTHS || (is_negative && size == 0) {
        return None;
    }
    Some(if is_negative { -size } else { size })
}

pub fn type_in(text: &str) -> Option<Type> {
    Type::BOTH.into_iter().find(|of_type| of_type.word() == text)
}

/// The seventh column runs to the end of the row, the line feed with it.
pub fn version_in(text: &str) -> Option<i128> {
    whole_number_to(VERSION_LIMIT, text.strip_suffix('\n')?)
}

/// What a column, from 1, says; where it is not there, or does not say it, that is the wrong one.
fn column<T>(columns: &[&[u8]], place: usize, says: fn(&str) -> Option<T>) -> Result<T, Refusal> {
    let text = columns.get(place - 1).and_then(|bytes| std::str::from_utf8(bytes).ok());
    text.and_then(says).ok_or(Refusal::of(18).at_t(place))
}

/// One row with its line feed and nothing after it. The columns are looked at in their order, so
/// that the first wrong one is told.
pub fn read_row(bytes: &[u8]) -> Result<ReadRow, Refusal> {
    let columns: Vec<&[u8]> = bytes.splitn(COLUMNS, |&byte| byte == b',').collect();
    Ok(ReadRow {
        interval: column(&columns, 1, interval_at)?,
        who: column(&columns, 2, who_in)?,
        raise: column(&columns, 3, billionths_in)?,
        raise_type: column(&columns, 4, type_in)?,
        lower: column(&columns, 5, billionths_in)?,
        lower_type: column(&columns, 6, type_in)?,
        version: column(&columns, 7, version_in)?,
    })
}

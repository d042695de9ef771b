//! Dates (request R-11): a day is found by walking from 01/01/2000, year by year and then month by
//! month, as one would count on a calendar on the wall.

pub const FIRST_YEAR: u32 = 2_000;
pub const LAST_YEAR: u32 = 9_999;
pub const MONTHS: u32 = 12;

/// A day by its date; month and day count from 1.
#[derive(Clone, Copy, Debug, PartialEq, Eq, PartialOrd, Ord)]
pub struct Date {
    pub year: u32,
    pub month: u32,
    pub day: u32,
}

/// Gregorian: every fourth year, of full centuries every fourth alone.
pub fn is_leap(year: u32) -> bool {
    if year % 100 == 0 {
        return year % 400 == 0;
    }
    year % 4 == 0
}

pub fn days_of_year(year: u32) -> u32 {
    if is_leap(year) {
        366
    } else {
        365
    }
}

pub fn days_of_month(year: u32, month: u32) -> u32 {
    match month {
        2 if is_leap(year) => 29,
        2 => 28,
        4 | 6 | 9 | 11 => 30,
        _ => 31,
    }
}

/// The date so many days after 01/01/2000.
pub fn date_after(days: u32) -> Date {
    let mut left = days;
    let mut year = FIRST_YEAR;
    while left >= days_of_year(year) {
        left -= days_of_year(year);
        year += 1;
    }
    let mut month = 1;
    while left >= days_of_month(year, month) {
        left -= days_of_month(year, month);
        month += 1;
    }
    Date { year, month, day: left + 1 }
}

/// How many days a date is after 01/01/2000; None where the calendar has no such day, or it is
/// before.
pub fn days_before(date: Date) -> Option<u32> {
    let Date { year, month, day } = date;
    if year < FIRST_YEAR || !(1..=MONTHS).contains(&month) {
        return None;
    }
    if day < 1 || day > days_of_month(year, month) {
        return None;
    }
    let years: u32 = (FIRST_YEAR..year).map(days_of_year).sum();
    let months: u32 = (1..month).map(|month| days_of_month(year, month)).sum();
    Some(years + months + day - 1)
}

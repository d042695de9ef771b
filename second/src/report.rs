//! The performance report as text (request R-11): a row from its numbers, and the rows of a book.

use crate::book::{require, Book, Refusal};
use crate::calendar::{date_after, LAST_YEAR};
use crate::members::{region_residual, unit_member, Member};
use crate::performance::{roster_views, Standing};
use crate::quantities::*;
use crate::roster::grouped;

pub const REGION_NAMES: [&str; REGIONS] = ["QLD1", "NSW1", "VIC1", "SA1", "TAS1"];
/// Before the region's name in the unit column.
pub const RESIDUAL: &str = "Residual ";
/// The last interval that ends before the year 10,000.
pub const LAST_INTERVAL: i128 = 841_518_719;
pub const INTERVALS_OF_A_DAY: i128 = 288;
pub const SHORTEST_ROW: usize = 64;
pub const LONGEST_ROW: usize = 106;
/// The largest number of billionths that a signed 64-bit performance is nearest to, either way.
pub const MOST_BILLIONTHS: i128 = 1_229_782_938_247_303_441;
pub const VERSION_LIMIT: i128 = 65_535;
pub const UNIT_NUMBER_LIMIT: i128 = 65_535;

/// Whose row it is: a unit's or a group's, by its number, or the residual's of a region.
#[derive(Clone, Copy, Debug, PartialEq, Eq)]
pub enum Who {
    Unit(i128),
    Residual(usize),
}

#[derive(Clone, Copy, Debug, PartialEq, Eq)]
pub enum Type {
    Calculated,
    Default,
}

impl Type {
    pub const BOTH: [Type; 2] = [Type::Calculated, Type::Default];

    pub fn word(self) -> &'static str {
        match self {
            Type::Calculated => "Calculated",
            Type::Default => "Default",
        }
    }

    /// Its number in the C calls.
    pub fn number(self) -> i128 {
        match self {
            Type::Calculated => 0,
            Type::Default => 1,
        }
    }
}

/// What is shown of one direction.
#[derive(Clone, Copy, Debug, PartialEq, Eq)]
pub struct Shown {
    pub performance: i128,
    pub of_type: Type,
}

#[derive(Clone, Copy, Debug, PartialEq, Eq)]
pub struct Row {
    pub interval: i128,
    pub who: Who,
    pub raise: Shown,
    pub lower: Shown,
    pub version: i128,
}

/// A performance in billionths of a MWHz; 15 is odd, so that no half is ever met.
pub fn billionths(performance: i128) -> i128 {
    nearest(2 * performance, 15)
}

/// Nine decimals. What is nearest to zero is zero, without a minus.
pub fn in_megawatt_hertz(billionths: i128) -> String {
    let sign = if billionths < 0 { "-" } else { "" };
    let size = billionths.abs();
    format!("{sign}{}.{:09}", size / 1_000_000_000, size % 1_000_000_000)
}

/// When an interval ends: 5 minutes times its number after 01/01/2000 00:00:00.
pub fn date_and_time(interval: i128) -> Result<String, Refusal> {
    let date = date_after((interval / INTERVALS_OF_A_DAY) as u32);
    require(date.year <= LAST_YEAR, 15)?;
    let minutes = 5 * (interval % INTERVALS_OF_A_DAY);
    let (hour, minute) = (minutes / 60, minutes % 60);
    Ok(format!("{:02}/{:02}/{:04} {hour:02}:{minute:02}:00", date.day, date.month, date.year))
}

pub fn unit_column(who: Who) -> String {
    match who {
        Who::Unit(number) => number.to_string(),
        Who::Residual(region) => format!("{RESIDUAL}{}", REGION_NAMES[region]),
    }
}

fn two_columns(shown: Shown) -> String {
    format!("{},{}", in_megawatt_hertz(billionths(shown.performance)), shown.of_type.word())
}

/// The row with its line feed; 15 for a year past 9999.
pub fn row_text(row: &Row) -> Result<String, Refusal> {
    let date = date_and_time(row.interval)?;
    let unit = unit_column(row.who);
    let (raise, lower) = (two_columns(row.raise), two_columns(row.lower));
    Ok(format!("{date},{unit},{raise},{lower},{}\n", row.version))
}

/// A member's payment performance, which is its payment default where that stands in.
fn shown(member: &Member) -> Shown {
    let of_type = match member.standing {
        Standing::Live => Type::Calculated,
        Standing::Default(_) => Type::Default,
    };
    Shown { performance: member.payment_performance, of_type }
}

/// The members of the roster in its order, then the residuals of all five regions.
pub fn rows_of(book: &Book, version: i128) -> Vec<Row> {
    let interval = book.settings.interval;
    let roster = grouped(&book.units);
    let views = roster_views(book, &roster);
    let row = |who: Who, [raise, lower]: [Member; 2]| Row {
        interval,
        who,
        raise: shown(&raise),
        lower: shown(&lower),
        version,
    };
    let mut rows = Vec::new();
    for member in &roster {
        let view = &views[member.region];
        let both = Direction::BOTH.map(|direction| unit_member(direction, member, view));
        rows.push(row(Who::Unit(member.number), both));
    }
    for region in 0..REGIONS {
        let both = Direction::BOTH.map(|direction| region_residual(direction, book, &views, region));
        rows.push(row(Who::Residual(region), both));
    }
    rows
}

/// All rows of a book, or 15.
pub fn report_of(book: &Book, version: i128) -> Result<String, Refusal> {
    rows_of(book, version).iter().map(row_text).collect()
}

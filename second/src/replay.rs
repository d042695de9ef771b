//! `week`: books one after another, replayed as a recorded week; what it prints of them.

use std::collections::BTreeMap;
use std::fmt::{self, Write};

use crate::book::{read_first_book, Book, Refusal};
use crate::members::{region_residual, unit_member, Member};
use crate::performance::{roster_views, Standing};
use crate::quantities::*;
use crate::roster::grouped;
use crate::week::{member_week, Interval, WeekDefault, Whose, INTERVALS_LIMIT};

/// Different numbers of units and groups that a week can have; a group's is its primary's.
pub const NUMBERS_LIMIT: usize = 512;
pub const REGION_NAMES: [&str; REGIONS] = ["QLD1", "NSW1", "VIC1", "SA1", "TAS1"];
/// It says how far it is each time that so many books are through.
pub const BOOKS_A_LINE: usize = 100;

/// A refusal, and the place of its book in the week from 1; 0 where no book is to blame.
#[derive(Clone, Copy, Debug, PartialEq, Eq)]
pub struct RefusedAt {
    pub refusal: Refusal,
    pub book: usize,
}

/// The number, the book's place in the week, the record's place in its body, t.
impl fmt::Display for RefusedAt {
    fn fmt(&self, out: &mut fmt::Formatter) -> fmt::Result {
        let Refusal { number, place, t } = self.refusal;
        write!(out, "{number} {} {place} {t}", self.book)
    }
}

/// A member's record, for raise and for lower.
#[derive(Clone, Debug, Default)]
struct Record {
    weeks: [Vec<Interval>; 2],
    /// The most units that it was of in a book; a residual is of none.
    most_units: usize,
}

impl Record {
    fn take(&mut self, units: usize, member_of: impl Fn(Direction) -> Member) {
        self.most_units = self.most_units.max(units);
        for (week, direction) in self.weeks.iter_mut().zip(Direction::BOTH) {
            let member = member_of(direction);
            // A live member's payment performance is its own.
            week.push((member.standing == Standing::Live).then_some(member.payment_performance));
        }
    }

    /// The week is that of its most units: in each book it kept to the limit of those that it had there.
    fn line(&self, name: &str) -> Result<String, Refusal> {
        let whose = Whose::from_number(self.most_units as i128)?;
        let [raise, lower] = &self.weeks;
        let words = |WeekDefault { live, default }| format!("{live} {default}");
        let raise = words(member_week(whose, raise)?);
        let lower = words(member_week(whose, lower)?);
        Ok(format!("{name} raise {raise} lower {lower}\n"))
    }
}

/// What is kept of the books so far, of units and groups by their number. One that a book does not have is not live there, so
/// nothing is noted of it.
#[derive(Clone, Debug, Default)]
struct Records {
    units: BTreeMap<i128, Record>,
    residuals: [Record; REGIONS],
}

impl Records {
    /// A book without a refusal of its own; one more number than there may be is refusal 5.
    fn take(&mut self, book: &Book) -> Result<(), Refusal> {
        let roster = grouped(&book.units);
        let views = roster_views(book, &roster);
        for member in &roster {
            let view = &views[member.region];
            let record = self.units.entry(member.number).or_default();
            record.take(member.units, |direction| unit_member(direction, member, view));
        }
        for (region, residual) in self.residuals.iter_mut().enumerate() {
            residual.take(0, |direction| region_residual(direction, book, &views, region));
        }
        if self.units.len() > NUMBERS_LIMIT {
            return Err(Refusal::of(5));
        }
        Ok(())
    }

    /// A line a unit or group in rising number, then one a region.
    fn lines(&self) -> Result<String, Refusal> {
        let mut out = String::new();
        for (number, record) in &self.units {
            out += &record.line(&format!("unit {number}"))?;
        }
        for (name, record) in REGION_NAMES.iter().zip(&self.residuals) {
            out += &record.line(&format!("residual {name}"))?;
        }
        Ok(out)
    }
}

/// The books of a week, each where the one before ends; `progress` is told after every book how many are
/// through.
fn lines_or_refusal(bytes: &[u8], mut progress: impl FnMut(usize)) -> Result<String, RefusedAt> {
    let mut records = Records::default();
    let mut rest = bytes;
    let mut books = 0;
    while !rest.is_empty() {
        let nth = books + 1;
        let in_book = |refusal| RefusedAt { refusal, book: nth };
        if books == INTERVALS_LIMIT {
            return Err(in_book(Refusal::of(17)));
        }
        let (book, end) = read_first_book(rest).map_err(in_book)?;
        records.take(&book).map_err(in_book)?;
        rest = &rest[end..];
        books = nth;
        progress(books);
    }
    records.lines().map_err(|refusal| RefusedAt { refusal, book: 0 })
}

/// All that `week` prints for these bytes, and all that it says on standard error.
pub fn replay(bytes: &[u8]) -> (String, String) {
    let mut said = String::new();
    let told = lines_or_refusal(bytes, |books| {
        if books % BOOKS_A_LINE == 0 {
            writeln!(said, "{books} books").unwrap();
        }
    });
    let printed = told.unwrap_or_else(|refused| format!("refused {refused}\n"));
    (printed, said)
}

//! The three C calls of the performance report (request R-11) as firmware makes them: a row from
//! its numbers, a row of a taken book, a row read back. Each gives what it writes, or its refusal.

use crate::book::{require, Refusal};
use crate::boundary::*;
use crate::quantities::*;
use crate::report::*;
use crate::report_read::read_row;

/// The numbers of a row that was read.
pub const ROW_NUMBERS: usize = 8;

/// A row as the call is handed it: numbers of any size that its arguments can hold.
#[derive(Clone, Copy, Debug, PartialEq, Eq)]
pub struct RowCall {
    pub interval: i128,
    pub residual: i128,
    pub number: i128,
    pub raise: i128,
    pub raise_type: i128,
    pub lower: i128,
    pub lower_type: i128,
    pub version: i128,
}

fn type_of(number: i128) -> Option<Type> {
    Type::BOTH.into_iter().find(|of_type| of_type.number() == number)
}

fn who_of(residual: i128, number: i128) -> Option<Who> {
    match residual {
        0 if number <= UNIT_NUMBER_LIMIT => Some(Who::Unit(number)),
        1 if number < REGIONS as i128 => Some(Who::Residual(number as usize)),
        _ => None,
    }
}

impl RowCall {
    /// The row that is meant; None where a number is over its field's width.
    fn row(&self) -> Option<Row> {
        let raise = Shown { performance: self.raise, of_type: type_of(self.raise_type)? };
        let lower = Shown { performance: self.lower, of_type: type_of(self.lower_type)? };
        let who = who_of(self.residual, self.number)?;
        let version = Some(self.version).filter(|&version| version <= VERSION_LIMIT)?;
        Some(Row { interval: self.interval, who, raise, lower, version })
    }

    /// How long its row is; None where there is none.
    pub fn row_length(&self) -> Option<usize> {
        row_text(&self.row()?).ok().map(|text| text.len())
    }
}

/// 15, then 12 where the text is shorter than the row.
fn text_within(row: &Row, text_bytes: usize) -> Result<String, Refusal> {
    let text = row_text(row)?;
    require(text.len() <= text_bytes, 12)?;
    Ok(text)
}

/// What `dullavane_report_row` writes.
pub fn row_reply(call: &RowCall, text_bytes: usize) -> Result<String, Refusal> {
    let row = call.row().ok_or(Refusal::of(11))?;
    text_within(&row, text_bytes)
}

/// What `dullavane_report_read` writes.
pub fn read_reply(bytes: &[u8], numbers: usize) -> Result<[i128; ROW_NUMBERS], Refusal> {
    require(numbers >= ROW_NUMBERS, 12)?;
    let row = read_row(bytes)?;
    let (residual, number) = match row.who {
        Who::Unit(number) => (0, number),
        Who::Residual(region) => (1, region as i128),
    };
    let (raise_type, lower_type) = (row.raise_type.number(), row.lower_type.number());
    Ok([row.interval, residual, number, row.raise, raise_type, row.lower, lower_type, row.version])
}

/// What the lists keep of a book, once every unit is taken.
struct Kept<'a> {
    lent: &'a Lent,
    units: usize,
}

impl Kept<'_> {
    fn home(&self, row: usize) -> i128 {
        self.lent.lent("homes")[row]
    }

    /// The rows of the roster that are a member's: those that are not passed over.
    fn members(&self) -> Vec<usize> {
        (0..self.units).filter(|&row| self.home(row) != PASSED_OVER).collect()
    }

    fn row_holds(&self, row: usize) -> bool {
        self.lent.row_in_range(row, self.lent.units_of_row(row))
    }

    fn reliable(&self, region: usize) -> [bool; 2] {
        [0, 1].map(|side| self.lent.figures(region)[RELIABLE + side] == 1)
    }

    /// A member as its row has it; None where a number that is read is out of range.
    fn member(&self, row: usize) -> Option<(Who, [Shown; 2])> {
        let home = self.home(row);
        if home >= PASSED_OVER || !self.row_holds(row) {
            return None;
        }
        let region = (home / 2) as usize;
        if !self.lent.figures_in_range(region) {
            return None;
        }
        let (performances, defaults) = self.lent.row(row).split_at(UNIT_DEFAULTS);
        let live = self.reliable(region).map(|reliable| reliable && home % 2 == 1);
        let shown = both_shown(live, [performances[0], performances[1]], defaults);
        Some((Who::Unit(self.lent.lent("numbers")[row]), shown))
    }

    /// The residual of a region: minus the performances of its good members, where it is live.
    fn residual(&self, region: usize) -> Option<[Shown; 2]> {
        let holds = |row: usize| self.home(row) <= PASSED_OVER && self.row_holds(row);
        if !self.lent.figures_in_range(region) || !(0..self.units).all(holds) {
            return None;
        }
        let of_region = |&row: &usize| self.home(row) / 2 == region as i128;
        let members: Vec<usize> = self.members().into_iter().filter(of_region).collect();
        let good: Vec<usize> = members.iter().copied().filter(|&row| self.home(row) % 2 == 1).collect();
        let has_good_or_none = members.is_empty() || !good.is_empty();
        let live = self.reliable(region).map(|reliable| reliable && has_good_or_none);
        let sum = |side: usize| good.iter().map(|&row| self.lent.row(row)[side]).sum::<i128>();
        Some(both_shown(live, [-sum(0), -sum(1)], &self.lent.figures(region)[RESIDUAL_DEFAULTS..]))
    }

    /// The report's row of a place: a member's, or behind them a region's.
    fn report_row(&self, place: i128) -> Option<(Who, [Shown; 2])> {
        let members = self.members();
        let place = usize::try_from(place).ok()?;
        if let Some(&row) = members.get(place) {
            return self.member(row);
        }
        let region = place - members.len();
        if region >= REGIONS {
            return None;
        }
        self.residual(region).map(|shown| (Who::Residual(region), shown))
    }
}

/// Raise and lower, each live or by its own payment default.
fn both_shown(live: [bool; 2], performances: [i128; 2], defaults: &[i128]) -> [Shown; 2] {
    let defaults: &[i128; 6] = defaults.try_into().expect("six defaults");
    [0, 1].map(|side| {
        if live[side] {
            return Shown { performance: performances[side], of_type: Type::Calculated };
        }
        let default = Direction::BOTH[side].payment_default(defaults);
        Shown { performance: default, of_type: Type::Default }
    })
}

/// What `dullavane_report` writes: tally and lists are tested first, then the row, 15 and the text.
pub fn report_reply(lent: &Lent, place: i128, version: i128, text_bytes: usize) -> Result<String, Refusal> {
    let tally = lent.tally_for("report")?;
    require(version <= VERSION_LIMIT, 11)?;
    lent.long_for("report", &tally)?;
    require(lent.of_this_book(&tally), 11)?;
    let kept = Kept { lent, units: tally.units as usize };
    let (who, [raise, lower]) = kept.report_row(place).ok_or(Refusal::of(11))?;
    text_within(&Row { interval: tally.interval, who, raise, lower, version }, text_bytes)
}

//! Defaults from seven days of record (001, 6.4.1; request R-7): the sum of min(0, performance) over the
//! live intervals, divided by their number.

use crate::book::Refusal;
use crate::quantities::*;

/// Intervals of five minutes in seven days.
pub const INTERVALS_LIMIT: usize = 2_016;
/// Units that a group can have.
pub const GROUP_LIMIT: i128 = 512;
/// The largest performance of a residual: that of 512 units.
pub const RESIDUAL_PERFORMANCE_LIMIT: i128 = GROUP_LIMIT * PERFORMANCE_LIMIT;

fn require(holds: bool, number: u8) -> Result<(), Refusal> {
    if holds {
        Ok(())
    } else {
        Err(Refusal::of(number))
    }
}

/// The member that a week is of.
#[derive(Clone, Copy, Debug, PartialEq, Eq)]
pub enum Whose {
    Residual,
    Unit,
    Group(i128),
}

impl Whose {
    /// As a number: 0 a residual, 1 a unit, 2 to 512 a group of so many units.
    pub fn from_number(number: i128) -> Result<Whose, Refusal> {
        require((0..=GROUP_LIMIT).contains(&number), 5)?;
        Ok(match number {
            0 => Whose::Residual,
            1 => Whose::Unit,
            units => Whose::Group(units),
        })
    }

    /// A live performance is at most this, either way.
    pub fn performance_limit(self) -> i128 {
        match self {
            Whose::Residual => RESIDUAL_PERFORMANCE_LIMIT,
            Whose::Unit => PERFORMANCE_LIMIT,
            Whose::Group(units) => units * PERFORMANCE_LIMIT,
        }
    }

    /// The limit of the book's field that the default is for; a group's stands in its primary's record.
    pub fn default_lowest(self) -> i128 {
        match self {
            Whose::Residual => RESIDUAL_DEFAULT_LOWEST,
            Whose::Unit | Whose::Group(_) => UNIT_DEFAULT_LOWEST,
        }
    }
}

/// An interval of a record: its performance where it is live. What else stands there is not looked at.
pub type Interval = Option<i128>;

/// How many intervals are live, and the default that they give.
#[derive(Clone, Copy, Debug, PartialEq, Eq)]
pub struct WeekDefault {
    pub live: i128,
    pub default: i128,
}

/// A live performance that the member can have.
pub fn can_perform(whose: Whose, interval: Interval) -> bool {
    let limit = whose.performance_limit();
    interval.is_none_or(|performance| (-limit..=limit).contains(&performance))
}

/// Refusal 17: too many intervals, or a live performance that no such member can have.
fn within_limits(whose: Whose, week: &[Interval]) -> Result<(), Refusal> {
    require(week.len() <= INTERVALS_LIMIT, 17)?;
    require(week.iter().all(|&interval| can_perform(whose, interval)), 17)
}

/// The average of a total over so many live intervals; refusal 14 where the book's field cannot hold it.
fn average(whose: Whose, live: i128, total: i128) -> Result<WeekDefault, Refusal> {
    let default = if live == 0 { 0 } else { nearest(total, live) };
    require(default >= whose.default_lowest(), 14)?;
    Ok(WeekDefault { live, default })
}

fn week_average(whose: Whose, week: &[Interval]) -> Result<WeekDefault, Refusal> {
    let live: Vec<i128> = week.iter().filter_map(|&interval| interval).collect();
    let total = live.iter().map(|&performance| performance.min(0)).sum();
    average(whose, live.len() as i128, total)
}

/// One member's week in one direction.
pub fn member_week(whose: Whose, week: &[Interval]) -> Result<WeekDefault, Refusal> {
    within_limits(whose, week)?;
    week_average(whose, week)
}

/// A whole roster's week: 17 for all members, then 14 for all.
pub fn roster_week(members: &[(Whose, Vec<Interval>)]) -> Result<Vec<WeekDefault>, Refusal> {
    for (whose, week) in members {
        within_limits(*whose, week)?;
    }
    members.iter().map(|(whose, week)| week_average(*whose, week)).collect()
}

/// A running week: the intervals seen, the live ones, and what they total below zero, sign turned, as
/// high times the largest performance of a residual, plus low.
#[derive(Clone, Copy, Debug, Default, PartialEq, Eq)]
pub struct RunningWeek {
    pub seen: i128,
    pub live: i128,
    pub high: i128,
    pub low: i128,
}

impl RunningWeek {
    pub fn total(&self) -> i128 {
        self.high * RESIDUAL_PERFORMANCE_LIMIT + self.low
    }

    /// Whether some run of intervals leaves this record: each live one adds at most the largest performance.
    pub fn is_left(&self) -> bool {
        (0..=INTERVALS_LIMIT as i128).contains(&self.seen)
            && (0..=self.seen).contains(&self.live)
            && (0..RESIDUAL_PERFORMANCE_LIMIT).contains(&self.low)
            && self.high >= 0
            && self.total() <= self.live * RESIDUAL_PERFORMANCE_LIMIT
    }

    /// One interval more: 11, then 5, then 17.
    pub fn add(&self, whose: i128, interval: Interval) -> Result<RunningWeek, Refusal> {
        require(self.is_left(), 11)?;
        let whose = Whose::from_number(whose)?;
        require(self.seen < INTERVALS_LIMIT as i128, 17)?;
        require(can_perform(whose, interval), 17)?;
        let total = self.total() - interval.unwrap_or(0).min(0);
        Ok(RunningWeek {
            seen: self.seen + 1,
            live: self.live + i128::from(interval.is_some()),
            high: total / RESIDUAL_PERFORMANCE_LIMIT,
            low: total % RESIDUAL_PERFORMANCE_LIMIT,
        })
    }

    /// Count and default so far: 11, then 5, then 14.
    pub fn read(&self, whose: i128) -> Result<WeekDefault, Refusal> {
        require(self.is_left(), 11)?;
        average(Whose::from_number(whose)?, self.live, -self.total())
    }
}

//! The doors of a week as firmware calls them: lent lists with the lengths that the caller tells, a
//! reply of 0 or of the refusal's number. The lines are described in README.md.

use crate::book::Refusal;
use crate::week::{member_week, roster_week, Interval, RunningWeek, WeekDefault, Whose};

/// Numbers that stand behind each list that a call may write, and what stands there before the call.
pub const BEHIND: usize = 3;
pub const BEFORE: i128 = 77;
/// Of a list that is told to be longer, so many numbers are there.
pub const MOST_REPLIES: usize = 1_024;
/// Words of a running week, of a reply.
pub const WEEK_WORDS: i128 = 2;
pub const REPLY_NUMBERS: i128 = 2;

/// A list that a call reads: how long the caller says it is, and the numbers that are there.
#[derive(Clone, Debug, PartialEq, Eq)]
pub struct Lent {
    pub length: i128,
    pub numbers: Vec<i128>,
}

fn require(holds: bool, number: u8) -> Result<(), Refusal> {
    if holds {
        Ok(())
    } else {
        Err(Refusal::of(number))
    }
}

/// Bytes that a bit for each of so many intervals takes.
pub fn bytes_for(intervals: i128) -> i128 {
    (intervals + 7) / 8
}

/// A member's intervals: the performances, with a bit for each that says whether it is live.
fn intervals_of(performances: &[i128], live: &[i128]) -> Vec<Interval> {
    performances
        .iter()
        .enumerate()
        .map(|(place, &performance)| (live[place / 8] >> (place % 8) & 1 == 1).then_some(performance))
        .collect()
}

/// The list form: 12, 5, 17, 14.
pub fn week(
    whose: i128,
    performances: &Lent,
    live: &Lent,
    reply_length: i128,
) -> Result<WeekDefault, Refusal> {
    require(live.length >= bytes_for(performances.length), 12)?;
    require(reply_length >= REPLY_NUMBERS, 12)?;
    let whose = Whose::from_number(whose)?;
    member_week(whose, &intervals_of(&performances.numbers, &live.numbers))
}

/// The lists of a roster's week, as they are lent.
pub struct Roster {
    pub intervals: i128,
    pub whose: Lent,
    pub performances: Lent,
    pub live: Lent,
    pub counts_length: i128,
    pub defaults_length: i128,
}

/// The roster form: 12, 5 for all members, 17 for all, 14 for all.
pub fn weeks(roster: &Roster) -> Result<Vec<WeekDefault>, Refusal> {
    let members = roster.whose.length;
    let bytes = bytes_for(roster.intervals);
    require(roster.performances.length >= members * roster.intervals, 12)?;
    require(roster.live.length >= members * bytes, 12)?;
    require(roster.counts_length >= members && roster.defaults_length >= members, 12)?;
    let (intervals, bytes) = (roster.intervals as usize, bytes as usize);
    let mut all = Vec::new();
    for (place, &whose) in roster.whose.numbers.iter().enumerate() {
        let performances = &roster.performances.numbers[place * intervals..][..intervals];
        let live = &roster.live.numbers[place * bytes..][..bytes];
        all.push((Whose::from_number(whose)?, intervals_of(performances, live)));
    }
    roster_week(&all)
}

/// The two words of a running week; None where a bit stands that belongs to no field.
fn unpacked(words: &[i128]) -> Option<RunningWeek> {
    let field = |place: u32| words[1] >> (16 * place) & 0xFFFF;
    let fits = words[1] < 1 << 48;
    fits.then(|| RunningWeek { seen: field(0), live: field(1), high: field(2), low: words[0] })
}

pub fn packed(week: &RunningWeek) -> [i128; 2] {
    [week.low, week.seen + (week.live << 16) + (week.high << 32)]
}

/// The record in so many words, the first two of them its own: 12, then 11.
fn record(words: &[i128], length: i128) -> Result<RunningWeek, Refusal> {
    require(length >= WEEK_WORDS, 12)?;
    unpacked(words).ok_or(Refusal::of(11))
}

pub fn week_add(
    whose: i128,
    interval: Interval,
    words: &[i128],
    length: i128,
) -> Result<RunningWeek, Refusal> {
    record(words, length)?.add(whose, interval)
}

pub fn week_read(
    whose: i128,
    words: &[i128],
    length: i128,
    reply_length: i128,
) -> Result<WeekDefault, Refusal> {
    require(length >= WEEK_WORDS && reply_length >= REPLY_NUMBERS, 12)?;
    record(words, length)?.read(whose)
}

/// What the caller holds between two lines: the words of one running week, and those behind them.
pub struct Doors {
    words: [i128; 2 + BEHIND],
}

impl Default for Doors {
    fn default() -> Doors {
        Doors { words: [0, 0, BEFORE, BEFORE, BEFORE] }
    }
}

/// What a list that the call may write holds after it, the numbers behind it too.
fn written(length: i128, numbers: &[i128]) -> String {
    let room = length.min(MOST_REPLIES as i128) as usize + BEHIND;
    let mut all = vec![BEFORE; room];
    all[..numbers.len()].copy_from_slice(numbers);
    all.iter().map(|number| format!(" {number}")).collect()
}

/// A list in one word, `LENGTH:N1,N2,...`; `TIMES*N` is the same number so many times.
fn parsed_list(word: &str) -> Option<Lent> {
    let (length, rest) = word.split_once(':')?;
    let mut numbers = Vec::new();
    for run in rest.split(',').filter(|run| !run.is_empty()) {
        let (times, number) = run.split_once('*').unwrap_or(("1", run));
        numbers.extend(std::iter::repeat_n(number.parse::<i128>().ok()?, times.parse().ok()?));
    }
    Some(Lent { length: length.parse().ok()?, numbers })
}

/// The reply's number, and of a call that is not refused what it writes.
fn parted<T>(result: Result<T, Refusal>) -> (u8, Option<T>) {
    match result {
        Ok(answer) => (0, Some(answer)),
        Err(refusal) => (refusal.number, None),
    }
}

fn pair(answer: Option<WeekDefault>) -> Vec<i128> {
    answer.map_or(Vec::new(), |WeekDefault { live, default }| vec![live, default])
}

impl Doors {
    fn words_line(&self) -> String {
        self.words.iter().map(|word| format!(" {word}")).collect()
    }

    fn week_line(&self, words: &[&str]) -> Option<String> {
        let &[whose, performances, live, reply_length] = words else {
            return None;
        };
        let reply_length = reply_length.parse().ok()?;
        let (performances, live) = (parsed_list(performances)?, parsed_list(live)?);
        let (reply, answer) = parted(week(whose.parse().ok()?, &performances, &live, reply_length));
        Some(format!("week {reply}{}", written(reply_length, &pair(answer))))
    }

    fn weeks_line(&self, words: &[&str]) -> Option<String> {
        let &[intervals, whose, performances, live, counts_length, defaults_length] = words else {
            return None;
        };
        let roster = Roster {
            intervals: intervals.parse().ok()?,
            whose: parsed_list(whose)?,
            performances: parsed_list(performances)?,
            live: parsed_list(live)?,
            counts_length: counts_length.parse().ok()?,
            defaults_length: defaults_length.parse().ok()?,
        };
        let (reply, answer) = parted(weeks(&roster));
        let answer = answer.unwrap_or_default();
        let counts: Vec<i128> = answer.iter().map(|member| member.live).collect();
        let defaults: Vec<i128> = answer.iter().map(|member| member.default).collect();
        Some(format!(
            "weeks {reply} counts{} defaults{}",
            written(roster.counts_length, &counts),
            written(roster.defaults_length, &defaults)
        ))
    }

    fn keep_line(&mut self, words: &[&str]) -> Option<String> {
        let &[first, second] = words else {
            return None;
        };
        self.words = Doors::default().words;
        self.words[0] = first.parse().ok()?;
        self.words[1] = second.parse().ok()?;
        Some(format!("keep{}", self.words_line()))
    }

    fn add_line(&mut self, words: &[&str]) -> Option<String> {
        let &[whose, live, performance, length] = words else {
            return None;
        };
        let performance = performance.parse().ok()?;
        let interval = (live == "1").then_some(performance);
        let (reply, answer) =
            parted(week_add(whose.parse().ok()?, interval, &self.words, length.parse().ok()?));
        if let Some(week) = answer {
            self.words[..2].copy_from_slice(&packed(&week));
        }
        Some(format!("add {reply}{}", self.words_line()))
    }

    fn read_line(&self, words: &[&str]) -> Option<String> {
        let &[whose, length, reply_length] = words else {
            return None;
        };
        let reply_length = reply_length.parse().ok()?;
        let (reply, answer) =
            parted(week_read(whose.parse().ok()?, &self.words, length.parse().ok()?, reply_length));
        Some(format!("read {reply}{} words{}", written(reply_length, &pair(answer)), self.words_line()))
    }

    /// One line of a script, and the line that answers it.
    pub fn line(&mut self, line: &str) -> String {
        let words: Vec<&str> = line.split(' ').collect();
        let answer = match words[0] {
            "week" => self.week_line(&words[1..]),
            "weeks" => self.weeks_line(&words[1..]),
            "keep" => self.keep_line(&words[1..]),
            "add" => self.add_line(&words[1..]),
            "read" => self.read_line(&words[1..]),
            _ => None,
        };
        answer.unwrap_or_else(|| panic!("bad line {line}"))
    }
}

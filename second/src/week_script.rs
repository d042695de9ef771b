//! Scripts of random weeks for the doors: whole ones, ones at every edge, lists too short, records of a
//! running week that no run leaves.

use std::io::{self, Write};

use crate::chance::Chance;
use crate::doors::{bytes_for, packed, BEHIND};
use crate::quantities::PERFORMANCE_LIMIT;
use crate::week::*;

const I64_LEAST: i128 = i64::MIN as i128;
const I64_MOST: i128 = i64::MAX as i128;
const U64_MOST: i128 = u64::MAX as i128;

/// A made week of one member: who it is, and at each interval whether it is live, and what stands there.
#[derive(Clone, Debug)]
struct MadeWeek {
    whose: i128,
    live: Vec<bool>,
    performances: Vec<i128>,
}

/// The edges of a week that its performances are drawn around.
#[derive(Clone, Copy)]
enum Style {
    Small,
    AnySize,
    Limits,
    AllAtLimit,
    Halves,
    AroundDefault,
    Beyond,
    Raw,
}

const STYLES: [Style; 8] = [
    Style::Small,
    Style::AnySize,
    Style::Limits,
    Style::AllAtLimit,
    Style::Halves,
    Style::AroundDefault,
    Style::Beyond,
    Style::Raw,
];

/// Styles of weeks that are seldom refused, so that most members of a roster have an answer.
const CALM: [Style; 3] = [Style::Small, Style::Halves, Style::AnySize];

fn draw_whose(chance: &mut Chance) -> i128 {
    let group = chance.between(2, GROUP_LIMIT);
    if chance.one_in(12) {
        return chance.pick(&[513, 513, 514, 1_000, 65_535]);
    }
    chance.pick(&[0, 0, 0, 1, 1, 1, 2, 2, 3, 511, 512, group])
}

/// The limits of a member; one that is refused has a residual's.
fn limits_of(whose: i128) -> (i128, i128) {
    let whose = Whose::from_number(whose).unwrap_or(Whose::Residual);
    (whose.performance_limit(), -whose.default_lowest())
}

fn draw_live(chance: &mut Chance, intervals: usize) -> Vec<bool> {
    let often = chance.pick(&[1, 1, 1, 2, 2, 7, 40]);
    let mut live: Vec<bool> = (0..intervals).map(|_| chance.one_in(often)).collect();
    if intervals > 0 && chance.one_in(4) {
        let place = chance.place(intervals);
        live.fill(chance.one_in(2));
        live[place] = !live[place];
    }
    live
}

/// So many parts of at most a limit that add up to a total, unevenly.
fn parts(chance: &mut Chance, total: i128, count: usize, limit: i128) -> Vec<i128> {
    let each = total / count as i128;
    let over = (total % count as i128) as usize;
    let mut all: Vec<i128> = (0..count).map(|place| each + i128::from(place < over)).collect();
    for _ in 0..count {
        let (from, to) = (chance.place(count), chance.place(count));
        if from != to {
            let moved = chance.between(0, all[from].min(limit - all[to]));
            all[from] -= moved;
            all[to] += moved;
        }
    }
    all
}

/// What the live ones total below zero, sign turned: about a half of their number off a whole average.
fn total_at_a_half(chance: &mut Chance, live: i128, average: i128) -> i128 {
    average * live + live / 2 + chance.pick(&[-1, 0, 0, 0, 1])
}

/// At the book field's limit, or where the average is rounded to it or to one below.
fn total_at_the_default(chance: &mut Chance, live: i128, lowest: i128) -> i128 {
    lowest * live + chance.pick(&[0, -1, 1, live / 2 - 1, live / 2, live / 2 + 1, (live + 1) / 2, live])
}

/// Live performances that make up such a total, with some above zero among them.
fn made_up(chance: &mut Chance, week: &mut MadeWeek, total: impl Fn(&mut Chance, i128, i128) -> i128) {
    let (limit, lowest) = limits_of(week.whose);
    let places: Vec<usize> = (0..week.live.len()).filter(|&place| week.live[place]).collect();
    if places.is_empty() {
        return;
    }
    let count = places.len() as i128;
    let below = chance.between((count + 1) / 2, count);
    let total = total(chance, count, lowest.min(limit)).clamp(0, below * limit);
    let mut sizes = parts(chance, total, below as usize, limit);
    while sizes.len() < places.len() {
        let place = chance.place(sizes.len() + 1);
        sizes.insert(place, -chance.any_size(limit));
    }
    for (place, size) in places.into_iter().zip(sizes) {
        week.performances[place] = -size;
    }
}

fn draw_performance(chance: &mut Chance, style: Style, limit: i128) -> i128 {
    let size = chance.any_size(limit);
    match style {
        Style::Small => chance.between(-10, 10),
        Style::AnySize | Style::Halves | Style::AroundDefault => chance.pick(&[size, -size, -size]),
        Style::Limits | Style::Beyond => chance.pick(&[-limit, 1 - limit, -1, 0, 1, limit - 1, limit]),
        Style::AllAtLimit => -limit,
        Style::Raw => chance.between(I64_LEAST, I64_MOST),
    }
}

fn draw_week(chance: &mut Chance, whose: i128, intervals: usize, style: Style) -> MadeWeek {
    let (limit, _) = limits_of(whose);
    let live = draw_live(chance, intervals);
    let performances = (0..intervals).map(|_| draw_performance(chance, style, limit)).collect();
    let mut week = MadeWeek { whose, live, performances };
    match style {
        Style::Halves => {
            // Far enough from the limit that a half more still fits.
            let average = chance.any_size(limit / 3);
            made_up(chance, &mut week, |chance, live, _| total_at_a_half(chance, live, average));
        }
        Style::AroundDefault => made_up(chance, &mut week, total_at_the_default),
        Style::Beyond if intervals > 0 => {
            let place = chance.place(intervals);
            let beyond = [limit + 1, -limit - 1, limit + 1, -limit - 1, I64_LEAST, I64_LEAST + 1, I64_MOST];
            week.performances[place] = chance.pick(&beyond);
        }
        _ => {}
    }
    // What stands at an interval that is not live is not looked at.
    if chance.one_in(2) {
        for place in (0..intervals).filter(|&place| !week.live[place]) {
            week.performances[place] = chance.pick(&[I64_LEAST, I64_MOST, -limit - 1, -1, -limit]);
        }
    }
    week
}

/// A week of a member that is refused with this number, if it has an interval.
fn refused_week(number: u8, intervals: usize) -> MadeWeek {
    let (whose, performance) = match number {
        5 => (GROUP_LIMIT + 1, 0),
        14 => (2, -PERFORMANCE_LIMIT - 1),
        _ => (1, PERFORMANCE_LIMIT + 1),
    };
    MadeWeek { whose, live: vec![true; intervals], performances: vec![performance; intervals] }
}

/// A bit for each interval; the spare ones are anything.
fn live_bytes(chance: &mut Chance, live: &[bool]) -> Vec<i128> {
    let bytes = bytes_for(live.len() as i128) as usize;
    let any = chance.between(0, 255);
    let spare = chance.pick(&[0, 255, any]);
    let bit = |place: usize| match live.get(place) {
        Some(&live) => i128::from(live),
        None => spare >> (place % 8) & 1,
    };
    (0..bytes).map(|byte| (0..8).map(|place| bit(8 * byte + place) << place).sum()).collect()
}

/// A list in one word, equal neighbours together.
fn list_word(length: i128, numbers: &[i128]) -> String {
    let runs: Vec<String> = numbers
        .chunk_by(|one, next| one == next)
        .map(|run| match run.len() {
            1 => run[0].to_string(),
            times => format!("{times}*{}", run[0]),
        })
        .collect();
    format!("{length}:{}", runs.join(","))
}

/// Lengths of a week: small ones, and now and then the longest and those over it.
fn draw_intervals(chance: &mut Chance) -> usize {
    if chance.one_in(30) {
        return chance.pick(&[2_015, 2_016, 2_016, 2_017, 2_024]);
    }
    if chance.one_in(200) {
        return chance.pick(&[65_536, 65_537, 65_541]);
    }
    let any = chance.place(41);
    chance.pick(&[0, 1, 2, 3, 4, 5, 7, 8, 9, 13, 16, 17, any, any])
}

/// Mostly what is needed, or more, or one short.
fn draw_length(chance: &mut Chance, needed: i128) -> i128 {
    let wrong = chance.between(0, needed - 1);
    match chance.between(1, 20) {
        1 => needed - 1,
        2 => wrong,
        3..=5 => needed + chance.between(1, BEHIND as i128),
        _ => needed,
    }
}

struct Script<W: Write> {
    chance: Chance,
    out: W,
}

impl<W: Write> Script<W> {
    fn say(&mut self, line: &str) -> io::Result<()> {
        writeln!(self.out, "{line}")
    }

    fn list_form(&mut self, week: &MadeWeek) -> io::Result<()> {
        let chance = &mut self.chance;
        let mut live = live_bytes(chance, &week.live);
        if !live.is_empty() && chance.one_in(10) {
            live.truncate(live.len() - 1);
        } else if chance.one_in(8) {
            live.extend([255, 0, 170]);
        }
        let reply_length = draw_length(chance, 2);
        let performances = list_word(week.performances.len() as i128, &week.performances);
        let live = list_word(live.len() as i128, &live);
        self.say(&format!("week {} {performances} {live} {reply_length}", week.whose))
    }

    /// The same week interval by interval, read now and then and at the end.
    fn running_form(&mut self, week: &MadeWeek) -> io::Result<()> {
        self.say("keep 0 0")?;
        for (live, performance) in week.live.iter().zip(&week.performances) {
            self.say(&format!("add {} {} {performance} 2", week.whose, u8::from(*live)))?;
            if self.chance.one_in(9) {
                self.say(&format!("read {} 2 2", week.whose))?;
            }
        }
        self.say(&format!("read {} 2 2", week.whose))
    }

    /// A record of any kind, most of them such as a run leaves.
    fn draw_record(&mut self) -> [i128; 2] {
        let chance = &mut self.chance;
        let wrong = chance.one_in(3);
        let seen = chance.pick(&[0, 1, 2, 7, 1_000, 2_014, 2_015, 2_016]);
        let any = chance.between(0, seen);
        let live = chance.pick(&[seen, seen, any, any, 1.min(seen), 0]);
        let less = (live - 1).max(0);
        let any = chance.between(0, less);
        let high = chance.pick(&[0, any, less, less, live]);
        let any = chance.between(0, RESIDUAL_PERFORMANCE_LIMIT - 1);
        let low = chance.pick(&[0, 0, 1, any, any, RESIDUAL_PERFORMANCE_LIMIT - 1]);
        let low = if high == live { 0 } else { low };
        let mut week = RunningWeek { seen, live, high, low };
        let mut words = packed(&week);
        if wrong {
            match chance.place(8) {
                0 => week.seen = chance.pick(&[2_017, 2_018, 65_535]),
                1 => week.live = (seen + 1).min(65_535),
                2 => week.high = chance.pick(&[live + 1, 65_535]),
                3 => (week.high, week.low) = (live, 1),
                4 => week.low = RESIDUAL_PERFORMANCE_LIMIT + chance.pick(&[0, 1]),
                5 => week.low = U64_MOST,
                6 => (week.live, week.high) = (chance.between(0, 65_535), chance.between(0, 65_535)),
                _ => {}
            }
            words = packed(&week);
            if chance.one_in(3) {
                words[1] += 1 << chance.between(48, 63);
            }
            if chance.one_in(8) {
                words = [chance.between(0, U64_MOST), chance.between(0, U64_MOST)];
            }
        }
        words
    }

    /// A kept record, and a few calls on it.
    fn record_calls(&mut self) -> io::Result<()> {
        let [first, second] = self.draw_record();
        self.say(&format!("keep {first} {second}"))?;
        for _ in 0..self.chance.between(1, 4) {
            let chance = &mut self.chance;
            let whose = draw_whose(chance);
            let length = draw_length(chance, 2);
            let line = if chance.one_in(2) {
                format!("read {whose} {length} {}", draw_length(chance, 2))
            } else {
                let (limit, _) = limits_of(whose);
                let style = chance.pick(&STYLES);
                let drawn = draw_performance(chance, style, limit);
                let edges = [-limit, -limit - 1, limit, limit + 1, I64_LEAST, I64_MOST, drawn, drawn];
                let performance = chance.pick(&edges);
                let live = chance.pick(&[1, 1, 1, 0]);
                format!("add {whose} {live} {performance} {length}")
            };
            self.say(&line)?;
        }
        Ok(())
    }

    fn roster_size(&mut self) -> (usize, usize) {
        let chance = &mut self.chance;
        let long = [(1, 2_016), (3, 2_016), (2, 2_017), (1, 65_537)];
        let wide = [(511, 3), (512, 2), (513, 1), (517, 9), (600, 0)];
        match chance.between(1, 60) {
            1 => chance.pick(&long),
            2..=3 => chance.pick(&wide),
            _ => {
                (chance.pick(&[0, 1, 1, 2, 2, 3, 5, 7, 13]), chance.pick(&[0, 1, 2, 3, 7, 8, 9, 16, 17, 33]))
            }
        }
    }

    /// A roster's members: calm ones, with none, one or several that may be refused.
    fn roster_members(&mut self, members: usize, intervals: usize) -> Vec<MadeWeek> {
        let chance = &mut self.chance;
        let mut all = Vec::new();
        for _ in 0..members {
            let style = chance.pick(&CALM);
            let whose = chance.pick(&[1, 1, 1, 1, 2]);
            let mut week = draw_week(chance, whose, intervals, Style::Small);
            if whose == 1 {
                week = draw_week(chance, whose, intervals, style);
            }
            all.push(week);
        }
        if members > 1 && chance.one_in(3) {
            // Two members with a refusal each: which of them comes first must not matter.
            for number in [chance.pick(&[5, 17]), chance.pick(&[5, 14, 14, 17])] {
                let place = chance.place(members);
                all[place] = refused_week(number, intervals);
            }
            return all;
        }
        let troubled = if members == 0 { 0 } else { chance.pick(&[0, 0, 1, 1, 2, 3]) };
        for _ in 0..troubled {
            let whose = draw_whose(chance);
            let style = chance.pick(&STYLES);
            let place = chance.place(members);
            all[place] = draw_week(chance, whose, intervals, style);
        }
        all
    }

    fn roster_form(&mut self) -> io::Result<()> {
        let (members, intervals) = self.roster_size();
        let weeks = self.roster_members(members, intervals);
        let chance = &mut self.chance;
        let whose: Vec<i128> = weeks.iter().map(|week| week.whose).collect();
        let mut performances: Vec<i128> = weeks.iter().flat_map(|week| week.performances.clone()).collect();
        let mut live: Vec<i128> = weeks.iter().flat_map(|week| live_bytes(chance, &week.live)).collect();
        let count = members as i128;
        let (mut counts, mut defaults) = (count, count);
        match chance.between(1, 24) {
            1 if !performances.is_empty() => performances.truncate(performances.len() - 1),
            2 if !live.is_empty() => live.truncate(live.len() - 1),
            3 if count > 0 => counts -= 1,
            4 if count > 0 => defaults -= 1,
            5..=7 => {
                performances.extend([I64_LEAST, -1]);
                live.push(255);
                (counts, defaults) = (count + 2, count + 1);
            }
            _ => {}
        }
        let line = format!(
            "weeks {intervals} {} {} {} {counts} {defaults}",
            list_word(count, &whose),
            list_word(performances.len() as i128, &performances),
            list_word(live.len() as i128, &live)
        );
        self.say(&line)
    }

    /// Lengths whose product leaves 16, 32 or 64 bits: 12, before any number of the lists is looked at. The lists
    /// are told to be longer than they are, one of them still too short.
    fn roster_too_large(&mut self) -> io::Result<()> {
        let chance = &mut self.chance;
        let (members, intervals): (i128, i128) = chance.pick(&[
            (1, 65_537),
            (3, 32_768),
            (1, u32::MAX as i128),
            (3, 1 << 31),
            (65_536, 65_536),
            (65_537, 65_536),
            (1 << 33, 1 << 31),
            ((1 << 33) + 1, 1 << 31),
            (1 << 36, 1 << 31),
        ]);
        let bytes = bytes_for(intervals);
        let needed = [members * intervals, members * bytes];
        // What is left of the product in a narrower word.
        let wrapped = needed.map(|needed| {
            let bits = chance.pick(&[16, 32, 64]);
            (needed % (1 << bits)).min(needed - 1)
        });
        let told = match chance.place(3) {
            0 => [wrapped[0], needed[1].min(U64_MOST)],
            1 => [needed[0].min(U64_MOST), wrapped[1]],
            _ => wrapped,
        };
        let line = format!(
            "weeks {intervals} {} {} {} {members} {members}",
            list_word(members, &[1, 1]),
            list_word(told[0], &[]),
            list_word(told[1], &[])
        );
        self.say(&line)
    }

    fn one_week(&mut self, nth: usize) -> io::Result<()> {
        let mut whose = draw_whose(&mut self.chance);
        let mut style = STYLES[nth % STYLES.len()];
        let intervals = draw_intervals(&mut self.chance);
        if intervals > 2_000 && self.chance.one_in(2) {
            // A long week that has an answer although its total passes 64 bits.
            (whose, style) = (self.chance.pick(&[0, 0, 2, 512]), Style::AroundDefault);
        }
        let week = draw_week(&mut self.chance, whose, intervals, style);
        self.list_form(&week)?;
        if intervals < 3_000 {
            self.running_form(&week)?;
        }
        match nth % 4 {
            0 | 1 => self.roster_form(),
            2 => self.record_calls(),
            _ if self.chance.one_in(6) => self.roster_too_large(),
            _ => self.record_calls(),
        }
    }
}

/// A script of so many weeks, each in its list form, as a running week, and with a roster or a record
/// beside it.
pub fn write_script(weeks: usize, seed: u64, out: impl Write) -> io::Result<()> {
    let mut script = Script { chance: Chance::new(seed), out };
    (0..weeks).try_for_each(|nth| script.one_week(nth))
}

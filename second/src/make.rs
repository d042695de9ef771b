//! `make`: SEED and CLASS to a valid book. A class names the trait that the book
//! is about; `mixed` draws every trait anew.

use crate::book::*;
use crate::cents::settle_book;
use crate::chance::Chance;
use crate::groups::{self, Spread};
use crate::measure::next_measure;
use crate::quantities::*;
use crate::rules::dropping_tells;
use crate::swings::{self, Swings};
use crate::unequal::{self, Kind};
use crate::write::*;

/// Sizes that are no round numbers, and the limits around 512.
pub const ROSTERS: [usize; 10] = [0, 1, 5, 7, 13, 76, 477, 509, 511, 512];

pub const CLASSES: [(&str, &str); 26] = [
    ("plain", "walking frequencies, readings near the trajectory, few bad units"),
    ("limits", "every field at or next to one of its limits"),
    ("badpoints", "bad frequency points around the limit, bad readings first, last, all"),
    ("percent", "bad units exactly at the percent rule, or one over"),
    ("unreliable", "regions at the edges of reliability: 6 or 7 points, 10,000 or 10,001, separation"),
    ("vacant", "regions without units or without a good unit"),
    ("ties", "equal weights, zero weights, all-zero sides"),
    ("onesided", "requirements with a negative side only, or none"),
    ("cents", "used over enabled, enabled 0, price and cost at their limits, halves of a cent"),
    ("heavy", "defaults at their lowest, measures and deviations at their largest"),
    ("signs", "generation weights that turn or cancel the requirement's sign"),
    ("sets", "all 31 region sets in both directions, up to 32 requirements"),
    ("halves", "measures that decay through halves to 1 or -1"),
    ("mixed", "every trait drawn anew for each record"),
    ("unequal", "equal remainders of different weights, live members and a few bad units"),
    ("standins", "equal remainders of different weights, members that stand on their defaults"),
    ("swings", "frequencies that swing across the band while the measure lags: dropped points"),
    ("band", "frequencies at and next to both edges of the band, FM 0, 1 and -1 outside it"),
    ("runs", "long runs of dropped points, up to all 75, with bad points among them"),
    ("patchy", "dropped points in some regions, none in the others"),
    ("keptties", "equal remainders of different weights over the kept points"),
    ("groups", "units of every trait joined to groups, next to ungrouped ones, at the end, or all in one"),
    ("sidebyside", "groups alone, one next to the other, with numbers unused between and without"),
    ("cancels", "groups of generators and loads that cancel, or but for one cMW"),
    ("badgroups", "groups with a bad unit first, last or between, around the percent rule of members"),
    ("cut", "a book of another class, its units cut into groups that do as they did"),
];

/// The classes of books that have groups.
pub const GROUPED: [&str; 5] = ["groups", "sidebyside", "cancels", "badgroups", "cut"];

/// The classes of books that have none.
pub fn ungrouped() -> Vec<&'static str> {
    CLASSES.iter().map(|(class, _)| *class).filter(|class| !GROUPED.contains(class)).collect()
}

/// The classes of books in which the rule of the share and the one before request R-9 mostly differ.
pub const UNEQUAL: [&str; 3] = ["unequal", "standins", "keptties"];

/// The classes of books in which performance and the one before request R-3 mostly differ.
pub const DROPPING: [&str; 5] = ["swings", "band", "runs", "patchy", "keptties"];

/// The classes that are made for neither.
pub fn others() -> Vec<&'static str> {
    let made_for = |class: &&str| UNEQUAL.contains(class) || DROPPING.contains(class);
    CLASSES.iter().map(|(class, _)| *class).filter(|class| !made_for(class)).collect()
}

/// How many books of a seed there were when seeds were first drawn: a class more renames none of them.
const BOOKS_OF_A_SEED: u64 = 14;

#[derive(Clone, Copy)]
enum Frequencies {
    Walk,
    Edge,
    Constant,
    Extreme,
    Kick,
    Limits,
    Raw,
    Swing(Swings),
}

#[derive(Clone, Copy)]
enum Quality {
    Good,
    WithinLimit,
    AroundLimit,
    Any,
}

#[derive(Clone, Copy)]
enum Readings {
    Walk,
    OnTrajectory,
    Equal,
    Linear,
    Pulse,
    Extreme,
    Limits,
    Raw,
}

#[derive(Clone, Copy)]
enum BadUnits {
    None,
    Few,
    AtPercentOverall,
    AtPercentByRegion,
    Many,
    WholeRegions,
    All,
}

#[derive(Clone, Copy)]
enum Defaults {
    Zero,
    Small,
    Equal,
    LikePerformance,
    Lowest,
    Limits,
}

#[derive(Clone, Copy)]
enum Requirements {
    Plain,
    Edges,
    AllSets,
}

/// What a book is drawn from: each record picks one of the choices.
struct Traits {
    smoothings: Vec<i128>,
    percents: Vec<i128>,
    frequencies: Vec<Frequencies>,
    quality: Vec<Quality>,
    separation_one_in: i128,
    regions_with_units: Vec<usize>,
    readings: Vec<Readings>,
    bad_units: Vec<BadUnits>,
    defaults: Vec<Defaults>,
    requirements: Vec<Requirements>,
    opposed: bool,
}

fn plain() -> Traits {
    Traits {
        smoothings: vec![2_222, 2_222, 10_000, 500, 5_000],
        percents: vec![20, 20, 50, 0],
        frequencies: vec![Frequencies::Walk],
        quality: vec![Quality::Good],
        separation_one_in: 40,
        regions_with_units: vec![5, 4],
        readings: vec![Readings::Walk, Readings::Walk, Readings::Linear, Readings::OnTrajectory],
        bad_units: vec![BadUnits::None, BadUnits::Few],
        defaults: vec![Defaults::LikePerformance, Defaults::Small],
        requirements: vec![Requirements::Plain],
        opposed: false,
    }
}

fn traits_of(class: &str) -> Option<Traits> {
    let base = plain();
    Some(match class {
        "plain" => base,
        "limits" => Traits {
            smoothings: vec![1, 2, 9_999, 10_000],
            percents: vec![0, 1, 99, 100],
            frequencies: vec![Frequencies::Limits, Frequencies::Extreme],
            quality: vec![Quality::Good, Quality::AroundLimit],
            readings: vec![Readings::Limits],
            defaults: vec![Defaults::Limits],
            requirements: vec![Requirements::Edges],
            ..base
        },
        "badpoints" => Traits {
            frequencies: vec![Frequencies::Walk, Frequencies::Constant],
            quality: vec![Quality::AroundLimit],
            percents: vec![100, 50, 20],
            bad_units: vec![BadUnits::Few, BadUnits::Many],
            ..base
        },
        "percent" => Traits {
            smoothings: vec![10_000],
            percents: vec![0, 20, 25, 40, 50, 99, 100],
            frequencies: vec![Frequencies::Constant, Frequencies::Walk],
            bad_units: vec![BadUnits::AtPercentOverall, BadUnits::AtPercentByRegion],
            requirements: vec![Requirements::Plain, Requirements::AllSets],
            separation_one_in: 1_000,
            ..base
        },
        "unreliable" => Traits {
            smoothings: vec![10_000, 10_000, 9_000, 2_222],
            frequencies: vec![Frequencies::Edge],
            quality: vec![Quality::Good, Quality::Good, Quality::AroundLimit],
            separation_one_in: 6,
            ..base
        },
        "vacant" => Traits {
            regions_with_units: vec![1, 2, 3],
            frequencies: vec![Frequencies::Constant, Frequencies::Walk],
            bad_units: vec![BadUnits::None, BadUnits::WholeRegions],
            percents: vec![100, 50],
            ..base
        },
        "ties" => Traits {
            smoothings: vec![10_000],
            frequencies: vec![Frequencies::Constant],
            readings: vec![Readings::Equal, Readings::Equal, Readings::OnTrajectory],
            defaults: vec![Defaults::Equal, Defaults::Zero],
            separation_one_in: 20,
            ..base
        },
        "onesided" => Traits {
            smoothings: vec![10_000],
            percents: vec![100],
            frequencies: vec![Frequencies::Constant],
            readings: vec![Readings::OnTrajectory, Readings::Pulse],
            bad_units: vec![BadUnits::All, BadUnits::WholeRegions, BadUnits::None],
            defaults: vec![Defaults::LikePerformance, Defaults::Zero, Defaults::Small],
            separation_one_in: 10,
            ..base
        },
        "cents" => Traits {
            frequencies: vec![Frequencies::Constant, Frequencies::Walk],
            requirements: vec![Requirements::Edges],
            separation_one_in: 1_000,
            ..base
        },
        "heavy" => Traits {
            smoothings: vec![10_000, 9_999],
            percents: vec![100, 50],
            frequencies: vec![Frequencies::Extreme],
            readings: vec![Readings::Extreme],
            bad_units: vec![BadUnits::None, BadUnits::Many, BadUnits::All, BadUnits::WholeRegions],
            defaults: vec![Defaults::Lowest],
            requirements: vec![Requirements::Edges],
            separation_one_in: 10,
            ..base
        },
        "signs" => Traits {
            opposed: true,
            smoothings: vec![10_000, 5_000],
            separation_one_in: 1_000,
            readings: vec![Readings::Walk, Readings::Linear, Readings::Pulse],
            ..base
        },
        "sets" => Traits {
            requirements: vec![Requirements::AllSets],
            frequencies: vec![Frequencies::Walk, Frequencies::Constant],
            ..base
        },
        "swings" => Traits {
            smoothings: vec![100, 500, 1_000, 2_222, 2_222, 3_333],
            frequencies: vec![Frequencies::Swing(Swings::Wave)],
            separation_one_in: 1_000,
            ..base
        },
        "band" => Traits {
            smoothings: vec![10, 100, 500, 1_000, 2_222, 5_000],
            frequencies: vec![Frequencies::Swing(Swings::Band)],
            quality: vec![Quality::Good, Quality::WithinLimit],
            separation_one_in: 1_000,
            ..base
        },
        "runs" => Traits {
            smoothings: vec![1, 10, 50, 100, 500, 1_000],
            frequencies: vec![Frequencies::Swing(Swings::Run)],
            quality: vec![Quality::Good, Quality::WithinLimit, Quality::WithinLimit, Quality::AroundLimit],
            separation_one_in: 1_000,
            ..base
        },
        "patchy" => Traits {
            smoothings: vec![100, 500, 1_000, 2_222],
            frequencies: vec![
                Frequencies::Swing(Swings::Wave),
                Frequencies::Swing(Swings::Run),
                Frequencies::Swing(Swings::Calm),
                Frequencies::Swing(Swings::Calm),
                Frequencies::Swing(Swings::Calm),
            ],
            quality: vec![Quality::Good, Quality::Good, Quality::WithinLimit],
            bad_units: vec![BadUnits::None, BadUnits::Few, BadUnits::WholeRegions],
            percents: vec![100, 50, 20],
            separation_one_in: 1_000,
            ..base
        },
        "halves" => Traits {
            smoothings: vec![5_000, 2_500, 1, 3_333, 9_999, 7_500, 1_250],
            frequencies: vec![Frequencies::Kick],
            ..base
        },
        "mixed" => Traits {
            smoothings: vec![1, 500, 2_222, 3_333, 5_000, 9_999, 10_000],
            percents: vec![0, 10, 20, 50, 100],
            frequencies: vec![
                Frequencies::Walk,
                Frequencies::Edge,
                Frequencies::Constant,
                Frequencies::Extreme,
                Frequencies::Kick,
                Frequencies::Limits,
                Frequencies::Raw,
            ],
            quality: vec![Quality::Good, Quality::Good, Quality::AroundLimit, Quality::Any],
            separation_one_in: 12,
            regions_with_units: vec![1, 2, 3, 4, 5],
            readings: vec![
                Readings::Walk,
                Readings::OnTrajectory,
                Readings::Equal,
                Readings::Linear,
                Readings::Pulse,
                Readings::Extreme,
                Readings::Limits,
                Readings::Raw,
            ],
            bad_units: vec![
                BadUnits::None,
                BadUnits::Few,
                BadUnits::Many,
                BadUnits::AtPercentOverall,
                BadUnits::AtPercentByRegion,
                BadUnits::WholeRegions,
            ],
            defaults: vec![
                Defaults::Zero,
                Defaults::Small,
                Defaults::Equal,
                Defaults::LikePerformance,
                Defaults::Lowest,
                Defaults::Limits,
            ],
            requirements: vec![Requirements::Plain, Requirements::Edges, Requirements::AllSets],
            opposed: false,
        },
        _ => return None,
    })
}

fn draw_defaults(chance: &mut Chance, style: Defaults, lowest: i128) -> [i128; 6] {
    let equal = chance.pick(&[-1, -1_000]);
    let mut defaults = [0; 6];
    for default in &mut defaults {
        *default = match style {
            Defaults::Zero => 0,
            Defaults::Small => -chance.between(0, 1_000),
            Defaults::Equal => equal,
            Defaults::LikePerformance => -chance.any_size(1_000_000_000_000),
            Defaults::Lowest => lowest,
            Defaults::Limits => chance.pick(&[lowest, lowest + 1, -1, 0]),
        };
    }
    defaults
}

fn draw_settings(chance: &mut Chance, traits: &Traits) -> Settings {
    Settings {
        smoothing: chance.pick(&traits.smoothings),
        bad_frequency_limit: {
            let drawn = chance.between(0, 75);
            chance.pick(&[0, 1, 10, 10, 15, 74, 75, drawn])
        },
        bad_unit_percent: chance.pick(&traits.percents),
        interval: {
            let drawn = chance.between(0, 4_294_967_295);
            chance.pick(&[0, 1, 7, 4_294_967_295, drawn, drawn])
        },
    }
}

/// Marks so many points bad: the first ones, the last ones, or any.
fn spoil(chance: &mut Chance, good: &mut [bool; POINTS], bad: usize) {
    match chance.place(3) {
        0 => good[..bad].fill(false),
        1 => good[POINTS - bad..].fill(false),
        _ => {
            let mut left = bad;
            while left > 0 {
                let point = chance.place(POINTS);
                if good[point] {
                    good[point] = false;
                    left -= 1;
                }
            }
        }
    }
}

fn draw_quality(chance: &mut Chance, style: Quality, limit: i128) -> [bool; POINTS] {
    let bad = match style {
        Quality::Good => 0,
        Quality::WithinLimit => chance.between(0, limit.min(15)),
        Quality::AroundLimit => (limit + chance.between(-1, 1)).clamp(0, POINTS as i128),
        Quality::Any => chance.between(0, POINTS as i128),
    };
    let mut good = [true; POINTS];
    spoil(chance, &mut good, bad as usize);
    good
}

/// A measure that wanders, changes sign and crosses 10,000 either way.
fn walking_measures(chance: &mut Chance) -> [i128; POINTS] {
    let stride = chance.pick(&[300, 3_000, 8_000]);
    let reach = chance.pick(&[10_050, 30_000, 60_000]);
    let mut measure = chance.between(-reach, reach);
    let mut all = [0; POINTS];
    for place in &mut all {
        measure = (measure + chance.between(-stride, stride)).clamp(-reach, reach);
        *place = measure;
    }
    all
}

/// Around the edges: 6, 7 or 8 points of a sign, the largest 10,000 or next to it.
fn edge_measures(chance: &mut Chance) -> [i128; POINTS] {
    let mut all = [0; POINTS];
    let mut places: Vec<usize> = (0..POINTS).collect();
    for sign in [1, -1] {
        let count = chance.pick(&[0, 6, 7, 7, 8, 30]);
        let peak = chance.pick(&[9_999, 10_000, 10_001, 10_001, 20_000]);
        for turn in 0..count {
            let place = places.swap_remove(chance.place(places.len()));
            let small = chance.pick(&[1, 2, peak / 2, peak]);
            all[place] = sign * if turn == 0 { peak } else { small };
        }
    }
    all
}

fn constant_measures(chance: &mut Chance) -> [i128; POINTS] {
    let size = chance.pick(&[10_000, 10_001, 20_000, 20_000, 20_000, 40_000]);
    let sign = chance.pick(&[1, -1]);
    let turn_at = chance.pick(&[0, 0, 7, 37, 68]);
    let mut all = [sign * size; POINTS];
    all[..turn_at].fill(-sign * size);
    all
}

fn extreme_measures(chance: &mut Chance) -> [i128; POINTS] {
    let turn_at = chance.pick(&[0, 0, 0, 7, 37]);
    let sign = chance.pick(&[1, -1]);
    let mut all = [sign * MEASURE_LIMIT; POINTS];
    all[..turn_at].fill(-sign * MEASURE_LIMIT);
    all
}

/// The frequency that brings the measure to its target, as near as the limits let it.
pub fn steer(smoothing: i128, before: i128, target: i128) -> i128 {
    let need = nearest(10_000 * target - (10_000 - smoothing) * before, smoothing);
    FREQUENCY_NOMINAL - need.clamp(-MEASURE_LIMIT, MEASURE_LIMIT)
}

/// Frequencies at the good points that lead the measure along its targets.
fn steered(smoothing: i128, record: &FrequencyRecord, targets: &[i128; POINTS]) -> [i128; POINTS] {
    let mut measure = record.measure_before;
    let mut all = [0; POINTS];
    for point in (0..POINTS).filter(|&point| record.good[point]) {
        all[point] = steer(smoothing, measure, targets[point]);
        measure = next_measure(smoothing, measure, all[point]);
    }
    all
}

fn at_good_points(good: &[bool; POINTS], mut draw: impl FnMut(usize) -> i128) -> [i128; POINTS] {
    let mut all = [0; POINTS];
    for point in (0..POINTS).filter(|&point| good[point]) {
        all[point] = draw(point);
    }
    all
}

fn draw_frequencies(chance: &mut Chance, style: Frequencies, smoothing: i128, record: &mut FrequencyRecord) {
    if let Frequencies::Swing(style) = style {
        return swings::draw(chance, style, smoothing, record);
    }
    let targets = match style {
        Frequencies::Walk => Some(walking_measures(chance)),
        Frequencies::Edge => Some(edge_measures(chance)),
        Frequencies::Constant => Some(constant_measures(chance)),
        Frequencies::Extreme => Some(extreme_measures(chance)),
        Frequencies::Kick | Frequencies::Limits | Frequencies::Raw | Frequencies::Swing(_) => None,
    };
    let near = targets.map_or(0, |targets| targets[0]);
    let drawn = chance.between(-MEASURE_LIMIT, MEASURE_LIMIT);
    record.measure_before = match style {
        Frequencies::Limits => chance.pick(&[-MEASURE_LIMIT, 1 - MEASURE_LIMIT, 0, MEASURE_LIMIT]),
        Frequencies::Kick => chance.pick(&[20_000, -20_000, 10_001, -10_001, 15_000]),
        Frequencies::Raw => drawn,
        _ => chance.pick(&[near, near, near, 0]),
    };
    let good = record.good;
    record.frequencies = match (style, targets) {
        (_, Some(targets)) => steered(smoothing, record, &targets),
        (Frequencies::Kick, _) => {
            at_good_points(&good, |_| FREQUENCY_NOMINAL + chance.pick(&[0, 0, 0, 1, -1]))
        }
        (Frequencies::Limits, _) => at_good_points(&good, |_| {
            chance.pick(&[FREQUENCY_LOWEST, FREQUENCY_LOWEST + 1, FREQUENCY_HIGHEST - 1, FREQUENCY_HIGHEST])
        }),
        _ => at_good_points(&good, |_| chance.between(FREQUENCY_LOWEST, FREQUENCY_HIGHEST)),
    };
}

fn draw_region(chance: &mut Chance, traits: &Traits, settings: &Settings, region: usize) -> FrequencyRecord {
    let mut record = base_frequency(region);
    record.separation = chance.one_in(traits.separation_one_in);
    let quality = chance.pick(&traits.quality);
    record.good = draw_quality(chance, quality, settings.bad_frequency_limit);
    let drawn = chance.between(0, GENERATION_LIMIT);
    record.generation = chance.pick(&[0, 1, 100_000, drawn, drawn, drawn, GENERATION_LIMIT]);
    let defaults = chance.pick(&traits.defaults);
    record.defaults = draw_defaults(chance, defaults, RESIDUAL_DEFAULT_LOWEST);
    let style = chance.pick(&traits.frequencies);
    draw_frequencies(chance, style, settings.smoothing, &mut record);
    record
}

/// Regions pulling against each other: the same walk, turned and scaled, with
/// generations that just cancel it or tip it by one.
fn oppose(chance: &mut Chance, smoothing: i128, records: &mut [FrequencyRecord]) {
    let walk = walking_measures(chance);
    let generation = chance.between(1, 10_000);
    for record in records {
        let sign = chance.pick(&[1, -1]);
        let scale = chance.pick(&[1, 2, 4]);
        let mut targets = walk;
        targets.iter_mut().for_each(|target| *target = sign * *target * (4 / scale));
        record.measure_before = targets[0];
        record.generation = (generation * scale + chance.pick(&[0, 0, 1, -1])).max(0);
        record.frequencies = steered(smoothing, record, &targets);
    }
}

fn on_trajectory(unit: &Unit, point: usize) -> i128 {
    unit.start + (unit.end - unit.start) * (point as i128 + 1) / 75
}

fn within_power(value: i128) -> i128 {
    value.clamp(-POWER_LIMIT, POWER_LIMIT)
}

fn draw_readings(chance: &mut Chance, style: Readings, equal: i128, unit: &mut Unit) {
    let edge = [-POWER_LIMIT, 1 - POWER_LIMIT, -1, 0, 1, POWER_LIMIT - 1, POWER_LIMIT];
    let reach = chance.pick(&[10, 300, 3_000]);
    let level = chance.between(-40_000, 40_000);
    let slope = chance.between(-500, 500);
    let corner = chance.pick(&[1, -1]) * POWER_LIMIT;
    (unit.start, unit.end) = match style {
        Readings::Walk => (level, within_power(level + chance.between(-5_000, 5_000))),
        Readings::OnTrajectory => (level, level + 75 * slope),
        Readings::Equal | Readings::Pulse => (level, level),
        Readings::Linear => (level, level + chance.between(-500, 500)),
        Readings::Extreme => (corner, corner),
        Readings::Limits => (chance.pick(&edge), chance.pick(&edge)),
        Readings::Raw => {
            (chance.between(-POWER_LIMIT, POWER_LIMIT), chance.between(-POWER_LIMIT, POWER_LIMIT))
        }
    };
    let side = chance.pick(&[1, -1]);
    let beat = chance.place(POINTS);
    let mut wander = 0;
    for point in 0..POINTS {
        let t = point as i128 + 1;
        wander += chance.between(-reach, reach);
        unit.readings[point] = within_power(match style {
            Readings::Walk => on_trajectory(unit, point) + wander,
            Readings::OnTrajectory => unit.start + slope * t,
            Readings::Equal => level + side * equal,
            Readings::Linear => level + slope * t,
            Readings::Pulse => level + if point == beat { slope } else { 0 },
            Readings::Extreme => -corner,
            Readings::Limits => chance.pick(&edge),
            Readings::Raw => chance.between(-POWER_LIMIT, POWER_LIMIT),
        });
    }
}

/// Rising numbers that leave room for those still to come.
pub(crate) fn rising_numbers(chance: &mut Chance, count: usize) -> Vec<i128> {
    let mut numbers = Vec::new();
    let mut lowest = chance.pick(&[0, 1, 1]);
    for place in 0..count {
        let room = 65_535 - lowest - (count - place - 1) as i128;
        let gap = chance.pick(&[0, 0, 0, 0, 1, 9, room]).min(room);
        numbers.push(lowest + gap);
        lowest += gap + 1;
    }
    numbers
}

pub(crate) fn make_bad(chance: &mut Chance, unit: &mut Unit) {
    match chance.place(5) {
        0 => unit.good[0] = false,
        1 => unit.good[POINTS - 1] = false,
        2 => unit.good[chance.place(POINTS)] = false,
        3 => unit.good.fill(false),
        _ => {
            let bad = chance.between(1, POINTS as i128) as usize;
            spoil(chance, &mut unit.good, bad);
        }
    }
    for point in (0..POINTS).filter(|&point| !unit.good[point]) {
        unit.readings[point] = 0;
    }
}

/// Makes so many of these units bad, any of them.
fn make_some_bad(chance: &mut Chance, units: &mut [Unit], mut places: Vec<usize>, bad: usize) {
    for _ in 0..bad.min(places.len()) {
        let place = places.swap_remove(chance.place(places.len()));
        make_bad(chance, &mut units[place]);
    }
}

fn draw_bad_units(chance: &mut Chance, style: BadUnits, percent: i128, units: &mut [Unit]) {
    let everyone: Vec<usize> = (0..units.len()).collect();
    let of_region = |units: &[Unit], region: usize| -> Vec<usize> {
        (0..units.len()).filter(|&place| units[place].region == region).collect()
    };
    // The largest number that the rule still bears, or one more.
    let borne = |count: usize| percent as usize * count / 100;
    match style {
        BadUnits::None => {}
        BadUnits::Few => {
            let bad = chance.between(0, 1 + units.len() as i128 / 10) as usize;
            make_some_bad(chance, units, everyone, bad);
        }
        BadUnits::Many => {
            let bad = chance.between(0, units.len() as i128) as usize;
            make_some_bad(chance, units, everyone, bad);
        }
        BadUnits::All => make_some_bad(chance, units, everyone.clone(), everyone.len()),
        BadUnits::AtPercentOverall => {
            let bad = borne(everyone.len()) + chance.place(2);
            make_some_bad(chance, units, everyone, bad);
        }
        BadUnits::AtPercentByRegion => {
            for region in 0..REGIONS {
                let places = of_region(units, region);
                let bad = borne(places.len()) + chance.place(2);
                make_some_bad(chance, units, places, bad);
            }
        }
        BadUnits::WholeRegions => {
            for region in 0..REGIONS {
                if chance.one_in(2) {
                    let places = of_region(units, region);
                    let bad = places.len();
                    make_some_bad(chance, units, places, bad);
                }
            }
        }
    }
}

fn draw_units(chance: &mut Chance, traits: &Traits, percent: i128, roster: usize) -> Vec<Unit> {
    let mut regions: Vec<usize> = (0..REGIONS).collect();
    let wanted = chance.pick(&traits.regions_with_units);
    while regions.len() > wanted {
        regions.swap_remove(chance.place(regions.len()));
    }
    let equal = chance.pick(&[1, 10, 100]);
    let mut units = Vec::new();
    for number in rising_numbers(chance, roster) {
        let mut unit = base_unit(number, chance.pick(&regions));
        unit.load = chance.one_in(3);
        let readings = chance.pick(&traits.readings);
        draw_readings(chance, readings, equal, &mut unit);
        let defaults = chance.pick(&traits.defaults);
        unit.defaults = draw_defaults(chance, defaults, UNIT_DEFAULT_LOWEST);
        units.push(unit);
    }
    let style = chance.pick(&traits.bad_units);
    draw_bad_units(chance, style, percent, &mut units);
    units
}

fn draw_requirement(chance: &mut Chance, style: Requirements, number: i128) -> Requirement {
    let region_set = chance.between(1, 31) as u8;
    let region_set = chance.pick(&[region_set, region_set, region_set, 31, 15, 1 << (number % 5)]);
    let direction = chance.pick(&Direction::BOTH);
    let mut drawn = base_requirement(number, region_set, direction);
    match style {
        Requirements::Plain | Requirements::AllSets => {
            drawn.price = chance.any_size(100_000);
            drawn.cost = chance.any_size(10_000_000);
            drawn.enabled = chance.any_size(100_000);
            drawn.used = chance.between(0, drawn.enabled);
        }
        Requirements::Edges => {
            let price = chance.any_size(PRICE_LIMIT);
            let cost = chance.any_size(COST_LIMIT);
            let enabled = chance.any_size(AMOUNT_LIMIT);
            drawn.price = chance.pick(&[0, 1, 5, 6, 11, 12, price, PRICE_LIMIT - 1, PRICE_LIMIT]);
            drawn.cost = chance.pick(&[0, 1, 2, 3, cost, cost, COST_LIMIT - 1, COST_LIMIT]);
            drawn.enabled = chance.pick(&[0, 1, 2, 3, enabled, enabled, AMOUNT_LIMIT]);
            let around = drawn.enabled + chance.between(-1, 1);
            let half = drawn.enabled / 2;
            drawn.used = chance.pick(&[0, 1, half, around, around, AMOUNT_LIMIT]).clamp(0, AMOUNT_LIMIT);
        }
    }
    drawn
}

fn draw_requirements(chance: &mut Chance, traits: &Traits, roster: usize) -> Vec<Requirement> {
    let style = chance.pick(&traits.requirements);
    let drawn = chance.between(1, 32) as usize;
    let count = match style {
        Requirements::AllSets => chance.pick(&[31, 32]),
        _ if roster > 100 => chance.pick(&[1, 2, 3, drawn]),
        _ => chance.pick(&[1, 2, 3, 31, 32, drawn, drawn, drawn]),
    };
    let first_set = chance.place(31);
    let mut all = Vec::new();
    for (place, number) in rising_numbers(chance, count).into_iter().enumerate() {
        let mut requirement = draw_requirement(chance, style, number);
        if matches!(style, Requirements::AllSets) {
            requirement.region_set = 1 + ((first_set + place) % 31) as u8;
        }
        all.push(requirement);
    }
    all
}

/// The book that traits are drawn for.
fn drawn_book(chance: &mut Chance, traits: &Traits, roster: usize) -> Book {
    let settings = draw_settings(chance, traits);
    let mut frequencies: Vec<FrequencyRecord> =
        (0..REGIONS).map(|region| draw_region(chance, traits, &settings, region)).collect();
    if traits.opposed {
        oppose(chance, settings.smoothing, &mut frequencies);
    }
    let units = draw_units(chance, traits, settings.bad_unit_percent, roster);
    let requirements = draw_requirements(chance, traits, roster);
    Book { settings, frequencies, units, requirements }
}

/// The book that traits are drawn for, a few times if need be until its dropped points show; without units they never do.
fn dropping_book(chance: &mut Chance, traits: &Traits, roster: usize) -> Book {
    let mut book = drawn_book(chance, traits, roster);
    for _ in 0..3 {
        let settled = settle_book(&book).expect("a made book");
        if roster == 0 || dropping_tells(&book, &settled) {
            break;
        }
        book = drawn_book(chance, traits, roster);
    }
    book
}

fn unequal_book(chance: &mut Chance, kind: Kind, roster: usize) -> Book {
    let drawn = chance.between(1, 32) as usize;
    let count = if roster > 100 { chance.pick(&[1, 2, 3]) } else { chance.pick(&[1, 2, 3, 4, drawn]) };
    let units = rising_numbers(chance, roster);
    let requirements = rising_numbers(chance, count);
    unequal::book(chance, kind, &units, &requirements)
}

/// The traits that units are drawn with before they are joined.
const JOINED: [&str; 7] = ["plain", "plain", "mixed", "heavy", "limits", "vacant", "swings"];

/// A book whose units are drawn and then joined to groups.
fn joined_book(chance: &mut Chance, class: &str, roster: usize) -> Book {
    // A region that is unreliable has no RCR, and shows nothing of the percent rule.
    let joined = chance.pick(&JOINED);
    let traits_class = if class == "badgroups" && !chance.one_in(4) { "percent" } else { joined };
    let traits = traits_of(traits_class).expect("a class that is drawn");
    // Bad units are chosen by member, once there are members.
    let bad_units = if class == "groups" { traits.bad_units.clone() } else { vec![BadUnits::None] };
    let percents =
        if class == "badgroups" { vec![0, 20, 25, 40, 50, 99, 100] } else { traits.percents.clone() };
    let mut book = drawn_book(chance, &Traits { bad_units, percents, ..traits }, roster);
    let spread = match class {
        "sidebyside" => Spread::SideBySide,
        "badgroups" if !chance.one_in(6) => Spread::Among,
        _ => groups::draw_spread(chance),
    };
    // Several members are needed for the percent rule to have two sides.
    let largest = if class == "badgroups" { chance.pick(&[2, 3, 3, roster.max(1)]) } else { roster.max(1) };
    groups::join(chance, &mut book.units, spread, largest);
    if class == "cancels" {
        groups::cancel(chance, &mut book.units);
    }
    if class == "badgroups" || (class == "sidebyside" && chance.one_in(4)) {
        groups::spoil_members(chance, book.settings.bad_unit_percent, &mut book.units);
    }
    book
}

/// A book of any class without groups, cut into groups.
fn cut_book(chance: &mut Chance, roster: usize) -> Book {
    let class = chance.pick(&ungrouped());
    let members = chance.pick(&[1, 2, 3, 5, 7, 13, 76, roster]).min(roster);
    let book = make(chance.draw(), class, Some(members)).expect("a class of the list");
    groups::cut(chance, &book, roster).0
}

/// The book of a seed and a class; without a roster the seed picks one.
pub fn make(seed: u64, class: &str, roster: Option<usize>) -> Option<Book> {
    let class_place = CLASSES.iter().position(|(name, _)| *name == class)? as u64;
    let mut chance = Chance::new(seed.wrapping_mul(BOOKS_OF_A_SEED).wrapping_add(class_place));
    let chance = &mut chance;
    let roster = roster.unwrap_or_else(|| chance.pick(&ROSTERS));
    Some(match class {
        "unequal" => unequal_book(chance, Kind::Live, roster),
        "standins" => unequal_book(chance, Kind::StandingIn, roster),
        "keptties" => unequal_book(chance, Kind::LiveOverKept, roster),
        "cut" => cut_book(chance, roster),
        _ if GROUPED.contains(&class) => joined_book(chance, class, roster),
        _ if DROPPING.contains(&class) => dropping_book(chance, &traits_of(class)?, roster),
        _ => drawn_book(chance, &traits_of(class)?, roster),
    })
}

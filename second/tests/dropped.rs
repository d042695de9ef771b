//! Points where measure and frequency disagree (request R-3): the rule's edges, what it is left out of and what not,
//! the worked books, and the made books that are drawn for it.

use std::collections::BTreeMap;
use std::path::Path;

use second::book::{Book, FrequencyRecord};
use second::cents::{settle_book, settle_by_views, Settled};
use second::chance::Chance;
use second::deviation::unit_deviations;
use second::dropped::{dropped_points, is_dropped, BAND_HIGHEST, BAND_LOWEST};
use second::invariants::check;
use second::make::{make, CLASSES, DROPPING};
use second::measure::measures;
use second::performance::{performance, performance_over_all, region_views, RegionView, Standing};
use second::quantities::*;
use second::rcr::{helpful_sum, weighted_measure};
use second::reliability::measures_suffice;
use second::rules::{dropped_in, dropping_tells, over_all_points};
use second::vectors::{decimal, rows};
use second::write::*;
use second::{table_15, worked};

#[test]
fn both_edges_of_the_band_for_both_signs() {
    for measure in [1, 2, 9_999, 5_000_000] {
        assert!(!is_dropped(true, measure, 50_015_000), "at the edge");
        assert!(is_dropped(true, measure, 50_015_001), "past it");
        assert!(is_dropped(true, measure, 55_000_000));
        assert!(!is_dropped(true, -measure, 49_985_000), "at the edge");
        assert!(is_dropped(true, -measure, 49_984_999), "past it");
        assert!(is_dropped(true, -measure, 45_000_000));
        // The other sign.
        for frequency in [45_000_000, 49_984_999, 49_985_000, 49_999_999] {
            assert!(!is_dropped(true, measure, frequency), "{frequency}");
        }
        for frequency in [50_000_001, 50_015_000, 50_015_001, 55_000_000] {
            assert!(!is_dropped(true, -measure, frequency), "{frequency}");
        }
        // Within the band.
        for frequency in [50_000_000, 50_000_001, 50_014_999, 49_999_999, 49_985_001] {
            assert!(!is_dropped(true, measure, frequency), "{frequency}");
            assert!(!is_dropped(true, -measure, frequency), "{frequency}");
        }
    }
}

#[test]
fn no_measure_and_no_good_point_is_kept() {
    for frequency in [45_000_000, 49_984_999, 49_985_000, 50_000_000, 50_015_000, 50_015_001, 55_000_000] {
        assert!(!is_dropped(true, 0, frequency), "FM 0 at {frequency}");
    }
    // A bad point holds 0, which is below the band, and would be dropped wherever FM is below 0.
    for measure in [-5_000_000, -1, 0, 1, 5_000_000] {
        assert!(!is_dropped(false, measure, 0), "{measure}");
    }
}

/// A region whose first point comes from this FM at this frequency; nothing follows but 50 Hz.
fn first_point(smoothing: i128, before: i128, frequency: i128) -> (i128, bool) {
    let mut record = base_frequency(0);
    record.measure_before = before;
    record.frequencies[0] = frequency;
    let measures = measures(smoothing, &record);
    (measures[0], dropped_points(&record, &measures)[0])
}

/// The FM that decides is the one after the point's own step.
#[test]
fn the_measure_after_the_step() {
    // From 20,000 past 0: the FM before has the frequency's sign, the one after has not.
    assert_eq!(first_point(5_000, 20_000, 50_030_000), (-5_000, false));
    assert_eq!(first_point(5_000, -20_000, 49_970_000), (5_000, false));
    // From 20,000 to exactly 0, to 1, and to a half that is rounded away from 0.
    assert_eq!(first_point(5_000, 20_000, 50_020_000), (0, false));
    assert_eq!(first_point(5_000, 20_000, 50_019_998), (1, true));
    assert_eq!(first_point(5_000, 20_000, 50_019_999), (1, true));
    assert_eq!(first_point(5_000, 20_000, 50_020_001), (-1, false));
    assert_eq!(first_point(5_000, -20_000, 49_980_001), (-1, true));
    // Without smoothing FM and frequency never have one sign.
    for frequency in [45_000_000, 49_984_999, 50_015_001, 55_000_000] {
        assert!(!first_point(10_000, 5_000_000, frequency).1, "{frequency}");
        assert!(!first_point(10_000, -5_000_000, frequency).1, "{frequency}");
    }
}

#[test]
fn kept_points_alone_and_all_of_them() {
    let mut chance = Chance::new(5);
    for _ in 0..200 {
        let measures: [i128; POINTS] = std::array::from_fn(|_| chance.between(-30_000, 30_000));
        let deviations: [i128; POINTS] = std::array::from_fn(|_| chance.between(-15_000_000, 15_000_000));
        let dropped: [bool; POINTS] = std::array::from_fn(|_| chance.one_in(3));
        for direction in Direction::BOTH {
            let of = |dropped| performance(direction, &measures, dropped, &deviations);
            let all = performance_over_all(direction, &measures, &deviations);
            assert_eq!(of(&[false; POINTS]), all, "the rule before drops nothing");
            assert_eq!(of(&[true; POINTS]), 0);
            assert_eq!(of(&dropped) + of(&dropped.map(|one| !one)), all);
        }
    }
}

fn book_of(name: &str) -> Book {
    worked::all().into_iter().find(|worked| worked.name == name).expect("a worked book").book
}

/// The dropped points of each region, t from 1.
fn dropped_of(book: &Book) -> Vec<Vec<usize>> {
    let points = |view: &RegionView| (1..=POINTS).filter(|&t| view.dropped[t - 1]).collect();
    region_views(book).iter().map(points).collect()
}

fn performances_of(settled: &[Settled]) -> Vec<Vec<i128>> {
    let of = |one: &Settled| one.lines.iter().map(|line| line.member.payment_performance).collect();
    settled.iter().map(of).collect()
}

/// The frequencies and measures of dropped_edges, worked by hand with a 1,000: FM is nearest of (9·FM - away)/10.
#[test]
fn dropped_edges_by_hand() {
    let book = book_of("dropped_edges");
    assert_eq!(dropped_of(&book), [vec![2, 5, 9, 14, 17, 21], vec![], vec![], vec![], vec![]]);
    let views = region_views(&book);
    let by_hand = [
        16_500, 13_350, 13_350, 13_350, 10_515, 10_964, 8_368, 9_031, 1, 20_001, 0, -20_000, -16_500,
        -13_350, -13_350, -13_350, -10_515, -10_964, -8_368, -9_031, -1, -20_001, 0,
    ];
    assert_eq!(views[0].measures[..23], by_hand);
    assert_eq!(views[0].measures[23..], [0; 52]);
    assert!(views[..2].iter().all(|view| view.reliable_raise && view.reliable_lower));
    // Unit 1 is 3,000 - 462·t away, unit 2 450 - 162·t, unit 3 138·t - 1,050.
    let settled = settle_book(&book).unwrap();
    let kept = |from: usize, to: usize, first: i128, step: i128| -> i128 {
        (from..=to)
            .filter(|&t| !views[0].dropped[t - 1])
            .map(|t| by_hand[t - 1] * (first + step * t as i128))
            .sum()
    };
    let other = |sign: i128, from: i128, to: i128| -> i128 {
        (from..=to).map(|t| sign * 20_000 * (138 * t - 1_050)).sum()
    };
    let raise = [kept(1, 10, 3_000, -462), kept(1, 10, 450, -162), other(1, 1, 8)];
    let lower = [kept(12, 22, 3_000, -462), kept(12, 22, 450, -162), other(-1, 9, 16)];
    for (performances, units) in performances_of(&settled).iter().zip([raise, lower]) {
        assert_eq!(performances[..3], units);
        assert_eq!(performances[3], -units.iter().sum::<i128>(), "the residual is over the same points");
    }
    assert_eq!(performances_of(&settled)[0], [40_657_584, -40_860_216, -68_640_000, 68_842_632]);
    let before = over_all_points(&book).unwrap();
    assert_eq!(performances_of(&before)[0], [75_626_376, -42_964_524, -68_640_000, 35_978_148]);
    // RCR, pools and charges' totals are not moved.
    for (now, before) in settled.iter().zip(&before) {
        let of = |one: &Settled| [one.rcr, one.pool, one.used_pool, one.unused_pool];
        assert_eq!(of(now), of(before));
    }
}

/// RCR with another FM, or with some points left out.
fn rcr_with(book: &Book, views: &[RegionView], place: usize, counts: impl Fn(usize) -> bool) -> i128 {
    let requirement = &book.requirements[place];
    let deviations: Vec<[i128; POINTS]> = book.units.iter().map(unit_deviations).collect();
    (0..POINTS)
        .filter(|&point| counts(point))
        .filter(|&point| {
            let weighted = weighted_measure(requirement, book, views, point);
            if requirement.direction == Direction::Raise {
                weighted > 0
            } else {
                weighted < 0
            }
        })
        .map(|point| {
            helpful_sum(requirement.direction, &deviations.iter().map(|unit| unit[point]).collect::<Vec<_>>())
        })
        .max()
        .unwrap_or(0)
}

/// Dropped points left out of reliability, of RCR, or of the requirement's sign: each is another figure.
#[test]
fn dropped_reliability_needs_its_dropped_points() {
    let book = book_of("dropped_reliability");
    assert_eq!(dropped_of(&book), [vec![1, 12], vec![], vec![], vec![], vec![]]);
    let views = region_views(&book);
    let settled = settle_book(&book).unwrap();
    let live = |one: &Settled| one.lines.iter().all(|line| line.member.standing == Standing::Live);
    assert!(settled.iter().all(live));
    // With FM 0 at dropped points.
    let mut silent = views.clone();
    for view in &mut silent {
        for point in 0..POINTS {
            if view.dropped[point] {
                view.measures[point] = 0;
            }
        }
    }
    for direction in Direction::BOTH {
        assert!(measures_suffice(direction, &views[0].measures));
        assert!(!measures_suffice(direction, &silent[0].measures), "{}", direction.word());
    }
    let kept = |point: usize| !views.iter().any(|view| view.dropped[point]);
    for (place, figures) in [[5_775, 1_200, 7_050], [7_050, 1_200, 5_775]].into_iter().enumerate() {
        let all = rcr_with(&book, &views, place, |_| true);
        let left_out = rcr_with(&book, &views, place, kept);
        let without_sign = rcr_with(&book, &silent, place, |_| true);
        assert_eq!(settled[place].rcr, all);
        assert_eq!([all, left_out, without_sign], figures);
    }
    let before = over_all_points(&book).unwrap();
    assert_eq!(performances_of(&settled)[0][0], -10_125_000);
    assert_eq!(performances_of(&before)[0][0], 76_500_000);
}

/// The frequencies are the table's, and the points dropped are those that its own columns tell of.
#[test]
fn table_15_by_its_own_columns() {
    let dir = Path::new(env!("CARGO_MANIFEST_DIR")).join("../tests/vectors");
    let table = rows(&dir, "frequency_measure.txt");
    let published: Vec<i128> = table.iter().map(|row| decimal(&row[1], 6)).collect();
    assert_eq!(published, table_15::DEVIATIONS);
    let by_columns: Vec<usize> = (1..=POINTS)
        .filter(|&t| {
            let (away, measure) = (decimal(&table[t - 1][1], 5), decimal(&table[t - 1][3], 5));
            let one_sign = (away > 0 && measure > 0) || (away < 0 && measure < 0);
            one_sign && !(-1_500..=1_500).contains(&away)
        })
        .collect();
    assert_eq!(by_columns, table_15::DROPPED_BY_HAND);
    let book = book_of("table_15");
    assert_eq!(dropped_of(&book)[3], table_15::DROPPED_BY_HAND);
    assert_eq!(dropped_in(&book), 3);
    assert!(region_views(&book)[3].reliable_raise && region_views(&book)[3].reliable_lower);
    let settled = settle_book(&book).unwrap();
    assert!(dropping_tells(&book, &settled));
}

/// Where nothing is dropped the rules agree; where they differ, it is by the dropped points, and the invariants notice.
#[test]
fn the_rules_agree_where_nothing_is_dropped() {
    let (mut none, mut some) = (0, 0);
    for (class, _) in CLASSES {
        for seed in 0..30 {
            let book = make(seed, class, Some([1, 5, 13][seed as usize % 3])).unwrap();
            let settled = settle_book(&book).unwrap();
            let before = over_all_points(&book).unwrap();
            if dropped_in(&book) == 0 {
                assert_eq!(settled, before, "{seed} {class}");
                none += 1;
            }
            assert_eq!(dropping_tells(&book, &settled), settled != before, "{seed} {class}");
            assert_eq!(check(&book, &before).is_ok(), settled == before, "{seed} {class}");
            some += usize::from(settled != before);
            for (now, before) in settled.iter().zip(&before) {
                assert_eq!(now.rcr, before.rcr, "{seed} {class}");
                assert_eq!([now.used_pool, now.unused_pool], [before.used_pool, before.unused_pool]);
                for (now, before) in now.lines.iter().zip(&before.lines) {
                    assert_eq!(now.member.standing, before.member.standing, "{seed} {class}");
                    assert_eq!(now.unused, before.unused, "{seed} {class}");
                }
            }
        }
    }
    assert!(none > 200 && some > 100, "{none} books without, {some} with a difference");
}

/// The books that are made for it drop points nearly always, and mostly that moves a figure.
#[test]
fn made_books_drop_points() {
    for class in DROPPING {
        for roster in [1, 5, 13, 76] {
            let (mut dropped, mut tell) = (0, 0);
            for seed in 0..40 {
                let book = make(seed, class, Some(roster)).unwrap();
                dropped += usize::from(dropped_in(&book) > 0);
                tell += usize::from(dropping_tells(&book, &settle_book(&book).unwrap()));
            }
            assert!(dropped >= 38, "{class}, {roster} units: {dropped} of 40 drop points");
            // A unit alone may stand in a region where nothing is dropped.
            let least = if roster == 1 { 15 } else { 28 };
            assert!(tell >= least, "{class}, {roster} units: {tell} of 40 tell the rules apart");
        }
    }
}

fn bad_within_a_run(record: &FrequencyRecord, view: &RegionView, sign: i128) -> bool {
    let drops = |point: usize| view.dropped[point] && view.measures[point].signum() == sign;
    (1..POINTS - 1).any(|point| !record.good[point] && drops(point - 1) && drops(point + 1))
}

/// Counts what the regions of a book show of the rule.
fn notice(book: &Book, settled: &[Settled], seen: &mut BTreeMap<String, u32>) {
    let mut note = |what: &str, sign: i128, shown: bool| {
        let side = if sign > 0 { "above" } else { "below" };
        *seen.entry(format!("{what}, {side}")).or_default() += u32::from(shown);
    };
    let views = region_views(book);
    for (record, view) in book.frequencies.iter().zip(&views) {
        for (sign, edge, direction) in
            [(1, BAND_HIGHEST, Direction::Raise), (-1, BAND_LOWEST, Direction::Lower)]
        {
            let other_edge = BAND_LOWEST + BAND_HIGHEST - edge;
            let mut met = |what: &str, frequency: i128, dropped: bool| {
                let shown = (0..POINTS).any(|point| {
                    record.good[point]
                        && record.frequencies[point] == frequency
                        && view.measures[point].signum() == sign
                        && view.dropped[point] == dropped
                });
                note(what, sign, shown && view.reliable(direction));
            };
            met("one inside the edge on its side", edge - sign, false);
            met("at the edge on its side", edge, false);
            met("one past the edge on its side", edge + sign, true);
            met("at the other edge", other_edge, false);
            met("one past the other edge", other_edge - sign, false);
            let outside = |point: usize| {
                let frequency = record.frequencies[point];
                record.good[point] && (frequency - FREQUENCY_NOMINAL) * sign > 15_000
            };
            let any = |holds: &dyn Fn(usize) -> bool| (0..POINTS).any(holds);
            note("FM 0 outside the band", sign, any(&|point| outside(point) && view.measures[point] == 0));
            note(
                "dropped with FM 1 or -1",
                sign,
                any(&|point| view.dropped[point] && view.measures[point] == sign),
            );
            note("a bad point within a run", sign, bad_within_a_run(record, view, sign));
            note("the first point dropped", sign, view.dropped[0] && view.measures[0].signum() == sign);
            note("the last point dropped", sign, view.dropped[74] && view.measures[74].signum() == sign);
            let of_sign = |point: &usize| view.measures[*point].signum() == sign;
            let all = (0..POINTS).filter(of_sign).count();
            let dropped = (0..POINTS).filter(of_sign).filter(|&point| view.dropped[point]).count();
            note("all of its sign dropped", sign, view.reliable(direction) && all == dropped);
            note("all 75 dropped", sign, dropped == POINTS);
            note("some dropped, some kept", sign, view.reliable(direction) && dropped > 0 && dropped < all);
            let mut silent = view.measures;
            (0..POINTS).filter(|&point| view.dropped[point]).for_each(|point| silent[point] = 0);
            let reliable_by_them = view.reliable(direction) && !measures_suffice(direction, &silent);
            note("reliable by dropped points alone", sign, reliable_by_them);
        }
    }
    let before = over_all_points(book).unwrap();
    for (place, requirement) in book.requirements.iter().enumerate() {
        let sign = if requirement.direction == Direction::Raise { 1 } else { -1 };
        let of_set = || (0..REGIONS).filter(|&region| requirement.includes(region));
        let drops = |region: usize| {
            (0..POINTS).any(|p| views[region].dropped[p] && views[region].measures[p] * sign > 0)
        };
        let live =
            |region: usize| views[region].reliable(requirement.direction) && views[region].good_members > 0;
        let mixed = of_set().any(|r| live(r) && drops(r))
            && of_set().any(|r| live(r) && views[r].dropped == [false; POINTS]);
        note("one region with, one without", sign, mixed);
        let (now, before) = (&settled[place], &before[place]);
        let turned = now.lines.iter().zip(&before.lines).any(|(now, before)| {
            now.member.payment_performance.signum() * before.member.payment_performance.signum() < 0
        });
        note("a member's performance turns its sign", sign, turned);
        note(
            "another payment",
            sign,
            now.lines.iter().zip(&before.lines).any(|(now, before)| now.payment != before.payment),
        );
        let one_region = of_set().count() == 1;
        if one_region && now.rcr > 0 && book.units.iter().all(|unit| unit.good == [true; POINTS]) {
            let region = of_set().next().unwrap();
            let units: Vec<_> =
                book.units.iter().filter(|unit| unit.region == region).map(unit_deviations).collect();
            let at = |p: usize| {
                helpful_sum(requirement.direction, &units.iter().map(|unit| unit[p]).collect::<Vec<_>>())
            };
            let right =
                |p: &usize| views[region].measures[*p] * sign > 0 && book.frequencies[region].generation > 0;
            let kept = (0..POINTS).filter(right).filter(|&p| !views[region].dropped[p]).map(at).max();
            note("RCR at a dropped point", sign, kept.unwrap_or(0) < now.rcr);
        }
    }
}

#[test]
fn made_books_reach_every_side_of_the_rule() {
    let mut seen = BTreeMap::new();
    for class in DROPPING {
        for seed in 0..120 {
            let book = make(seed, class, Some([1, 5, 7, 13][seed as usize % 4])).unwrap();
            notice(&book, &settle_book(&book).unwrap(), &mut seen);
        }
    }
    for (what, count) in &seen {
        println!("{what}: {count}");
    }
    let missing: Vec<_> = seen.iter().filter(|(_, &count)| count < 3).collect();
    assert!(missing.is_empty(), "hardly ever shown: {missing:?}");
    assert_eq!(seen.len(), 36);
}

/// Which points a wrong reading of the rule drops in a region: from the record, FM before a point's step and after it.
type Reading = fn(&FrequencyRecord, usize, i128, i128) -> bool;

fn one_sign(one: i128, other: i128) -> bool {
    one.signum() * other.signum() == 1
}

fn away_at(record: &FrequencyRecord, point: usize) -> i128 {
    record.frequencies[point] - FREQUENCY_NOMINAL
}

/// The frequency of the last good point up to this one, as far from 50 Hz as it is; 0 where there is none.
fn last_good(record: &FrequencyRecord, point: usize) -> i128 {
    (0..=point).rev().find(|&one| record.good[one]).map_or(0, |one| away_at(record, one))
}

const WRONG_READINGS: [(&str, Reading); 11] = [
    ("at the edges too", |record, point, _, measure| {
        record.good[point]
            && one_sign(measure, away_at(record, point))
            && away_at(record, point).abs() >= 15_000
    }),
    ("one later above", |record, point, _, measure| {
        let away = away_at(record, point);
        record.good[point] && one_sign(measure, away) && !(-15_000..=15_001).contains(&away)
    }),
    ("one later below", |record, point, _, measure| {
        let away = away_at(record, point);
        record.good[point] && one_sign(measure, away) && !(-15_001..=15_000).contains(&away)
    }),
    ("by FM before the step", |record, point, before, _| {
        is_dropped(record.good[point], before, record.frequencies[point])
    }),
    ("bad points too, by the 0 that they hold", |record, point, _, measure| {
        is_dropped(true, measure, record.frequencies[point])
    }),
    ("bad points too, by the last good frequency", |record, point, _, measure| {
        is_dropped(true, measure, FREQUENCY_NOMINAL + last_good(record, point))
    }),
    ("inside the band too", |record, point, _, measure| {
        record.good[point] && one_sign(measure, away_at(record, point))
    }),
    ("all that is outside the band", |record, point, _, _| {
        record.good[point] && away_at(record, point).abs() > 15_000
    }),
    ("of other signs", |record, point, _, measure| {
        record.good[point]
            && one_sign(-measure, away_at(record, point))
            && away_at(record, point).abs() > 15_000
    }),
    ("above 0 only", |record, point, _, measure| {
        measure > 0 && is_dropped(record.good[point], measure, record.frequencies[point])
    }),
    ("below 0 only", |record, point, _, measure| {
        measure < 0 && is_dropped(record.good[point], measure, record.frequencies[point])
    }),
];

/// The book's views by a wrong reading of which points are dropped.
fn wrongly_dropped(book: &Book, reading: Reading) -> Vec<RegionView> {
    let mut views = region_views(book);
    for (record, view) in book.frequencies.iter().zip(&mut views) {
        let mut before = record.measure_before;
        for point in 0..POINTS {
            view.dropped[point] = reading(record, point, before, view.measures[point]);
            before = view.measures[point];
        }
    }
    views
}

/// The book's views with dropped points left out of reliability, or of RCR and its sign.
fn left_out(book: &Book, of_reliability: bool) -> Vec<RegionView> {
    let mut views = region_views(book);
    for (record, view) in book.frequencies.iter().zip(&mut views) {
        let mut silent = view.measures;
        (0..POINTS).filter(|&point| view.dropped[point]).for_each(|point| silent[point] = 0);
        if of_reliability {
            let clear = second::reliability::record_suffices(&book.settings, record);
            view.reliable_raise = clear && measures_suffice(Direction::Raise, &silent);
            view.reliable_lower = clear && measures_suffice(Direction::Lower, &silent);
        } else {
            view.measures = silent;
        }
    }
    views
}

/// Every wrong reading, with the views that it has of a book.
fn wrong_views(book: &Book) -> Vec<(&'static str, Vec<RegionView>)> {
    let mut all: Vec<_> =
        WRONG_READINGS.iter().map(|(what, reading)| (*what, wrongly_dropped(book, *reading))).collect();
    all.push(("left out of reliability", left_out(book, true)));
    all.push(("left out of RCR and its sign", left_out(book, false)));
    all
}

/// The wrong readings by which a worked book has another listing.
fn told_by(name: &str) -> Vec<&'static str> {
    let book = book_of(name);
    let settled = settle_book(&book).unwrap();
    wrong_views(&book)
        .into_iter()
        .filter(|(_, views)| settle_by_views(&book, views).as_ref() != Ok(&settled))
        .map(|(what, _)| what)
        .collect()
}

#[test]
fn worked_books_tell_every_wrong_reading_apart() {
    assert_eq!(told_by("dropped_edges"), WRONG_READINGS.map(|(what, _)| what));
    let told = told_by("dropped_reliability");
    assert!(told.contains(&"left out of reliability") && told.contains(&"left out of RCR and its sign"));
}

#[test]
fn made_books_tell_every_wrong_reading_apart() {
    let mut told: BTreeMap<&str, u32> = BTreeMap::new();
    for class in DROPPING {
        for seed in 0..60 {
            let book = make(seed, class, Some([1, 5, 13][seed as usize % 3])).unwrap();
            let settled = settle_book(&book).unwrap();
            for (what, views) in wrong_views(&book) {
                let apart = settle_by_views(&book, &views).as_ref() != Ok(&settled);
                *told.entry(what).or_default() += u32::from(apart);
            }
        }
    }
    println!("of 300 books: {told:#?}");
    assert!(told.values().all(|&books| books >= 20), "of 300 books: {told:#?}");
}

/// What is settled is settled by the views: a view that drops another point gives another performance.
#[test]
fn the_views_decide() {
    let book = book_of("dropped_edges");
    let mut views = region_views(&book);
    assert_eq!(settle_by_views(&book, &views).unwrap(), settle_book(&book).unwrap());
    views[0].dropped[0] = true;
    let moved = performances_of(&settle_by_views(&book, &views).unwrap())[0][0];
    assert_eq!(moved, 40_657_584 - 16_500 * (3_000 - 462));
}

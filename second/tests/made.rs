//! Made and damaged books: valid, far enough spread, and the invariants on all.

mod common;

use std::collections::{BTreeMap, BTreeSet};

use second::book::{read_book, Book};
use second::cents::{settle_book, Settled};
use second::damage::damage;
use second::deviation::unit_is_good;
use second::invariants::{check, split_unit, splits_close};
use second::make::{make, CLASSES, ROSTERS};
use second::performance::{region_views, Reason, Standing};
use second::quantities::*;
use second::write::to_bytes;

fn made(seed: u64, class: &str, roster: usize) -> (Book, Vec<Settled>) {
    let book = make(seed, class, Some(roster)).unwrap();
    let bytes = to_bytes(&book);
    assert_eq!(read_book(&bytes).as_ref(), Ok(&book), "{seed} {class} {roster}");
    let settled = settle_book(&book).unwrap();
    (book, settled)
}

#[test]
fn every_class_at_every_roster_is_valid_and_closes() {
    for (class, _) in CLASSES {
        for roster in ROSTERS {
            for seed in 0..if roster > 100 { 3 } else { 20 } {
                let (book, settled) = made(seed, class, roster);
                assert_eq!(book.units.len(), roster);
                check(&book, &settled).unwrap_or_else(|what| panic!("{seed} {class} {roster}: {what}"));
                splits_close(&book, &settled, seed as usize).unwrap_or_else(|what| panic!("{what}"));
            }
        }
    }
}

#[test]
fn a_seed_names_one_book() {
    for (class, _) in CLASSES {
        assert_eq!(make(3, class, None), make(3, class, None));
        assert_ne!(make(3, class, Some(5)), make(4, class, Some(5)));
    }
    assert_eq!(make(3, "no such class", None), None);
}

#[test]
fn damaged_books_that_are_still_valid_close() {
    let mut valid = 0;
    for seed in 0..2_000u64 {
        let (class, _) = CLASSES[seed as usize % CLASSES.len()];
        let (book, _) = made(seed, class, [0, 1, 5, 7, 13][seed as usize % 5]);
        if let Ok(book) = read_book(&damage(seed, &to_bytes(&book))) {
            valid += 1;
            let settled = settle_book(&book).unwrap();
            check(&book, &settled).unwrap_or_else(|what| panic!("{seed} {class}: {what}"));
        }
    }
    assert!(valid > 100, "{valid}");
}

/// Counts what a book shows, by name.
fn notice(book: &Book, settled: &[Settled], seen: &mut BTreeMap<&'static str, u32>) {
    let mut note = |what: &'static str, shown: bool| *seen.entry(what).or_default() += u32::from(shown);
    let views = region_views(book);
    for (record, view) in book.frequencies.iter().zip(&views) {
        let count = |keep: &dyn Fn(i128) -> bool| view.measures.iter().filter(|&&m| keep(m)).count();
        let bad = record.good.iter().filter(|&&good| !good).count() as i128;
        let clear = !record.separation && bad <= book.settings.bad_frequency_limit;
        let largest = *view.measures.iter().max().unwrap();
        let lowest = *view.measures.iter().min().unwrap();
        note("measure changes sign", largest > 0 && lowest < 0);
        note("six points above 0", clear && count(&|m| m > 0) == 6 && largest > 10_000);
        note("seven points above 0", clear && count(&|m| m > 0) == 7 && largest > 10_000);
        note("six points below 0", clear && count(&|m| m < 0) == 6 && lowest < -10_000);
        note("seven points below 0", clear && count(&|m| m < 0) == 7 && lowest < -10_000);
        note("largest 10,000", clear && largest == 10_000 && count(&|m| m > 0) >= 7);
        note("largest 10,001", clear && largest == 10_001 && count(&|m| m > 0) >= 7);
        note("lowest -10,000", clear && lowest == -10_000 && count(&|m| m < 0) >= 7);
        note("lowest -10,001", clear && lowest == -10_001 && count(&|m| m < 0) >= 7);
        note("separation", record.separation);
        note("bad points at the limit", bad > 0 && bad == book.settings.bad_frequency_limit);
        note("bad points one over", bad == book.settings.bad_frequency_limit + 1);
        note("all points bad", bad == 75);
        note("measure 1 kept", view.measures[70..].iter().all(|&m| m == 1));
        note("measure -1 kept", view.measures[70..].iter().all(|&m| m == -1));
        note("measure at the limit", view.measures.iter().any(|&m| m.abs() == MEASURE_LIMIT));
        note("region without units", view.members == 0);
        note("region without a good unit", view.members > 0 && view.good_members == 0);
        note("reliable both ways", view.reliable_raise && view.reliable_lower);
    }
    for unit in &book.units {
        let bad = unit.good.iter().filter(|&&good| !good).count();
        note("one bad reading", bad == 1);
        note("only the last reading bad", bad == 1 && !unit.good[74]);
        note("all readings bad", bad == 75);
        note("good reading of 0", unit.good.iter().zip(unit.readings).any(|(&g, r)| g && r == 0));
        note("load", unit.load && unit_is_good(unit));
        note("unit number 65,535", unit.number == 65_535);
        note("unit number 0", unit.number == 0);
    }
    for (requirement, settled) in book.requirements.iter().zip(settled) {
        let includes = |region: usize| requirement.includes(region);
        let units: Vec<_> = book.units.iter().filter(|unit| includes(unit.region)).collect();
        let bad = units.iter().filter(|unit| !unit_is_good(unit)).count() as i128;
        let borne = book.settings.bad_unit_percent * units.len() as i128;
        let reliable =
            (0..5).all(|region| !includes(region) || views[region].reliable(requirement.direction));
        note("percent exactly at the edge", reliable && bad > 0 && 100 * bad == borne);
        note(
            "percent just over",
            reliable && 100 * bad > borne && 100 * (bad - 1) <= borne && units.len() > 1,
        );
        note("pool", settled.pool > 0);
        note("lower pool", settled.pool > 0 && settled.direction == Direction::Lower);
        note(
            "pool with a default",
            settled.pool > 0 && settled.lines.iter().any(|l| l.member.standing != Standing::Live),
        );
        note(
            "used over enabled",
            reliable && requirement.used > requirement.enabled && requirement.enabled > 0,
        );
        note("enabled 0", reliable && requirement.enabled == 0 && requirement.cost > 0);
        note("cost at its limit", requirement.cost == COST_LIMIT && reliable);
        note("price at its limit", requirement.price == PRICE_LIMIT && settled.pool > 0);
        note("used unplaced", settled.used_unplaced > 0);
        note("unused unplaced", settled.unused_unplaced > 0);
        let performances: Vec<i128> = settled.lines.iter().map(|l| l.member.payment_performance).collect();
        let positive = performances.iter().any(|&p| p > 0);
        let negative = performances.iter().any(|&p| p < 0);
        note("only negative", negative && !positive);
        note("no performance at all", !negative && !positive && !units.is_empty());
        let weight: i128 = performances.iter().map(|p| -p.min(&0)).sum();
        note("a weight over 2,800,000,000,000,000,000", weight > 2_800_000_000_000_000_000);
        let unused: i128 = settled.lines.iter().map(|l| -l.member.unused_default).sum();
        note("unused weight at its largest", unused == 512 * 5_625_000_000_000_000 + 250_000_000_000_000_000);
        let mut sizes: Vec<i128> = performances.iter().filter(|&&p| p != 0).copied().collect();
        let all = sizes.len();
        sizes.sort_unstable();
        sizes.dedup();
        note("equal weights", sizes.len() < all && settled.pool % (all as i128).max(1) != 0);
        let regional: BTreeSet<i128> = (0..5)
            .filter(|&region| includes(region) && book.frequencies[region].generation > 0)
            .flat_map(|region| views[region].measures.map(i128::signum))
            .collect();
        let weighted: Vec<i128> = (0..POINTS)
            .map(|point| second::rcr::weighted_measure(requirement, book, &views, point))
            .collect();
        note(
            "opposite regions cancel",
            regional.len() > 1
                && weighted.contains(&0)
                && (0..POINTS).any(|p| {
                    weighted[p] == 0
                        && (0..5).any(|r| {
                            includes(r) && views[r].measures[p] != 0 && book.frequencies[r].generation > 0
                        })
                }),
        );
        note(
            "weights turn the sign",
            reliable
                && (0..POINTS).any(|p| {
                    let plain: i128 = (0..5).filter(|&r| includes(r)).map(|r| views[r].measures[p]).sum();
                    plain.signum() * weighted[p].signum() < 0
                }),
        );
        for line in &settled.lines {
            match line.member.standing {
                Standing::Live => note("live", true),
                Standing::Default(Reason::BadUnit) => note("bad unit", true),
                Standing::Default(Reason::NoGoodUnit) => note("no good unit", true),
                Standing::Default(Reason::UnreliableRegion) => note("unreliable region", true),
            }
        }
    }
}

#[test]
fn made_books_reach_every_trait() {
    let mut seen = BTreeMap::new();
    let (mut sets, mut counts) = (BTreeSet::new(), BTreeSet::new());
    for (class, _) in CLASSES {
        for seed in 0..120 {
            let roster = if seed >= 112 { 512 } else { [0, 1, 5, 7, 13, 76][seed as usize % 6] };
            let (book, settled) = made(seed, class, roster);
            notice(&book, &settled, &mut seen);
            counts.insert(book.requirements.len());
            sets.extend(book.requirements.iter().map(|r| (r.region_set, r.direction == Direction::Raise)));
        }
    }
    assert_eq!(sets.len(), 62, "every region set in both directions");
    assert_eq!(counts, (1..=32).collect(), "every number of requirements");
    let missing: Vec<_> = seen.iter().filter(|(_, &count)| count == 0).collect();
    assert!(missing.is_empty(), "never shown: {missing:?}");
}

/// The invariants themselves notice what they are there for.
#[test]
fn the_invariants_notice_a_wrong_figure() {
    let (book, settled) = (0..)
        .map(|seed| made(seed, "plain", 13))
        .find(|(_, settled)| {
            settled[0].pool > 100 && settled[0].used_pool > 100 && settled[0].lines.len() > 4
        })
        .unwrap();
    assert_eq!(check(&book, &settled), Ok(()));
    type Spoil = fn(&mut Settled);
    let wrong: [(&str, Spoil); 9] = [
        ("a cent more", |s| s.lines[0].payment += 1),
        ("a pool of its own", |s| s.pool += 1),
        ("a used cent lost", |s| s.lines.iter_mut().find(|l| l.used < 0).unwrap().used += 1),
        ("an unused cent lost", |s| s.lines.iter_mut().find(|l| l.unused < 0).unwrap().unused += 1),
        ("unplaced although there is weight", |s| s.used_unplaced += 1),
        ("used pool", |s| s.used_pool += 1),
        ("a factor moved", |s| s.lines.iter_mut().find(|l| l.factor > 0).unwrap().factor -= 1),
        ("a last unit left out", |s| {
            s.lines.remove(s.lines.len() - 2);
        }),
        ("a cent moved from one to another", |s| {
            let charged: Vec<usize> = (0..s.lines.len()).filter(|&l| s.lines[l].payment < 0).collect();
            s.lines[charged[0]].payment -= 1;
            s.lines[charged[1]].payment += 1;
        }),
    ];
    for (what, spoil) in wrong {
        let mut spoiled = settled.clone();
        spoil(&mut spoiled[0]);
        assert!(check(&book, &spoiled).is_err(), "{what}");
    }
}

/// The parts of a split unit add up to it and stay within the limits.
#[test]
fn a_split_unit_adds_up() {
    let (book, _) = made(1, "limits", 13);
    for unit in &book.units {
        for part in 2..7 {
            let (one, other) = split_unit(unit, part);
            assert_eq!(one.start + other.start, unit.start);
            assert_eq!(one.end + other.end, unit.end);
            for place in 0..6 {
                assert_eq!(one.defaults[place] + other.defaults[place], unit.defaults[place]);
                assert!(one.defaults[place] <= 0 && other.defaults[place] <= 0);
            }
            for point in 0..POINTS {
                assert_eq!(one.readings[point] + other.readings[point], unit.readings[point]);
                assert!(
                    one.readings[point].abs() <= POWER_LIMIT && other.readings[point].abs() <= POWER_LIMIT
                );
            }
        }
    }
}

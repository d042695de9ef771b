//! Both sides of each edge, as document 01 lists them.

mod common;

use common::{printed, refusal};
use second::book::Book;
use second::cents::{payment_pool, settle_book, Settled};
use second::deviation::deviation;
use second::measure::next_measure;
use second::members::Name;
use second::performance::{region_views, Reason, Standing};
use second::quantities::*;
use second::reliability::measures_suffice;
use second::share::share;
use second::worked::listing_book;
use second::write::*;

fn only(book: &Book) -> Settled {
    settle_book(book).unwrap().remove(0)
}

#[test]
fn nearest_goes_away_from_zero_at_halves() {
    let cases = [
        (5, 10, 1),
        (-5, 10, -1),
        (4, 10, 0),
        (-4, 10, 0),
        (15, 10, 2),
        (-15, 10, -2),
        (0, 3, 0),
        (1, 3, 0),
        (2, 3, 1),
    ];
    for (numerator, denominator, whole) in cases {
        assert_eq!(nearest(numerator, denominator), whole, "{numerator}/{denominator}");
    }
}

#[test]
fn a_measure_of_one_stays() {
    assert_eq!(next_measure(5_000, 1, 50_000_000), 1);
    assert_eq!(next_measure(5_000, -1, 50_000_000), -1);
    assert_eq!(next_measure(5_001, 1, 50_000_000), 0);
    assert_eq!(next_measure(5_001, -1, 50_000_000), 0);
}

#[test]
fn a_bad_point_keeps_the_measure() {
    let mut book = listing_book();
    book.frequencies[0].measure_before = 123;
    book.frequencies[0].good[0] = false;
    book.frequencies[0].frequencies[0] = 0;
    let measures = region_views(&book)[0].measures;
    assert_eq!((measures[0], measures[1]), (123, 20_000));
}

fn series(large: i128, ones: usize) -> [i128; POINTS] {
    let mut all = [0; POINTS];
    all[0] = large;
    all[1..=ones].fill(large.signum());
    all
}

/// Reliability both from the measures alone and through a whole book.
fn reliable(direction: Direction, measures: [i128; POINTS]) -> bool {
    let mut book = base_book();
    for (point, measure) in measures.iter().enumerate() {
        book.frequencies[0].frequencies[point] = 50_000_000 - measure;
    }
    let through_book = region_views(&book)[0].reliable(direction);
    assert_eq!(through_book, measures_suffice(direction, &measures));
    through_book
}

#[test]
fn the_edges_of_reliability() {
    for (direction, sign) in [(Direction::Raise, 1), (Direction::Lower, -1)] {
        assert!(!reliable(direction, [10_000 * sign; POINTS]));
        assert!(reliable(direction, [10_001 * sign; POINTS]));
        assert!(reliable(direction, series(10_001 * sign, 6)));
        assert!(!reliable(direction, series(10_001 * sign, 5)));
        assert!(!reliable(direction, series(10_000 * sign, 74)));
        assert!(!reliable(direction, [-20_000 * sign; POINTS]));
    }
}

#[test]
fn separation_and_bad_points_decide_both_directions() {
    let mut book = base_book();
    book.settings.bad_frequency_limit = 10;
    book.frequencies[0].frequencies[..40].fill(49_980_000);
    book.frequencies[0].frequencies[40..].fill(50_020_000);
    let both = |book: &Book| Direction::BOTH.map(|direction| region_views(book)[0].reliable(direction));
    assert_eq!(both(&book), [true, true]);
    for point in 20..30 {
        book.frequencies[0].good[point] = false;
        book.frequencies[0].frequencies[point] = 0;
    }
    assert_eq!(both(&book), [true, true], "ten bad points, the limit");
    book.frequencies[0].good[30] = false;
    book.frequencies[0].frequencies[30] = 0;
    assert_eq!(both(&book), [false, false], "eleven");
    book.settings.bad_frequency_limit = 11;
    assert_eq!(both(&book), [true, true], "eleven at limit 11");
    book.frequencies[0].separation = true;
    assert_eq!(both(&book), [false, false]);
}

#[test]
fn deviation_of_a_ramp() {
    assert_eq!(deviation(false, 0, 100, 0, 1), -100);
    assert_eq!(deviation(true, 0, 100, 0, 1), 100);
}

fn amounts(total: i128, weights: &[i128]) -> (Vec<i128>, i128) {
    let shared = share(total, weights).unwrap();
    (shared.amounts, shared.unplaced)
}

#[test]
fn the_shares_of_document_01() {
    assert_eq!(amounts(10, &[1, 1, 1]), (vec![4, 3, 3], 0));
    assert_eq!(amounts(2, &[1, 1, 1]), (vec![1, 1, 0], 0));
    assert_eq!(amounts(1, &[1, 2]), (vec![0, 1], 0));
    assert_eq!(amounts(2, &[1, 3]), (vec![0, 2], 0), "1, 1 before request R-9");
    assert_eq!(amounts(5, &[0, 0]), (vec![0, 0], 5));
    assert_eq!(amounts(5, &[]), (vec![], 5));
}

#[test]
fn half_a_cent_of_pool() {
    assert_eq!(payment_pool(6, 7_500, &[1, -1]), 1);
    assert_eq!(payment_pool(5, 7_500, &[1, -1]), 0);
    let mut book = listing_book();
    book.requirements[0].price = 6;
    assert_eq!((only(&book).rcr, only(&book).pool), (7_500, 1));
    book.requirements[0].price = 5;
    assert_eq!((only(&book).rcr, only(&book).pool), (7_500, 0));
}

#[test]
fn a_pool_needs_both_sides() {
    assert_eq!(payment_pool(1_200, 7_500, &[3, -1]), 100);
    for one_sided in [&[3, 0][..], &[-3, 0], &[0, 0], &[]] {
        assert_eq!(payment_pool(1_200, 7_500, one_sided), 0);
    }
}

#[test]
fn the_percent_rule_with_five_units() {
    let mut book = listing_book();
    let unit = book.units[0].clone();
    book.units = (1..=5).map(|number| second::book::Unit { number, ..unit.clone() }).collect();
    let spoil = |book: &mut Book, place: usize| {
        book.units[place].good[74] = false;
        book.units[place].readings[74] = 0;
    };
    assert_eq!(only(&book).rcr, 5 * 7_500);
    spoil(&mut book, 4);
    assert_eq!(only(&book).rcr, 4 * 7_500, "one bad of five keeps RCR");
    spoil(&mut book, 0);
    assert_eq!(only(&book).rcr, 0, "two bad of five make it 0");
    assert_eq!(only(&book).used_pool, 333, "usage stays");
}

/// A roster of this size in one region; the story of the last five units of 477.
fn roster(size: usize) -> Book {
    let mut book = listing_book();
    book.units = (0..size)
        .map(|place| {
            let mut unit = base_unit(place as i128 + 1, 0);
            unit.readings = [place as i128 + 1; POINTS];
            unit
        })
        .collect();
    book
}

#[test]
fn rosters_of_every_size_enter_the_sums() {
    for size in 0..=512usize {
        let book = roster(size);
        let settled = only(&book);
        assert_eq!(settled.lines.len(), size + 1);
        // Unit n is n cMW above its trajectory at 75 points of FM 20,000.
        let step = 75 * 75 * 20_000;
        for (place, line) in settled.lines[..size].iter().enumerate() {
            assert_eq!(line.member.name, Name::Unit(place as i128 + 1));
            assert_eq!(line.member.payment_performance, (place as i128 + 1) * step);
        }
        let sum = (size * (size + 1) / 2) as i128;
        assert_eq!(settled.lines[size].member.payment_performance, -sum * step);
        assert_eq!(settled.rcr, 75 * sum);
        assert!(printed(&book).lines().count() == size + 3);
    }
}

#[test]
fn a_roster_of_513_is_refusal_5() {
    assert_eq!(refusal(&to_bytes(&roster(512))), None);
    assert_eq!(refusal(&to_bytes(&roster(513))), Some(5));
}

#[test]
fn used_is_capped_and_enabled_may_be_zero() {
    let used_pool = |used: i128, enabled: i128| {
        let mut book = listing_book();
        (book.requirements[0].used, book.requirements[0].enabled) = (used, enabled);
        let settled = only(&book);
        assert_eq!(settled.unused_pool, 1_000 - settled.used_pool);
        settled.used_pool
    };
    assert_eq!(used_pool(999, 1_000), 999);
    assert_eq!(used_pool(1_000, 1_000), 1_000);
    assert_eq!(used_pool(1_001, 1_000), 1_000);
    assert_eq!(used_pool(0, 1_000), 0);
    assert_eq!(used_pool(5, 0), 0);
    assert_eq!(used_pool(1, 2_000), 1, "half a cent");
    assert_eq!(used_pool(1, 2_001), 0, "under half a cent");
}

#[test]
fn an_unreliable_region_takes_rcr_and_used_pool() {
    let mut book = listing_book();
    book.requirements[0].region_set = 0b11;
    let settled = only(&book);
    assert_eq!((settled.rcr, settled.pool, settled.used_pool, settled.unused_pool), (0, 0, 0, 1_000));
    assert_eq!(settled.lines[0].member.standing, Standing::Live);
    assert_eq!(settled.lines[2].member.standing, Standing::Default(Reason::UnreliableRegion));
}

#[test]
fn standings_and_their_reasons() {
    let mut book = listing_book();
    book.units[0].good[3] = false;
    book.units[0].readings[3] = 0;
    let standings =
        |book: &Book| -> Vec<Standing> { only(book).lines.iter().map(|line| line.member.standing).collect() };
    let bad = Standing::Default(Reason::BadUnit);
    let unreliable = Standing::Default(Reason::UnreliableRegion);
    assert_eq!(standings(&book), [bad, Standing::Live, Standing::Live]);
    book.units[1].good[74] = false;
    book.units[1].readings[74] = 0;
    assert_eq!(standings(&book), [bad, bad, Standing::Default(Reason::NoGoodUnit)]);
    book.frequencies[0].separation = true;
    assert_eq!(standings(&book), [unreliable; 3], "unreliable is named first");
    book.units.clear();
    assert_eq!(standings(&book), [unreliable]);
    book.frequencies[0].separation = false;
    assert_eq!(standings(&book), [Standing::Live], "a region without a unit");
}

/// A bad unit's readings stay out of the residual and of RCR.
#[test]
fn a_bad_unit_stays_out_of_the_sums() {
    let mut book = listing_book();
    book.settings.bad_unit_percent = 50;
    book.units[1].good[0] = false;
    book.units[1].readings[0] = 0;
    let settled = only(&book);
    assert_eq!(settled.lines[2].member.payment_performance, -11_250_000_000);
    assert_eq!(settled.rcr, 7_500);
}

/// RCR is one largest sum over the set, not a sum of regional ones.
#[test]
fn rcr_is_taken_once_over_the_set() {
    let mut book = listing_book();
    book.requirements[0].region_set = 0b11;
    book.frequencies[1].frequencies = [49_980_000; POINTS];
    book.frequencies[1].generation = 100_000;
    book.units = vec![base_unit(1, 0), base_unit(2, 1)];
    book.units[0].readings[0] = 10;
    book.units[1].readings[1] = 7;
    assert_eq!(only(&book).rcr, 10 * 75);
    // The residual of the set, not of each region: +10 and -10 leave none.
    book.units[1].readings[1] = 0;
    book.units[1].readings[0] = -10;
    assert_eq!(only(&book).rcr, 10 * 75);
    book.units[1].readings[0] = -30;
    assert_eq!(only(&book).rcr, 30 * 75);
}

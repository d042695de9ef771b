//! Where the rules and those before a request differ. The share and the one before request R-9: a settled
//! requirement with its left-overs placed by the rule before, and the shares in which that is another answer. The
//! performance and the one before request R-3: a book settled with no point dropped, and the performances with and
//! without the dropped points.

use std::collections::BTreeSet;
use std::fmt::Write;

use crate::book::{Book, Refusal};
use crate::cents::{negative_weights, positive_weights, settle_book, settle_by_views, Line, Settled};
use crate::describe::series;
use crate::listing::name_of;
use crate::performance::{performance_over_all, region_views, RegionView, Standing};
use crate::quantities::*;
use crate::roster::{grouped, RosterMember};
use crate::share::{share, share_earlier_first};

/// A requirement's shares, the two signs of factors and payments apart.
pub const SHARES: [&str; 6] =
    ["positive factors", "negative factors", "credits", "debits", "used charges", "unused charges"];

/// Whether the two rules place the left-overs of a share differently.
pub fn differ(total: i128, weights: &[i128]) -> bool {
    share(total, weights) != share_earlier_first(total, weights)
}

fn column(settled: &Settled, pick: impl Fn(&Line) -> i128) -> Vec<i128> {
    settled.lines.iter().map(pick).collect()
}

/// The total and the weights of each of the six shares.
pub fn totals_and_weights(settled: &Settled) -> [(i128, Vec<i128>); 6] {
    let payment = column(settled, |line| line.member.payment_performance);
    let used = column(settled, |line| line.member.used_performance);
    let unused = column(settled, |line| line.member.unused_default);
    [
        (FACTOR_ONE, positive_weights(&payment)),
        (FACTOR_ONE, negative_weights(&payment)),
        (settled.pool, positive_weights(&payment)),
        (settled.pool, negative_weights(&payment)),
        (settled.used_pool, negative_weights(&used)),
        (settled.unused_pool, negative_weights(&unused)),
    ]
}

/// In which of its shares the rules differ.
pub fn shares_that_differ(settled: &Settled) -> [bool; 6] {
    totals_and_weights(settled).map(|(total, weights)| differ(total, &weights))
}

/// The shares of a settled book in which the rules differ, with the word of their direction.
pub fn shares_of(all: &[Settled]) -> BTreeSet<(&'static str, &'static str)> {
    let mut found = BTreeSet::new();
    for settled in all {
        let differ = shares_that_differ(settled);
        found.extend(
            (0..SHARES.len())
                .filter(|&share| differ[share])
                .map(|share| (SHARES[share], settled.direction.word())),
        );
    }
    found
}

/// The same requirement as the rule before request R-9 would have settled it.
pub fn earlier_first(settled: &Settled) -> Settled {
    let [helped, hindered, credits, debits, used, unused] = totals_and_weights(settled)
        .map(|(total, weights)| share_earlier_first(total, &weights).expect("a settled share").amounts);
    let mut before = settled.clone();
    for (place, line) in before.lines.iter_mut().enumerate() {
        line.factor = helped[place] - hindered[place];
        line.payment = credits[place] - debits[place];
        line.used = -used[place];
        line.unused = -unused[place];
    }
    before
}

/// The figures of a book's listing that the rule before would have given otherwise, one line a member; empty
/// where there are none, and for a book that is refused.
pub fn in_words(book: &Book) -> String {
    let mut out = String::new();
    for settled in settle_book(book).unwrap_or_default() {
        let before = earlier_first(&settled);
        for (now, before) in settled.lines.iter().zip(&before.lines) {
            let figures = [
                ("factor", now.factor, before.factor),
                ("payment", now.payment, before.payment),
                ("used", now.used, before.used),
                ("unused", now.unused, before.unused),
            ];
            let words: Vec<String> = figures
                .into_iter()
                .filter(|(_, now, before)| now != before)
                .map(|(figure, now, before)| format!("{figure} {before}, now {now}"))
                .collect();
            if !words.is_empty() {
                let (number, name) = (settled.number, name_of(&now.member));
                writeln!(out, "requirement {number}, {name}: {}", words.join("; ")).unwrap();
            }
        }
    }
    out
}

/// The same book as it was settled before request R-3: no point is dropped.
pub fn over_all_points(book: &Book) -> Result<Vec<Settled>, Refusal> {
    let mut views = region_views(book);
    views.iter_mut().for_each(|view| view.dropped = [false; POINTS]);
    settle_by_views(book, &views)
}

/// How many points of a book's regions are dropped.
pub fn dropped_in(book: &Book) -> usize {
    region_views(book).iter().map(|view| view.dropped.iter().filter(|&&dropped| dropped).count()).sum()
}

/// Whether the dropped points move a figure of the book's listing.
pub fn dropping_tells(book: &Book, settled: &[Settled]) -> bool {
    dropped_in(book) > 0 && over_all_points(book).as_deref() != Ok(settled)
}

/// The same book with no unit in a group, as before request R-5.
pub fn without_groups(book: &Book) -> Book {
    let mut book = book.clone();
    book.units.iter_mut().for_each(|unit| unit.group = 0);
    book
}

/// Whether a figure of the book's listing, or a line, is another one without its groups.
pub fn grouping_tells(book: &Book, settled: &[Settled]) -> bool {
    book.units.iter().any(|unit| unit.group != 0)
        && settle_book(&without_groups(book)).as_deref() != Ok(settled)
}

/// A live party's performance over the kept points and over all of them.
fn performances_in_words(
    name: &str,
    direction: Direction,
    view: &RegionView,
    deviations: &[i128; POINTS],
) -> String {
    let kept = view.performance(direction, deviations);
    let all = performance_over_all(direction, &view.measures, deviations);
    format!("  {name}, {}: {kept}, over all 75 points {all}\n", direction.word())
}

/// One region's measures, its dropped points, and the performances of all that is live in it.
fn region_in_words(book: &Book, region: usize, view: &RegionView) -> String {
    let mut out = format!("region {region}: FM {}\n", series(&view.measures));
    for point in (0..POINTS).filter(|&point| view.dropped[point]) {
        let frequency = book.frequencies[region].frequencies[point];
        writeln!(out, "  dropped t {}: frequency {frequency}, FM {}", point + 1, view.measures[point])
            .unwrap();
    }
    for direction in Direction::BOTH {
        let of_region = |member: &&RosterMember| member.region == region;
        for member in grouped(&book.units).iter().filter(of_region) {
            if view.member_standing(direction, member.good) == Standing::Live {
                let name = format!("unit {}", member.number);
                out += &performances_in_words(&name, direction, view, &member.deviations);
            }
        }
        if view.residual_standing(direction) == Standing::Live {
            out += &performances_in_words("residual", direction, view, &view.residual_deviations);
        }
    }
    out
}

/// The regions of a book that have dropped points; empty where there are none.
pub fn dropped_in_words(book: &Book) -> String {
    let views = region_views(book);
    (0..REGIONS)
        .filter(|&region| views[region].dropped != [false; POINTS])
        .map(|region| region_in_words(book, region, &views[region]))
        .collect()
}

//! Weights of few sizes whose remainders tie although they are not equal, and books made of them: where the rule
//! of the share and the one before request R-9 differ.
//!
//! Where W is m·D and the total t·D, the remainder of a weight is D times (t·weight mod m): weights that are alike
//! modulo m tie, whatever their sizes. A common factor of all weights changes nothing.

use crate::book::*;
use crate::cents::{negative_weights, payment_pool, positive_weights, settle_book};
use crate::chance::Chance;
use crate::members::members;
use crate::performance::{region_views, RegionView};
use crate::quantities::*;
use crate::rcr::rcr;
use crate::roster::{grouped, RosterMember};
use crate::rules::{differ, shares_of};
use crate::swings::{self, Swings};
use crate::write::*;

/// How often something is drawn anew before it is left as it came.
const DRAWS: usize = 30;

fn greatest_common_divisor(one: i128, other: i128) -> i128 {
    if other == 0 {
        one
    } else {
        greatest_common_divisor(other, one % other)
    }
}

/// The largest number up to `highest` that leaves `alike` modulo `modulus`, 1 where there is none.
fn alike_below(highest: i128, modulus: i128, alike: i128) -> i128 {
    (highest - (highest - alike).rem_euclid(modulus)).max(1)
}

/// One to three sizes up to `highest`, alike modulo `modulus` but for a stray one here and there.
fn draw_sizes(chance: &mut Chance, modulus: i128, highest: i128) -> Vec<i128> {
    let alike = chance.between(1, modulus - 1);
    let near = chance.one_in(2);
    (0..chance.pick(&[1, 2, 2, 2, 3, 3]))
        .map(|_| {
            let stray = chance.one_in(12);
            let alike = if stray { chance.between(0, modulus - 1) } else { alike };
            let down = modulus * chance.between(0, 9);
            let drawn = chance.between(1, highest);
            alike_below(if near { highest - down } else { drawn }, modulus, alike)
        })
        .collect()
}

/// So many weights that add up to `whole`: all are of few sizes but the one at `place`, which makes up the sum.
fn few_sizes(chance: &mut Chance, count: usize, place: usize, modulus: i128, whole: i128) -> Vec<i128> {
    let sizes = draw_sizes(chance, modulus, (whole / count as i128).max(1));
    let mut weights: Vec<i128> = (0..count).map(|_| chance.pick(&sizes)).collect();
    weights[place] = 0;
    weights[place] = (whole - weights.iter().sum::<i128>()).max(0);
    weights
}

/// Who makes up the sum: the residual, which is the last, or anyone.
#[derive(Clone, Copy)]
enum MakesUp {
    Residual,
    Anyone,
}

/// Weights of few sizes, drawn anew until they tell the rules apart, if a few draws bring that about.
fn telling_weights(
    chance: &mut Chance,
    count: usize,
    who: MakesUp,
    fit: Fit,
    tells: impl Fn(&mut Chance, &[i128]) -> bool,
) -> Vec<i128> {
    let mut weights = Vec::new();
    for _ in 0..DRAWS {
        let place = match who {
            MakesUp::Residual => count - 1,
            MakesUp::Anyone => chance.place(count),
        };
        weights = few_sizes(chance, count, place, fit.modulus, fit.whole);
        if tells(chance, &weights) {
            break;
        }
    }
    weights
}

/// Weights that tell the rules apart when billionths are shared over them.
fn factor_weights(chance: &mut Chance, count: usize, who: MakesUp, fit: Fit) -> Vec<i128> {
    telling_weights(chance, count, who, fit, |_, weights| differ(FACTOR_ONE, weights))
}

/// All of exactly so many sizes and all alike modulo a divisor of their count, so that their sum is a multiple of
/// it too: every one of them ties with every other. With the divisor.
pub fn all_alike(chance: &mut Chance, count: usize, sizes: usize) -> (i128, Vec<i128>) {
    let divisors: Vec<i128> = (2..=count as i128).filter(|divisor| count as i128 % divisor == 0).collect();
    let modulus = chance.pick(&divisors);
    let alike = chance.between(1, modulus - 1);
    let first = alike + modulus * chance.any_size(100_000);
    let apart = modulus * chance.any_size(100_000).max(1);
    let size = |place: usize| first + apart * place as i128;
    let mut weights: Vec<i128> = (0..count).map(|_| size(chance.place(sizes))).collect();
    // Each size is there, however few the members.
    for place in 0..sizes.min(count) {
        weights[count - 1 - place] = size(place);
    }
    (modulus, weights)
}

/// The same shares by larger numbers: every weight so many times as large.
pub fn enlarged(chance: &mut Chance, weights: &[i128], highest_sum: i128) -> Vec<i128> {
    let most = highest_sum / weights.iter().sum::<i128>().max(1);
    let any = chance.any_size(most);
    let times = chance.pick(&[1, any, most]).max(1);
    weights.iter().map(|weight| times * weight).collect()
}

/// A modulus, and a W over which a total of billionths ties what is alike modulo it.
#[derive(Clone, Copy)]
struct Fit {
    modulus: i128,
    whole: i128,
}

/// Every fit of a modulus with a W from `lowest` to `highest`: the modulus times a divisor of 1,000,000,000 whose other part
/// has no factor in common with the modulus.
fn fits(modulus: i128, lowest: i128, highest: i128) -> Vec<Fit> {
    let mut all = Vec::new();
    for (twos, fives) in (0..=9).flat_map(|twos| (0..=9).map(move |fives| (twos, fives))) {
        let divisor = 2_i128.pow(twos) * 5_i128.pow(fives);
        let whole = modulus * divisor;
        let apart = greatest_common_divisor(FACTOR_ONE / divisor, modulus) == 1;
        if apart && (lowest..=highest).contains(&whole) {
            all.push(Fit { modulus, whole });
        }
    }
    all
}

/// A fit for so many weights of each side. Two weights alone tie only as halves. Most moduli divide 1,200: RCR is
/// mostly 75·W, and a price of 1,200·t/m gives a pool of t·W/m.
fn draw_fit(chance: &mut Chance, count: usize, highest: i128) -> Fit {
    let any = chance.between(2, 13);
    let modulus = if count <= 2 { 2 } else { chance.pick(&[2, 2, 3, 3, 4, 6, 8, 12, any, any]) };
    let all = fits(modulus, 26 * count as i128, highest);
    // A modulus of 5 or 10 has no fit below 5·1,953,125.
    if all.is_empty() {
        draw_fit(chance, count, highest)
    } else {
        chance.pick(&all)
    }
}

/// So many weights that tell the rules apart when billionths are shared over them.
pub fn billionths_over(chance: &mut Chance, count: usize) -> Vec<i128> {
    let fit = draw_fit(chance, count, FACTOR_ONE);
    factor_weights(chance, count, MakesUp::Anyone, fit)
}

/// A total up to `most` about which the rules differ, if a few draws find one.
pub fn telling_total(chance: &mut Chance, weights: &[i128], modulus: i128, most: i128) -> Option<i128> {
    let common = weights.iter().fold(0, |common, &weight| greatest_common_divisor(common, weight));
    let whole = weights.iter().sum::<i128>() / common.max(1);
    (0..DRAWS).find_map(|_| {
        let any = chance.between(2, 16);
        let modulus = chance.pick(&[modulus, modulus, any]);
        let total = whole / modulus * chance.between(1, 2 * modulus);
        (whole % modulus == 0 && total <= most && differ(total, weights)).then_some(total)
    })
}

/// What a requirement's three shares are over.
struct Weights {
    payment: Vec<i128>,
    used: Vec<i128>,
    unused: Vec<i128>,
}

fn weights_of(
    requirement: &Requirement,
    book: &Book,
    roster: &[RosterMember],
    views: &[RegionView],
) -> Weights {
    let members = members(requirement, book, roster, views);
    Weights {
        payment: members.iter().map(|member| member.payment_performance).collect(),
        used: negative_weights(&members.iter().map(|member| member.used_performance).collect::<Vec<_>>()),
        unused: negative_weights(&members.iter().map(|member| member.unused_default).collect::<Vec<_>>()),
    }
}

/// A price whose pool the rules share differently, over the credits or over the debits.
fn telling_price(chance: &mut Chance, rcr: i128, payment: &[i128], modulus: i128) -> i128 {
    let sides = [positive_weights(payment), negative_weights(payment)];
    let any = chance.any_size(100_000);
    if rcr == 0 {
        return any;
    }
    let mut draw = || {
        let side = chance.place(2);
        let pool = telling_total(chance, &sides[side], modulus, PRICE_LIMIT * rcr / 90_000)?;
        let price = nearest(90_000 * pool, rcr).min(PRICE_LIMIT);
        let pool = payment_pool(price, rcr, payment);
        sides.iter().any(|side| differ(pool, side)).then_some(price)
    };
    (0..4).find_map(|_| draw()).unwrap_or(any)
}

/// The same ties with totals so many times as large, where the rules still differ about them.
fn draw_times(chance: &mut Chance, totals: [(i128, &[i128]); 2]) -> i128 {
    let cost: i128 = totals.iter().map(|(total, _)| total).sum();
    let most = COST_LIMIT / cost.max(1);
    let telling =
        |times: i128| totals.iter().all(|&(total, weights)| total == 0 || differ(times * total, weights));
    (0..8).map(|_| chance.any_size(most)).find(|&times| times > 0 && telling(times)).unwrap_or(1)
}

/// Cost, enabled and used, so that used and unused pool are totals about which the rules differ.
fn draw_cost(chance: &mut Chance, requirement: &mut Requirement, weights: &Weights, moduli: [i128; 2]) {
    let most = COST_LIMIT / 2;
    let mut draw = |weights: &[i128], modulus: i128| {
        telling_total(chance, weights, modulus, most).unwrap_or_else(|| chance.any_size(1_000))
    };
    let [mut used, unused] = [draw(&weights.used, moduli[0]), draw(&weights.unused, moduli[1])];
    let common = greatest_common_divisor(used, unused).max(1);
    if (used + unused) / common > AMOUNT_LIMIT {
        used = 0;
    }
    let common = greatest_common_divisor(used, unused).max(1);
    let times = draw_times(chance, [(used, &weights.used), (unused, &weights.unused)]);
    requirement.cost = times * (used + unused);
    let (used, enabled) = (used / common, (used + unused) / common);
    let times = chance.any_size(AMOUNT_LIMIT / enabled.max(1)).max(1);
    requirement.enabled = times * enabled;
    requirement.used = times * used;
    // Used over enabled: all of the cost is used.
    if used > 0 && chance.one_in(12) {
        requirement.cost = telling_total(chance, &weights.used, moduli[0], COST_LIMIT).unwrap_or(1);
        requirement.used = requirement.enabled + chance.between(0, AMOUNT_LIMIT - requirement.enabled);
    }
}

/// Requirements over all regions with units, and now and then over any. `moduli` are those of the payment, the
/// used and the unused weights.
fn draw_requirements(
    chance: &mut Chance,
    book: &Book,
    numbers: &[i128],
    moduli: [i128; 3],
) -> Vec<Requirement> {
    let home = book.units.iter().fold(0, |set, unit| set | 1 << unit.region);
    let roster = grouped(&book.units);
    let views = region_views(book);
    let mut all = Vec::new();
    for &number in numbers {
        let any = chance.between(1, 31) as u8;
        let set = if chance.one_in(8) || home == 0 { any } else { home | any & chance.pick(&[0, 31]) };
        let mut requirement = base_requirement(number, set, chance.pick(&Direction::BOTH));
        let weights = weights_of(&requirement, book, &roster, &views);
        let rcr = rcr(&requirement, book, &roster, &views);
        requirement.price = telling_price(chance, rcr, &weights.payment, moduli[0]);
        draw_cost(chance, &mut requirement, &weights, [moduli[1], moduli[2]]);
        all.push(requirement);
    }
    all
}

/// One series for all regions, or a cMW would not come to the same in each: FM of one sign, then of the other, so that
/// both directions are reliable; now and then of one sign only, or a region separated.
fn draw_regions(chance: &mut Chance, book: &mut Book) {
    let turn_at = chance.pick(&[7, 20, 37, 37, 50, 68, 68, 75]);
    let side = chance.pick(&[1, -1]);
    let [lowest, highest] = chance.pick(&[[20_000, 20_000], [10_001, 90_000], [5_000_000, 5_000_000]]);
    let series: [i128; POINTS] = std::array::from_fn(|point| {
        let side = if point < turn_at { side } else { -side };
        FREQUENCY_NOMINAL - side * chance.between(lowest, highest)
    });
    book.settings.smoothing = 10_000;
    for record in &mut book.frequencies {
        record.frequencies = series;
        let drawn = chance.between(1, GENERATION_LIMIT);
        record.generation = chance.pick(&[1, 100_000, drawn, drawn, drawn]);
        record.separation = chance.one_in(40);
    }
}

/// One series for all regions, with dropped points and a worth in both directions, if a few draws bring that about.
fn draw_dropping_regions(chance: &mut Chance, book: &mut Book) {
    book.settings.bad_frequency_limit = 20;
    for _ in 0..DRAWS {
        book.settings.smoothing = chance.pick(&[100, 500, 1_000, 2_222, 2_222]);
        let mut series = base_frequency(0);
        for _ in 0..chance.pick(&[0, 0, 3, 20]) {
            series.good[chance.place(POINTS)] = false;
        }
        let style = chance.pick(&[Swings::Wave, Swings::Wave, Swings::Band, Swings::Run]);
        swings::draw(chance, style, book.settings.smoothing, &mut series);
        for region in 0..REGIONS {
            let generation = chance.between(1, GENERATION_LIMIT);
            let separation = chance.one_in(40);
            book.frequencies[region] = FrequencyRecord { region, generation, separation, ..series.clone() };
        }
        let view = &region_views(book)[0];
        let useful = view.dropped != [false; POINTS] && worth_of_a_step(book).iter().all(|&worth| worth > 0);
        if useful && view.reliable_raise && view.reliable_lower {
            break;
        }
    }
}

/// Units on their trajectories, with their numbers, in one to five regions.
fn draw_units(chance: &mut Chance, numbers: &[i128]) -> Vec<Unit> {
    let mut regions: Vec<usize> = (0..REGIONS).collect();
    let wanted = chance.pick(&[1, 1, 2, 3, 4, 5]);
    while regions.len() > wanted {
        regions.swap_remove(chance.place(regions.len()));
    }
    numbers
        .iter()
        .map(|&number| {
            let mut unit = base_unit(number, chance.pick(&regions));
            unit.load = chance.one_in(3);
            unit
        })
        .collect()
}

/// Readings so far from the trajectory at every point, for a generation unit as for a load.
fn move_off(chance: &mut Chance, unit: &mut Unit, off: i128) {
    let off = if unit.load { -off } else { off };
    let slope = if off.abs() > POWER_LIMIT { 0 } else { chance.between(-100, 100) };
    let ramp = 75 * slope;
    let downward = -off.min(0) - ramp.min(0);
    let upward = off.max(0) + ramp.max(0);
    unit.start = chance.between(downward - POWER_LIMIT, POWER_LIMIT - upward);
    unit.end = unit.start + ramp;
    unit.readings = std::array::from_fn(|point| unit.start + slope * (point as i128 + 1) + off);
}

/// What one cMW off the trajectory, all through the interval, comes to in each direction.
fn worth_of_a_step(book: &Book) -> [i128; 2] {
    let view = &region_views(book)[0];
    let kept = || (0..POINTS).filter(|&point| !view.dropped[point]).map(|point| view.measures[point]);
    let above: i128 = kept().map(|measure| measure.max(0)).sum();
    let below: i128 = kept().map(|measure| -measure.min(0)).sum();
    [75 * above, 75 * below]
}

/// Weights as defaults of one kind: those of the units in turn, and the last as that of the residual in one region.
fn lay_down(chance: &mut Chance, book: &mut Book, kind: usize, weights: &[i128], times: i128) {
    let (residual, units) = weights.split_last().expect("a residual");
    for (unit, weight) in book.units.iter_mut().zip(units) {
        unit.defaults[kind] = -times * weight;
    }
    let any = chance.place(REGIONS);
    let home = book.units.first().map_or(any, |unit| unit.region);
    book.frequencies[home].defaults[kind] = -times * residual;
}

/// A common factor that leaves the weights within the limits of a default.
fn draw_common(chance: &mut Chance, weights: &[i128]) -> i128 {
    let largest = weights.iter().fold(1, |largest, &weight| largest.max(weight));
    let most = -UNIT_DEFAULT_LOWEST / largest;
    chance.pick(&[1, 1, 1_000, most]).min(most)
}

/// Unused defaults for both directions; their modulus.
fn draw_unused(chance: &mut Chance, book: &mut Book) -> i128 {
    let count = book.units.len() + 1;
    let modulus = if count <= 2 { 2 } else { chance.between(2, 13) };
    for kind in [2, 5] {
        let fit = Fit { modulus, whole: modulus * chance.between(2 * count as i128, 100 * count as i128) };
        let weights = telling_weights(chance, count, MakesUp::Anyone, fit, |chance, weights| {
            telling_total(chance, weights, modulus, COST_LIMIT).is_some()
        });
        let common = draw_common(chance, &weights);
        lay_down(chance, book, kind, &weights, common);
    }
    modulus
}

/// Some bad units whose payment defaults bring the side on which they stand to another W that fits, and whose used
/// defaults are a multiple of the same modulus.
fn draw_bad_units(chance: &mut Chance, book: &mut Book, bad: &[usize], fit: Fit) {
    let worth = worth_of_a_step(book);
    let wider = fits(fit.modulus, fit.whole + 1, fit.whole + 200_000);
    for (kind, worth) in [(0, worth[0]), (3, worth[1])] {
        let more = if wider.is_empty() { fit.modulus } else { chance.pick(&wider).whole - fit.whole };
        let used = fit.modulus * chance.between(1, 100 * bad.len() as i128).min(200_000 / fit.modulus);
        let place = chance.place(bad.len());
        let payment = few_sizes(chance, bad.len(), place, fit.modulus, more);
        let used = few_sizes(chance, bad.len(), place, fit.modulus, used);
        for (turn, &unit) in bad.iter().enumerate() {
            book.units[unit].defaults[kind] = -worth * payment[turn];
            book.units[unit].defaults[kind + 1] = -worth * used[turn];
        }
    }
    for &unit in bad {
        let point = chance.place(POINTS);
        book.units[unit].good[point] = false;
        book.units[unit].readings[point] = 0;
    }
}

/// Live units off their trajectories by few sizes. Both sides have the same W, that of one side by its units alone,
/// that of the other with the residual.
fn live_book(chance: &mut Chance, book: &mut Book) -> [i128; 3] {
    let roster = book.units.len();
    let bad = if chance.one_in(2) { 0 } else { chance.between(0, roster as i128 / 4) as usize };
    let mut places: Vec<usize> = (0..roster).collect();
    let mut bad: Vec<usize> = (0..bad).map(|_| places.swap_remove(chance.place(places.len()))).collect();
    bad.sort_unstable();
    places.sort_unstable();
    let alone = (places.len() / 2 + chance.place(2)).clamp(1, places.len());
    let mut with_residual = places;
    let mut by_themselves = Vec::new();
    for _ in 0..alone {
        by_themselves.push(with_residual.swap_remove(chance.place(with_residual.len())));
    }
    by_themselves.sort_unstable();
    with_residual.sort_unstable();
    let fit = draw_fit(chance, alone.max(with_residual.len() + 1), 200_000);
    let side = chance.pick(&[1, -1]);
    let offs = factor_weights(chance, alone, MakesUp::Anyone, fit);
    let other_offs = factor_weights(chance, with_residual.len() + 1, MakesUp::Residual, fit);
    for (&unit, off) in by_themselves.iter().zip(offs) {
        move_off(chance, &mut book.units[unit], side * off);
    }
    for (&unit, off) in with_residual.iter().zip(other_offs) {
        move_off(chance, &mut book.units[unit], -side * off);
    }
    let unused = draw_unused(chance, book);
    if !bad.is_empty() {
        draw_bad_units(chance, book, &bad, fit);
    }
    [fit.modulus, fit.modulus, unused]
}

/// Members that stand on their defaults: every unit bad, or the regions unreliable.
fn standing_in_book(chance: &mut Chance, book: &mut Book) -> [i128; 3] {
    let count = book.units.len() + 1;
    let fit = draw_fit(chance, count, 1_000_000_000);
    for kind in [0, 1, 3, 4] {
        let weights = factor_weights(chance, count, MakesUp::Anyone, fit);
        let common = draw_common(chance, &weights);
        lay_down(chance, book, kind, &weights, common);
    }
    let unused = draw_unused(chance, book);
    if chance.one_in(4) {
        book.frequencies.iter_mut().for_each(|record| record.separation = true);
    } else {
        for unit in &mut book.units {
            let point = chance.place(POINTS);
            unit.good[point] = false;
            unit.readings[point] = 0;
        }
    }
    [fit.modulus, fit.modulus, unused]
}

/// Whose weights tie: those of live members, also over kept points alone, or of members that stand on their defaults.
#[derive(Clone, Copy, Debug, PartialEq, Eq)]
pub enum Kind {
    Live,
    LiveOverKept,
    StandingIn,
}

fn draw_book(chance: &mut Chance, kind: Kind, units: &[i128], requirements: &[i128]) -> Book {
    let mut book = base_book();
    book.settings.interval = chance.between(0, 4_294_967_295);
    book.settings.bad_unit_percent = chance.pick(&[100, 100, 50, 25, 20]);
    match kind {
        Kind::LiveOverKept => draw_dropping_regions(chance, &mut book),
        Kind::Live | Kind::StandingIn => draw_regions(chance, &mut book),
    }
    book.units = draw_units(chance, units);
    let moduli = if kind != Kind::StandingIn && !book.units.is_empty() {
        live_book(chance, &mut book)
    } else {
        standing_in_book(chance, &mut book)
    };
    book.requirements = draw_requirements(chance, &book, requirements, moduli);
    book
}

/// A book of this kind with the numbers of its units and of its requirements. It is drawn a few times if need be, until the rules differ about it; a residual alone ties with nobody.
pub fn book(chance: &mut Chance, kind: Kind, units: &[i128], requirements: &[i128]) -> Book {
    let mut book = draw_book(chance, kind, units, requirements);
    for _ in 0..4 {
        let settled = settle_book(&book).expect("a made book");
        if units.is_empty() || !shares_of(&settled).is_empty() {
            break;
        }
        book = draw_book(chance, kind, units, requirements);
    }
    book
}
